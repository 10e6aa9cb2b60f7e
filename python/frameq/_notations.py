"""Which columns of a run are written as decimals or as dates: what the program is told of their names, and the arguments that say so."""
from typing import Any, Dict, Iterable, List, Mapping, Optional, Sequence

from ._faults import UnsupportedError
from ._kinds import ColumnKind, Date, Declared, Kind, Notations, Schema
from ._made import Made, made_by

# What no name of an argument can have. An entry of `--decimal` has its name before its first `=`, and one of `--date` is all name.
_UNSAID = {",": "a comma", "\0": "a character 0", "=": "an equals sign"}

_INSTEAD = "give the column that the step makes another name, by alias or rename"


def noted(schemas: Iterable[Mapping[str, ColumnKind]]) -> Notations:
    """The notation of each name of these columns that has one. A name has the same in all schemas, where it is an int of the plan."""
    found: Dict[str, Dict[ColumnKind, int]] = {}
    for number, schema in enumerate(schemas):
        for name, kind in schema.items():
            if kind.value == Kind.INT.value:
                found.setdefault(name, {}).setdefault(kind, number)
    for name, kinds in found.items():
        if len(kinds) > 1:
            each = " and ".join(f"a {kind!r} in source {number}" for kind, number in kinds.items())
            raise UnsupportedError(
                f"the column {name!r} is {each}, and a run reads a name in one way: give both the same kind in their schemas, or another "
                "name in the files of one"
            )
    return {name: kind for name, kinds in found.items() for kind in kinds if not isinstance(kind, Kind)}


def declared(sources: Sequence[Schema], steps: Sequence[Dict[str, Any]], schemas: Sequence[Schema]) -> Declared:
    """What the program is told of names: of sources, and of what steps make, whose columns are these before each step and after the last.

    UnsupportedError says that it would have a column for another than the kind that it has here.
    """
    told: Declared = dict(noted(sources))
    of_sources = {name: kind for source in sources for name, kind in source.items() if kind.value == Kind.INT.value}
    made: Dict[str, List[Made]] = {}
    for number, step in enumerate(steps):
        for name, it in made_by(step, schemas[number], schemas[number + 1], sources).items():
            made.setdefault(name, []).append(it)
    for name, several in made.items():
        if name in of_sources:
            _check_name_of_source(name, of_sources[name], several)
        else:
            said = _said(name, several)
            if said is not None:
                told[name] = said
    return told


def _check_name_of_source(name: str, of_source: ColumnKind, several: Sequence[Made]) -> None:
    for it in several:
        if not it.is_right_in(of_source):
            raise UnsupportedError(
                f"the column {name!r} is a {of_source!r} in a source, and a step makes it a {it.kind!r}, which a run would not read so "
                f"under this name: {_INSTEAD}"
            )


def _said(name: str, several: Sequence[Made]) -> Optional[ColumnKind]:
    """What the program is told of a name that steps make and no source has, so that it has each of these for its kind."""
    last = max((number for number, it in enumerate(several) if not it.is_joined), default=-1)
    told = [said for it in several[::-1] for said in ((None, Kind.INT) if it.kind == Kind.INT else (it.kind,))]
    unsaid = ""
    for said in dict.fromkeys([*told, None]):
        if all(it.is_right_as(said, number >= last) for number, it in enumerate(several)):
            unsaid = "" if said is None else _unsaid(name, said)
            if not unsaid:
                return said
    if unsaid:
        raise UnsupportedError(unsaid)
    kinds = " and then ".join(f"a {kind!r}" for kind in dict.fromkeys(it.kind for it in several))
    raise UnsupportedError(f"steps make the column {name!r} {kinds}, which a run would not read so under one name: {_INSTEAD}")


def words_of(notations: Mapping[str, ColumnKind]) -> List[str]:
    """The arguments that say how these columns are written."""
    for name, kind in notations.items():
        unsaid = _unsaid(name, kind)
        if unsaid:
            raise UnsupportedError(unsaid)
    dates = [name for name, kind in notations.items() if kind == Date]
    decimals = [f"{name}={getattr(kind, 'scale', 0)}" for name, kind in notations.items() if kind != Date]
    return [f"{word}={','.join(names)}" for word, names in (("--decimal", decimals), ("--date", dates)) if names]


def _unsaid(name: str, kind: ColumnKind) -> str:
    """Why no argument can say that a column is of this kind; nothing if one can."""
    what = next((what for mark, what in _UNSAID.items() if mark in name and (mark != "=" or kind != Date)), None)
    return "" if what is None else (
        f"the column {name!r} is a {kind!r}, and no argument can say so, since its name has {what}: "
        "give it another name in its files, or a column that a step makes by alias"
    )
