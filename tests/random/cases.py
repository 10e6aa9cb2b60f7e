"""Random plans and files, most of them right, some wrong on purpose. The same seed gives the same cases."""
import json
import random
from collections import namedtuple

import following
import oracle
from oracle import GREATEST, KINDS, LEAST
from plans import DATE, MOST_PLACES

# The most sources and files of a plan.
MOST_SOURCES, MOST_FILES = 8, 16

# The bytes of a plan and of its files, in the order of the sources, the rows of a batch and the workers of one of its runs, and the lists
# of --decimal and --date in their order, pairs of the option and its value.
Case = namedtuple("Case", "plan files batch workers notations", defaults=[()])

NAMES = ["a", "b", "c", "d", "e", "k", "a_right", "é", "x,y", ""]
UNKNOWN = "nowhere"
EDGES = [GREATEST, GREATEST - 1, LEAST, LEAST + 1]
SMALL = [0, 0, 1, 1, 2, 3, -1, -7, 10]
TEXTS = ["", "x", "y", "zz", "é", "\U0001f600", 'a"b', '"q"', "p,q", "l\nm", "l\rm", "true", "7", "sixteen bytes ab",
         "twenty-four bytes in all", "twenty-five bytes in all."]


class Draw(random.Random):
    def often(self, percent):
        """True in so many of a hundred draws."""
        return self.random() * 100 < percent

    def some(self, items, least, most):
        """From `least` to `most` items, each once, as far as there are so many."""
        count = self.randint(least, most)
        return self.sample(items, min(count, len(items)))


# ---- expressions

def literal(draw, kind):
    if draw.often(12):
        return {"null": kind}
    if kind == "int":
        return draw.choice(EDGES if draw.often(8) else SMALL)
    return draw.choice(TEXTS) if kind == "text" else draw.often(50)


def leaf(draw, columns, kind):
    if draw.often(0.2):
        return {"col": UNKNOWN}
    names = [name for name, of_kind in columns.items() if of_kind == kind]
    return {"col": draw.choice(names)} if names and draw.often(75) else literal(draw, kind)


def at_the_edge(draw):
    """An operation whose answer fits 64 bits just so, or just not."""
    if draw.often(15):
        return ["neg", draw.choice(EDGES)]
    return [draw.choice(oracle.ARITHMETIC), draw.choice(EDGES), draw.choice([-1, 0, 1, 2])]


def expression(draw, columns, kind, depth):
    """An expression of a kind, seldom of another, with at most so many operators one in another."""
    if draw.often(0.5):
        kind = draw.choice(KINDS)
    if depth == 0 or draw.often(25):
        return leaf(draw, columns, kind)
    part = lambda of_kind: expression(draw, columns, of_kind, depth - 1)
    if draw.often(12) or kind == "text":
        return ["fill_null", part(kind), part(kind)]
    if kind == "int" and draw.often(4):
        return at_the_edge(draw)
    if kind == "int":
        return ["neg", part("int")] if draw.often(15) else [draw.choice(oracle.ARITHMETIC), part("int"), part("int")]
    operator = draw.choice(["not", "is_null", "is_not_null", "and", "or", *oracle.COMPARISONS])
    if operator in ("and", "or"):
        return [operator, part("bool"), part("bool")]
    if operator == "not":
        return [operator, part("bool")]
    operand = draw.choice(KINDS)
    if operator in oracle.UNARIES:
        return [operator, part(operand)]
    return [operator, part(operand), part(operand)]


# ---- steps

def outputs(draw, columns):
    names = draw.some(NAMES, 0 if draw.often(3) else 1, 3)
    if draw.often(0.7):
        names += [f"wide {number}" for number in range(draw.randint(59, 65))]
    if draw.often(30 if len(names) > 3 else 1.5):
        names += names[-1:]
    return [[name, expression(draw, columns, draw.choice(KINDS), draw.randrange(3))] for name in names]


def filter_step(draw, columns, joins, version):
    return {"filter": expression(draw, columns, "int" if draw.often(1) else "bool", draw.randint(1, 3))}


def with_columns_step(draw, columns, joins, version):
    return {"with_columns": outputs(draw, columns)}


def select_step(draw, columns, joins, version):
    return {"select": outputs(draw, columns)}


def join_step(draw, columns, joins, version):
    if not joins and draw.often(95):
        return filter_step(draw, columns, joins, version)
    number = draw.randrange(len(joins)) if joins and draw.often(97) else draw.choice([-1, len(joins), 99])
    right = joins[number] if 0 <= number < len(joins) else {}
    common = [name for name in columns if columns[name] == right.get(name)]
    if not common and draw.often(90):
        return filter_step(draw, columns, joins, version)
    on = draw.some(common, 1, 2) if common and draw.often(96) else draw.some(NAMES, 0, 2)
    if draw.often(1.5):
        on += on[:1]
    is_new = draw.often(90 if version == 2 else 0.5)
    join = {"source": number, "on": on, "how": draw.choice(["inner", "left", "semi", "anti"] if is_new else ["inner", "left"])}
    if is_new and draw.often(50):
        join["nulls_equal"] = draw.often(70)
    return {"join": join}


def column_name(draw, columns, kind=None):
    """The name of a column, mostly of this kind if one is asked for."""
    names = [name for name in columns if kind in (None, columns[name])]
    if draw.often(1):
        return UNKNOWN
    return draw.choice(names if names and draw.often(97) else list(columns))


def may_sum(draw, columns):
    """Whether to sum a column: if one has whole numbers, and seldom if none has."""
    return "int" in columns.values() or draw.often(10)


def group_by_step(draw, columns, joins, version):
    keys = draw.some(list(columns), 1, 2) if draw.often(98) else draw.some([*columns, UNKNOWN], 0, 1)
    names = draw.some(NAMES if draw.often(5) else [name for name in NAMES if name not in keys], 0, 4)
    aggregates = []
    for name in names:
        function = draw.choice(["len", "sum", "sum", *oracle.FUNCTIONS])
        if function == "len":
            aggregates.append([name, "len"])
        elif function == "sum":
            aggregates.append([name, "sum" if may_sum(draw, columns) else "count", column_name(draw, columns, "int")])
        else:
            aggregates.append([name, function, column_name(draw, columns)])
    return {"group_by": {"keys": keys, "aggs": aggregates}}


def rolling_sum_step(draw, columns, joins, version):
    if not may_sum(draw, columns):
        return filter_step(draw, columns, joins, version)
    window = draw.choice([1, 2, 3, 4, 7, 65536]) if draw.often(96) else draw.choice([0, -1, 65537])
    step = {"column": column_name(draw, columns, "int"), "window": window, "name": draw.choice(NAMES)}
    if draw.often(60):
        step["min_samples"] = draw.randint(1, max(1, min(window, 3))) if draw.often(97) else draw.choice([0, window + 1])
    return {"rolling_sum": step}


STEPS = [filter_step, with_columns_step, select_step, join_step, join_step, group_by_step, rolling_sum_step]


def steps(draw, sources, version):
    """Steps, each on the columns that the one before leaves, up to the first that is refused."""
    try:
        *joins, columns = [oracle.columns_of_source(source["columns"]) for source in sources]
    except oracle.Refusal:
        return []
    drawn = []
    for _ in range(draw.randrange(6)):
        drawn.append(draw.choice(STEPS)(draw, columns, joins, version))
        try:
            columns = oracle.columns_after(columns, oracle.step_of(version, drawn[-1]), joins)
        except (oracle.Refusal, oracle.WrongShape):
            break
    return drawn


# ---- plans

def source(draw):
    columns = [[name, draw.choice(["int", *KINDS])] for name in draw.some(NAMES, 1, 4)]
    if draw.often(0.5):
        wide = [[f"wide {number}", "int"] for number in range(draw.choice([64, 65]))]
        columns = draw.choice([[], columns + columns[:1], wide])
    return {"files": draw.choice([1, 1, 1, 2, 3]), "columns": columns}


def null_values(draw):
    """Texts that are read as null: some that stand in the files, seldom the beginning or the end of one."""
    texts = ["NA", "-", *TEXTS, "0", "1", "-7", "FALSE", "0x", str(GREATEST)[:-1]]
    most = 17 if draw.often(2) else 4
    return [draw.choice(texts) for _ in range(draw.randint(0, most))]


def plan(draw, versions=(1, 2)):
    version = draw.choice(versions)
    count = draw.choice([1, 1, 2, 2, 3]) if draw.often(97) else draw.randint(4, MOST_SOURCES)
    sources = [source(draw) for _ in range(count)]
    if count > 5:
        for one in sources:
            one["files"] = 1
    for one in sources:
        if draw.often(60 if version == 2 else 0.5):
            one["null_values"] = null_values(draw)
    if draw.often(3):
        sources[-1]["files"] = MOST_FILES - sum(one["files"] for one in sources[:-1])
    main = sources[-1]["columns"]
    for joined in sources[:-1]:
        if main and draw.often(80):
            key = draw.choice(main)
            joined["columns"] = [key] + [column for column in joined["columns"] if column[0] != key[0]]
    return {"version": version, "sources": sources, "steps": steps(draw, sources, version)}


def shuffled(draw, value):
    """The same value, with the members of its objects in another order."""
    if isinstance(value, list):
        return [shuffled(draw, item) for item in value]
    if isinstance(value, dict):
        return {name: shuffled(draw, value[name]) for name in draw.sample(list(value), len(value))}
    return value


def text_of(draw, value):
    """The JSON of a value, with or without escapes and spaces, mostly on one line."""
    indent = 2 if draw.often(10) else None
    return json.dumps(shuffled(draw, value), ensure_ascii=draw.often(50), indent=indent).encode()


# ---- plans that are wrong on purpose

# Stand in the place of a part of a plan, where they are seldom right.
STRANGE = [
    None, True, 0, 1, -1, 17, 1.5, 1.0, -0.0, 2**63, 10**30, 10**400, "", "len", "int", "col", [], [[]], {}, {"col": "a"},
]


def places(value):
    """Every place in a value: what holds it, and its index or name there."""
    inner = value.items() if isinstance(value, dict) else enumerate(value) if isinstance(value, list) else []
    for key, part in inner:
        yield value, key
        yield from places(part)


def with_other_part(draw, value):
    """A plan with something strange in one place, or one member or item less or more."""
    value = json.loads(json.dumps(value))
    holder, key = draw.choice(list(places(value)))
    change = draw.randrange(4)
    if change == 0:
        del holder[key]
    elif change == 1 and isinstance(holder, dict):
        holder[draw.choice(["extra", "min_samples", "col", "null_values"])] = draw.choice(STRANGE)
    elif change == 2 and isinstance(holder, list):
        holder.insert(key, draw.choice(STRANGE))
    else:
        holder[key] = draw.choice(STRANGE)
    return value


def past_a_limit(draw, value):
    """A plan at or past a limit on its sources, files, steps or nesting."""
    change = draw.randrange(4)
    if change == 0:
        value["sources"] = [{"files": 1, "columns": [["a", "int"]]}] * draw.choice([0, 8, 9])
        value["steps"] = []
    elif change == 1:
        others = sum(one["files"] for one in value["sources"][1:])
        value["sources"][0]["files"] = draw.choice([0, 16 - others, 17 - others, 17])
    elif change == 2:
        value["steps"] = [{"filter": True}] * draw.choice([64, 65])
    else:
        predicate: object = True
        for _ in range(draw.choice([123, 124, 125, 200])):
            predicate = ["not", predicate]
        value["steps"] = [{"filter": predicate}]
    return value


TOKENS = [
    "-0", "1e999", "1" * 400, "NaN", "-Infinity", "01", "1.", "+1", "tru", "'a'", "[1,]", '{"col": "a",}',
    r'"\ud800"', r'"\ude00"', r'"\ud83d\ude00"', r'"\x"', '"\x01"', '"\t"', r'"a\/b"', '"', "", "1 2",
]


def with_other_token(draw, value):
    """A text with one value spelt in an odd way, mostly in no way that JSON has."""
    value = json.loads(json.dumps(value))
    holder, key = draw.choice([place for place in places(value) if not isinstance(place[0][place[1]], (list, dict))])
    holder[key] = "the odd one"
    return text_of(draw, value).replace(b'"the odd one"', draw.choice(TOKENS).encode())


def with_other_bytes(draw, text):
    """A text with a few bytes changed, added or missing: mostly no JSON."""
    at = draw.randrange(len(text))
    middle = draw.choice([b"", b"\xff", b",", b'"', b"\x00", b"}", b"\\", b" ", b"\xef\xbb\xbf"])
    return text[:at] + middle + text[at + draw.randrange(2):]


def with_double_version(draw, value):
    """A text in which the version is given twice; the last counts."""
    first, last = draw.choice([(1, 2), (2, 1), (1, 3), (3, 2)])
    return text_of(draw, {**value, "version": first})[:-1] + b', "version": %d}' % last


def wrong_plan_text(draw, value):
    change = draw.randrange(12)
    if change < 5:
        return text_of(draw, with_other_part(draw, value))
    if change < 7:
        return text_of(draw, past_a_limit(draw, value))
    if change < 9:
        return with_other_token(draw, value)
    if change < 11:
        return with_other_bytes(draw, text_of(draw, value))
    return with_double_version(draw, value)


# ---- plans with notations: each step is drawn with what follows for the columns before it

# The names of columns with notations; no source has the last ones.
NOTED_NAMES = [*(name for name in NAMES if "," not in name), "b_right", "k_right", "t", "u", "v"]
NAMES_OF_SOURCES = ["a", "b", "c", "k", "é", "x,y", "a_right"]
SCALES = [0, 0, 1, 2, 2, 2, 3, 4, 4, 9, 10, MOST_PLACES - 1, MOST_PLACES]
FACTORS = [2, 3, 7, 10, 10, 100, 100, 100, 1000, -10, -100, 20, 50, 119, 250, 1200, 10_000, 10**18, 0, 1]
AMOUNTS_BESIDE = [5, 50, 100, 1250, -350, 20240229]
PARTS_OF_DAYS = [1, 1, 100, 100, 100, 10_000, 10_000, 7, -100, ["mul", 10, 10]]

# How plans with notations end by what follows from them, with the weight of each.
JUDGEMENTS = {"": 44, following.DIFFER: 22, following.UNNAMED: 34}
MOST_TRIES = 12

# Stand in the place of numbers in steps, so that days are compared and cut.
NUMBERS_OF_DAYS = [100, 10_000, 20240229, 20240301, 19000228, 101, 10101, 99991231]

# What a step is drawn for: the kinds of the columns before it, the notations of those that are ints, the columns of the sources before the
# last, the version of the plan, and the notations that arguments give to names, if they are given.
Before = namedtuple("Before", "columns notations joins version wished")


def noted_number(draw, notation):
    """A literal beside something of a notation."""
    if draw.often(6):
        return {"null": "int"}
    if notation == DATE and draw.often(90):
        return draw.choice(NUMBERS_OF_DAYS if draw.often(15) else [20240229, 20240301, 19000228, 99991231, -20240229])
    number = draw.choice(FACTORS if draw.often(60) else AMOUNTS_BESIDE)
    if draw.often(8):
        return [draw.choice(oracle.ARITHMETIC), number, draw.choice(FACTORS)]
    return ["neg", number] if draw.often(5) else number


def noted_leaf(draw, notations, wanted):
    """A column of a notation if there is one, seldom another, or a literal."""
    names = [name for name, notation in notations.items() if notation == wanted]
    if draw.often(3 if names else 60):
        names = list(notations)
    return {"col": draw.choice(names)} if names and draw.often(85) else noted_number(draw, wanted)


def noted_product(draw, scales, wanted, part):
    """A product or a quotient that may have a scale, with a literal that moves the point or without one, seldom one that may not have it.
    `part` draws a part of a scale."""
    change, zeros, other = draw.randrange(8), draw.choice([1, 1, 2, 3]), draw.choice([0, *scales])
    if change == 0:
        return ["mul", part(max(0, wanted - zeros)), 10**zeros]
    if change in (1, 4):
        return ["floordiv", part(min(wanted + zeros, MOST_PLACES)), draw.choice([1, 1, -1, 2, 12]) * 10**zeros]
    if change == 2:
        return ["floordiv", part(min(wanted + other, MOST_PLACES)), part(other)]
    if change == 3:
        return [draw.choice(["mul", "floordiv"]), part(wanted), draw.choice(FACTORS)]
    if change == 5:
        return [draw.choice(["mul", "mul", "floordiv"]), part(other), part(draw.choice([0, *scales]))]
    other = min(other, wanted)
    return ["mul", *draw.sample([part(other), part(wanted - other)], 2)]


def noted_int(draw, notations, wanted, depth):
    """An int expression that mostly may have a notation, with at most so many operators one in another."""
    if draw.often(4):
        wanted = draw.choice([0, DATE, *notations.values()])
    if depth == 0 or draw.often(25):
        return noted_leaf(draw, notations, wanted)
    part = lambda notation: noted_int(draw, notations, notation, depth - 1)
    if wanted == DATE and draw.often(95):
        return ["fill_null", part(DATE), noted_number(draw, DATE) if draw.often(30) else part(DATE)]
    if wanted == DATE:
        return draw.choice([["neg", part(DATE)], ["add", part(DATE), 1], ["sub", part(DATE), part(DATE)]])
    if wanted == 0 and DATE in notations.values() and draw.often(40):
        other = draw.choice([draw.choice(PARTS_OF_DAYS)] * 3 + [noted_number(draw, 0), part(0)])
        return [draw.choice(["floordiv", "mod"]), part(DATE), other]
    if draw.often(45):
        return noted_product(draw, [notation for notation in notations.values() if notation != DATE], wanted, part)
    if draw.often(10):
        return ["neg", part(wanted)]
    sides = [part(wanted), noted_number(draw, wanted) if draw.often(30) else part(wanted)]
    return [draw.choice(["add", "add", "sub", "sub", "mod", "fill_null"]), *draw.sample(sides, 2)]


def noted_truth(draw, before, depth):
    """A truth value, mostly by a comparison of ints."""
    wanted = draw.choice([0, *before.notations.values()])
    whole = noted_int(draw, before.notations, wanted, depth)
    change = draw.randrange(10)
    if change < 6 or depth == 0:
        other = noted_number(draw, wanted) if draw.often(35) else noted_int(draw, before.notations, wanted, 1)
        return [draw.choice(oracle.COMPARISONS), *draw.sample([whole, other], 2)]
    if change == 6:
        return [draw.choice(["is_null", "is_not_null"]), whole]
    if change == 7:
        return expression(draw, {name: kind for name, kind in before.columns.items() if kind != "int"}, "bool", 1)
    if change == 8:
        return ["not", noted_truth(draw, before, depth - 1)]
    return [draw.choice(oracle.LOGIC), noted_truth(draw, before, depth - 1), noted_truth(draw, before, depth - 1)]


def notation_for(draw, before, name):
    """A notation for what is made under a name: mostly the one that arguments give it, or that it has."""
    if name in before.wished and draw.often(75):
        return before.wished[name]
    if name in before.notations and draw.often(50):
        return before.notations[name]
    return draw.choice([0, *before.notations.values()])


def names_of_items(draw, before, least, most):
    """Names for what a step makes, some of them those of columns that are there, most of all of those that may be keys of a join."""
    keys = [name for columns in before.joins for name in columns if name in before.notations]
    return list(dict.fromkeys(draw.some([*NOTED_NAMES, *before.notations, *keys, *keys], least, most)))


def noted_item(draw, before, name):
    if draw.often(10):
        return [name, noted_truth(draw, before, 1)]
    if draw.often(5):
        return [name, expression(draw, before.columns, "text", 1)]
    return [name, noted_int(draw, before.notations, notation_for(draw, before, name), draw.randint(0, 3))]


def noted_column(draw, before, name):
    """An int column for an aggregate of a name, if there is one."""
    wanted = notation_for(draw, before, name)
    of_notation = [column for column, notation in before.notations.items() if notation == wanted]
    return draw.choice(of_notation or list(before.notations) or list(before.columns))


def noted_filter(draw, before):
    """A filter, of which some keep all rows or those where its truth value is null too."""
    truth = noted_truth(draw, before, 2)
    return {"filter": draw.choice([truth, ["fill_null", truth, True], ["or", truth, True], ["or", truth, True]])}


def noted_with_columns(draw, before):
    return {"with_columns": [noted_item(draw, before, name) for name in names_of_items(draw, before, 1, 3)]}


def noted_select(draw, before):
    """Some columns as they are or by another name, and other items."""
    names = names_of_items(draw, before, 1, 2)
    kept = [name for name in draw.some(list(before.columns), 1, 5) if name not in names]
    return {"select": [[name, {"col": name}] for name in kept] + [noted_item(draw, before, name) for name in names]}


def noted_join(draw, before):
    """A join if a source has a column that is there, or else items."""
    has_common = any(set(before.columns.items()) & set(columns.items()) for columns in before.joins)
    return join_step(draw, before.columns, before.joins, before.version) if has_common else noted_with_columns(draw, before)


def noted_group_by(draw, before):
    keys = draw.some(list(before.columns), 1, 2)
    aggregates = []
    for name in [name for name in names_of_items(draw, before, 0, 4) if name not in keys]:
        function = draw.choice(["len", "sum", *oracle.FUNCTIONS])
        column = column_name(draw, before.columns) if function != "sum" and draw.often(10) else noted_column(draw, before, name)
        aggregates.append([name, function, column][:2 if function == "len" else 3])
    return {"group_by": {"keys": keys, "aggs": aggregates}}


def noted_rolling_sum(draw, before):
    name = names_of_items(draw, before, 1, 1)[0]
    return {"rolling_sum": {"column": noted_column(draw, before, name), "window": draw.choice([1, 2, 3]), "min_samples": 1, "name": name}}


NOTED_STEPS = [
    noted_filter, noted_with_columns, noted_with_columns, noted_select, noted_join, noted_join, noted_group_by, noted_rolling_sum,
]
WITH_ITEMS = [noted_with_columns, noted_select]  # which alone lack a scale


def int_names(frames):
    return {name for columns in frames for name, kind in columns.items() if kind == "int"}


def judgement(value, wished):
    """The columns after the last step of a plan, their notations where names are given these, and why it is refused, if it is; or None if
    it is no plan."""
    try:
        read = oracle.plan_of(value)
        sources, along = oracle.check(read)
    except (oracle.Ending, oracle.WrongShape):
        return None
    names = int_names([*sources, *along])
    given = {name: notation for name, notation in wished.items() if name in names}
    try:
        return along[-1], following.notations_along(read, sources, along, given)[-1], ""
    except oracle.Ending as ending:
        return along[-1], {}, ending.line.rpartition(": ")[2]


def and_again(draw, value, before):
    """A plan, seldom with one more step, which makes a name that its last step made or brought."""
    judged = None if draw.often(80) else judgement(value, before.wished)
    if not judged:
        return value
    ints = int_names(judged[:1])
    made = following.made_by(oracle.step_of(before.version, value["steps"][-1]))
    names = sorted(name for name in ints if name in made or name not in before.columns)
    if not names:
        return value
    known = judged[1] or {**dict.fromkeys(ints, 0), **before.wished, **before.notations}
    after = before._replace(columns=judged[0], notations={name: known[name] for name in sorted(ints)})
    again = {draw.choice(["with_columns", "select"]): [noted_item(draw, after, draw.choice(names))]}
    return {**value, "steps": [*value["steps"], again]}


def with_step(draw, value, wished, why, tries):
    """A plan with a step more, or two, after which it is refused for this reason, or "", if one of so many draws has it so; or else the
    plan."""
    columns, notations, _ = judgement(value, wished)
    joins = [dict(one["columns"]) for one in value["sources"][:-1]]
    before = Before(columns, notations, joins, value["version"], wished)
    for _ in range(tries):
        step = draw.choice(WITH_ITEMS if why == following.UNNAMED else NOTED_STEPS)
        longer = and_again(draw, {**value, "steps": [*value["steps"], step(draw, before)]}, before)
        judged = judgement(longer, wished)
        if judged and judged[2] == why:
            return longer
    return value


def noted_source(draw, version, key):
    """A source of ints in the first place; others are joined to the main one by its key."""
    names = draw.some([name for name in NAMES_OF_SOURCES if name != key], 1, 4)
    columns = [[key, "int"], *([name, draw.choice(["int", "int", "int", *KINDS])] for name in names)]
    one = {"files": draw.choice([1, 1, 1, 2]), "columns": draw.sample(columns, len(columns))}
    if version == 2 and draw.often(40):
        one["null_values"] = null_values(draw)[:16]
    return one


def noted_plan(draw, versions):
    """A plan, and the notations that its names are given. It mostly ends as it is to end by what follows from them."""
    version, key = draw.choice(versions), draw.choice(NAMES_OF_SOURCES)
    names = [name for name in NOTED_NAMES if draw.often(85 if name in NAMES_OF_SOURCES else 45)]
    wished = {name: DATE if draw.often(20) else draw.choice(SCALES) for name in names}
    sources = [noted_source(draw, version, key) for _ in range(draw.choice([1, 2, 2, 3]))]
    value = {"version": version, "sources": sources, "steps": []}
    why = draw.choices(list(JUDGEMENTS), list(JUDGEMENTS.values()))[0]
    for _ in range(draw.randint(0 if why else 1, 5)):
        value = with_step(draw, value, wished, "", MOST_TRIES)
    if why:
        value = with_step(draw, value, wished, why, 6 * MOST_TRIES)
    return value, wished


# ---- notations

UNKNOWN_NOTATIONS = [f"{UNKNOWN}=2", "a =2", "A=2"]
WRONG_NOTATIONS = ["a", "a=", "a=-1", f"a={MOST_PLACES + 1}", "a=-2", "a=2.0", "a= 2", "a=2=", "a=1=2", "x,y=2",
                   "a=99999999999999999999", "a=2,"]


def frames_of(value):
    """The columns of each source of a plan, and those after each step where none is refused."""
    try:
        sources, columns_along = oracle.check(oracle.plan_of(value))
    except (oracle.Ending, oracle.WrongShape):
        return [dict(one["columns"]) for one in value["sources"]]
    return [*sources, *columns_along]


def entry_of_decimal(draw, name, scale):
    return f"{name}={draw.choice(['%d'] * 8 + ['+%d', '%02d']) % scale}"


def cut(draw, entries):
    """Lists of the entries, in order."""
    at = draw.randint(0, len(entries)) if draw.often(30) else 0
    return [",".join(part) for part in (entries[:at], entries[at:]) if part]


def lists_of(draw, notations):
    """The lists that give notations to names; seldom there is something wrong with one."""
    entries = {
        "--decimal": [entry_of_decimal(draw, name, notation) for name, notation in notations.items() if notation != DATE],
        "--date": [name for name, notation in notations.items() if notation == DATE],
    }
    if draw.often(3):
        entries["--decimal"].insert(draw.randint(0, len(entries["--decimal"])), draw.choice(UNKNOWN_NOTATIONS))
    if draw.often(3):
        entries["--date"].append(draw.choice([UNKNOWN, *NAMES, *notations, *notations]))
    if draw.often(2):
        entries["--decimal"].append(draw.choice(WRONG_NOTATIONS))
    lists = [(option, value) for option, listed in entries.items() for value in cut(draw, listed)]
    return draw.sample(lists, len(lists))


def notations_of(draw, value, wished=None):
    """Notations of int columns of a plan, of its sources or after any step, in any order: those that are wished, or any. A name with a
    comma cannot have one."""
    drawn = {}
    names = sorted(name for name in int_names(frames_of(value)) if "," not in name)
    for name in draw.sample(names, len(names)):
        if wished is not None and name in wished:
            drawn[name] = wished[name]
        if wished is None and draw.often(60):
            drawn[name] = DATE if draw.often(30) else draw.choice(SCALES)
    return drawn


def with_days(draw, value):
    """Puts numbers of days in the place of some of an expression's."""
    if isinstance(value, dict):
        return {name: part if name in ("source", "window", "min_samples") else with_days(draw, part) for name, part in value.items()}
    if isinstance(value, list):
        return [with_days(draw, part) for part in value]
    is_number = isinstance(value, int) and not isinstance(value, bool)
    return draw.choice(NUMBERS_OF_DAYS) if is_number and draw.often(25) else value


def with_null_days(draw, sources):
    """Adds a text that is a day or a decimal to some lists of texts that are null."""
    for one in sources:
        if 0 < len(one.get("null_values", [])) < 16 and draw.often(40):
            one["null_values"].append(draw.choice(["2024-02-29", "9999-12-31", "0.00", "0.50", "1.5", "."]))


# ---- files

# How often rows have numbers near the limits of 64 bits, fields that are long, some of them longer than a read, and something wrong
# with them, in percent.
Care = namedtuple("Care", "edges long wrong")

WRONG_FIELDS = ["1.5", "no", " 1", "1 ", "+-1", "+", "-", "9223372036854775808", "-9223372036854775809", "1e3", "٣", "truE "]


AMOUNTS = [0, 1, -1, 5, 50, 99, -100, 1250, -350, 20240229, 1_000_000_007]
WRONG_DECIMALS = [".", "-", "+.", "-.", "--1", "+-1", "1..5", "1.2.3", "1,5", "1e3", "1.5e0", " 1.5", "1.5 ", "1_0.5", "0x1", "NaN",
                  "inf", "٣.5"]

DAYS = ["2024-02-29", "2024-03-01", "2024-03-31", "2023-12-31", "2000-02-29", "1900-02-28", "0001-01-01", "9999-12-31"]
WRONG_DAYS = ["2023-02-29", "1900-02-29", "2024-04-31", "2024-01-32", "2024-01-00", "2024-00-10", "2024-13-01", "0000-01-01",
              "2024-1-05", "2024-01-5", "20240105", "2024/01/05", "2024-01/05", "2024\u201301\u201305", " 2024-01-05", "2024-01-05 ",
              "+2024-01-05", "-2024-01-05", "12024-01-05", "024-01-05", "2024-01-05T00:00", "2024-W01-1", "2024-001", "05-01-2024",
              "2024-01", "٢٠٢٤-01-05"]


WHOLE_DECIMALS = ["1.", "1.0", ".5", "0.0", "-.0", "1.50"]  # which a column of scale 0 doesn't take


def with_point(number, scale):
    """The digits before and behind the point of a number without its sign."""
    digits = f"{abs(number):0{scale + 1}}"
    return digits[:-scale], digits[-scale:]


def decimal_field(draw, scale, care):
    """A decimal, with more or fewer zeros than it needs, and with no digit where it needs none."""
    number = draw.choice(EDGES if draw.often(care.edges) else AMOUNTS)
    whole, behind = with_point(number, scale)
    change = draw.randrange(8)
    if change < 2:
        behind = behind.rstrip("0")
    elif change == 2:
        behind += "0" * (5000 if draw.often(care.long) else draw.choice([1, 2, 30]))
    elif change == 3:
        whole = whole.lstrip("0")
    elif change == 4:
        whole = "00" + whole
    sign = "-" if number < 0 else draw.choice(["", "", "", "+", "-" if number == 0 else ""])
    return f"{sign}{whole}{'.' if behind or draw.often(50) else ''}{behind}".encode()


def wrong_decimal(draw, scale):
    """A text that is no decimal of this scale, or seldom one: past 64 bits, or with a digit too many."""
    whole, behind = with_point(draw.choice([2**63, 2**63 + 1, 10**19, 2**64]), scale)
    zeros = "0" * draw.randint(0, 2)
    return draw.choice([f"{draw.choice(['', '-'])}{whole}.{behind}", f"1.{'0' * scale}{zeros}1", *WRONG_DECIMALS]).encode()


def wrong_field(draw, kind, notation):
    if kind == "int" and notation is not None and draw.often(85):
        if notation == 0:
            return draw.choice(WHOLE_DECIMALS).encode()
        return draw.choice(WRONG_DAYS).encode() if notation == DATE else wrong_decimal(draw, notation)
    return draw.choice(WRONG_FIELDS).encode() if draw.often(90) else b"\xff"


def field(draw, kind, notation, care, nulls):
    if nulls and draw.often(15):
        return draw.choice(nulls).encode()
    if draw.often(care.wrong):
        return wrong_field(draw, kind, notation)
    if draw.often(18):
        return b""
    if kind == "int" and notation:
        return draw.choice(DAYS).encode() if notation == DATE else decimal_field(draw, notation, care)
    if kind == "int":
        number = draw.choice(EDGES if draw.often(care.edges) else SMALL)
        return draw.choice(["%d", "%d", "%d", "%+d", "%05000d" if draw.often(care.long) else "%03d"]).encode() % number
    if kind == "bool":
        return draw.choice([b"true", b"false", b"TRUE", b"False"])
    if draw.often(care.long):
        return (draw.choice(TEXTS) + "-").encode() * draw.choice([2_000, 11_000, 40_000])
    return draw.choice(TEXTS).encode()


def quoted(draw, text, care):
    """A field as it stands in a file: in quotes if it needs them, seldom without; and now and then if it does not.
    Seldom its last bytes stand after the last quote, where quotes and all else are what they are."""
    needs_quotes = any(mark in text for mark in (b",", b'"', b"\r", b"\n"))
    if draw.often(100 - care.wrong if needs_quotes else 4):
        last = len(text) - draw.choice([1, 1, 2]) if len(text) > 2 and draw.often(4) else len(text)
        if any(mark in text[last:] for mark in (b",", b"\r", b"\n")) or text[last:].startswith(b'"'):
            last = len(text)
        return b'"' + text[:last].replace(b'"', b'""') + b'"' + text[last:]
    return text


def line(draw, fields, care):
    return b'""' if fields == [b""] else b",".join(quoted(draw, one, care) for one in fields)


def header(draw, columns, care):
    names = [name.encode() for name, _ in columns]
    if draw.often(care.wrong * 2):
        spaced = [b" " + names[0], *names[1:]]
        names = draw.choice([names[::-1], names[1:], [*names, b"z"], [name.upper() for name in names], spaced])
    return line(draw, names, care)


def row(draw, columns, notations, care, nulls):
    fields = [field(draw, kind, notations.get(name), care, nulls) for name, kind in columns]
    if draw.often(care.wrong / 2):
        fields = draw.choice([[*fields, b"1"], fields[1:] or [b"", b""]])
    return line(draw, fields, care)


def csv_file(draw, columns, notations, most_rows, care, nulls):
    if draw.often(care.wrong / 2):
        return draw.choice([b"", b"\n\n", b"\xef\xbb\xbf"])
    lines = [b""] * draw.often(3) + [header(draw, columns, care)]
    for _ in range(draw.randint(0, most_rows)):
        lines.append(row(draw, columns, notations, care, nulls))
        if draw.often(3):
            lines.append(b"")
    ends = draw.choice([[b"\n"], [b"\n"], [b"\r\n"], [b"\r"], [b"\n", b"\r\n", b"\r"]])
    mark = b"\xef\xbb\xbf" if draw.often(3) else b""
    if len(lines) > 1 and draw.often(3):
        # a mark that is part of a field, wherever a run of records may begin
        place = draw.randrange(1, len(lines))
        lines[place] = b"\xef\xbb\xbf" + lines[place]
    if draw.often(20):
        last = lines.pop()
    else:
        last = b'"torn' if draw.often(care.wrong / 2) else b""
    return mark + b"".join(one + draw.choice(ends) for one in lines) + last


def files_of(draw, value, rows, notations=None):
    """Files for all sources, whose int columns have these notations. Seldom the main source is large, with more rows than a batch has by
    default, unless the most rows are given."""
    care = Care(edges=draw.choice([0, 0, 2, 25]), long=draw.choice([0] * 29 + [8]), wrong=draw.choice([0, 0, 0, 0.5, 4]))
    files = []
    for place, one in enumerate(value["sources"]):
        is_main = place == len(value["sources"]) - 1
        most_rows = (rows or (1500 if draw.often(1) else 12)) if is_main else 12
        columns, nulls = one["columns"] or [["a", "int"]], one.get("null_values", [])
        files += [csv_file(draw, columns, notations or {}, most_rows, care, nulls) for _ in range(one["files"])]
    if draw.often(2):
        files = draw.choice([files + [b"a\n"], files[1:] or [b"a\n", b"a\n"]])
    return files


# ---- cases

def case(seed, number, versions=(1, 2), rows=None, noted=0):
    """Case `number` of a seed, with a plan of one of these versions, and at most so many rows in each file of the last source. So many
    cases in a hundred have notations; the others are those of the seed without any."""
    draw, apart = Draw(f"{seed}, {number}"), Draw(f"{seed}, {number}, notations")
    value, notations, lists = plan(draw, versions), {}, []
    if apart.often(noted):
        wished = None
        if apart.often(10):
            value["steps"] = with_days(apart, value["steps"])
        else:
            value, wished = noted_plan(apart, versions)
        with_null_days(apart, value["sources"])
        notations = notations_of(apart, value, wished)
        lists = lists_of(apart, notations)
    files = files_of(draw, value, rows, notations)
    text = wrong_plan_text(draw, value) if draw.often(4 if lists else 10) else text_of(draw, value)
    batch = draw.choice([1, 2, 3, 7, 64, 1000, 65536])
    workers = 16 if len(files) == MOST_FILES else draw.randint(1, 16)
    return Case(text, files, batch, workers, lists)
