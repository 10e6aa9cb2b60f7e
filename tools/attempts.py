"""Wrong edits of a crate, and whether the prover refuses them: for tools/edits and tools/plants.

A check of an edit works on a copy of the crate, over what `rt check` kept of it, if it did, and over the libraries that it or `rt ci`
built.
"""
import contextlib
import dataclasses
import functools
import glob
import math
import os
import re
import shutil
import subprocess
import sys
import threading

ROOT = os.path.dirname(os.path.dirname(os.path.abspath(__file__)))
RT = shutil.which("rt")
if not RT:
    sys.exit("rt is not in PATH")
KIT = os.path.dirname(os.path.dirname(os.path.realpath(RT)))
CORES = len(os.sched_getaffinity(0))


def read(path):
    with open(path, encoding="utf-8") as file:
        return file.read()


def write(path, text):
    with open(path, "w", encoding="utf-8") as file:
        file.write(text)


def run(words, folder):
    """Runs a command, and gives what it says and how it ends."""
    return subprocess.run(words, cwd=folder, stdin=subprocess.DEVNULL, stdout=subprocess.PIPE, stderr=subprocess.STDOUT, text=True,
                          errors="replace", check=False)


def memory():
    """How many bytes of memory are left."""
    with open("/proc/meminfo", encoding="ascii") as file:
        return next(int(line.split()[1]) * 1024 for line in file if line.startswith("MemAvailable:"))


class Processes:
    """The processes of checks: as many as there are cores, in equal parts for the crates that are left. Beside `rt ci`, which takes memory
    too, one for each check, as long as there are 4 GB for it. The check that has waited longest begins first, so that no crate is left to
    the end."""

    def __init__(self, crates, beside):
        self.used, self.crates, self.beside, self.changed = 0, crates, beside, threading.Condition()
        self.waiting = []

    def is_beside(self):
        """Whether `rt ci` runs."""
        return self.beside is not None and not os.path.exists(f"{self.beside}/.all")

    def share(self):
        """How many processes a check gets. By one it takes the least of the processor, by more the least time."""
        return 1 if self.is_beside() else max(1, CORES // max(1, self.crates))

    def free(self):
        """How many processes are not in use."""
        if self.is_beside() and self.used and memory() < 4_000_000_000:
            return 0
        return CORES - self.used

    @contextlib.contextmanager
    def some(self):
        """Waits for the processes of a check."""
        with self.changed:
            turn = object()
            self.waiting.append(turn)
            while self.waiting[0] is not turn or self.free() < self.share():
                self.changed.wait(1)
            self.waiting.pop(0)
            jobs = self.share()
            self.used += jobs
            self.changed.notify_all()
        try:
            yield jobs
        finally:
            with self.changed:
                self.used -= jobs
                self.changed.notify_all()

    def end_crate(self):
        """A crate is left no more."""
        with self.changed:
            self.crates -= 1
            self.changed.notify_all()


def link(path, to):
    """Gives a file a second name, or copies it to another disk; a check replaces such files and changes none."""
    try:
        os.link(path, to)
    except OSError:
        shutil.copy2(path, to)


def link_tree(folder, to):
    """Links each file of a folder."""
    shutil.copytree(folder, to, copy_function=link)


# ---- crates


def read_crates():
    """The crates of crates.txt, each with the libraries that it names."""
    lines = (line.split("#")[0].partition(":") for line in read(f"{ROOT}/crates.txt").split("\n"))
    return {head.split()[0]: tail.split() for head, _, tail in lines if head.split()}


CRATES = read_crates()


def below(crate):
    """The libraries of the repository below a crate."""
    direct = [it for it in CRATES[crate] if it in CRATES]
    return set(direct).union(*map(below, direct))


class Copy:
    """A copy of a crate, with the libraries below it and what checks of it keep."""

    def __init__(self, crate, room, processes):
        self.crate, self.room, self.processes = crate, f"{room}/crates/{crate}", processes
        self.source = f"{ROOT}/crates/{crate}"
        subprocess.run([f"{ROOT}/tools/stage", "--alone", room, crate], check=True)
        for name in below(crate):
            built = f"{ROOT}/crates/{name}/out/rlib/{name}.rlib"
            if not os.path.isdir(built):
                sys.exit(f"{name} is not built; rt ci, or rt check in crates/{crate}, builds it")
            link_tree(built, f"{self.room}/libraries/{name}.rlib")
        if os.path.isdir(f"{self.source}/out/incremental"):
            link_tree(f"{self.source}/out/incremental", f"{self.room}/kept")

    def words(self, jobs):
        """The words of a check by so many processes."""
        root = "src/main.rt" if os.path.exists(f"{self.room}/src/main.rt") else "src/lib.rt"
        words = [f"{KIT}/bin/rattle", "check", "--crate-name", self.crate, root]
        for name in ("std", *CRATES[self.crate]):
            words += ["--extern", f"{name}={self.room}/libraries/{name}.rlib" if name in CRATES else f"{name}={KIT}/rlibs/{name}.rlib"]
        words += ["-L", f"dependency={self.room}/libraries", "-L", f"dependency={KIT}/rlibs"]
        words += ["--antt-project", f"{KIT}/rattle/logic/antt-project.json", "--logic-built", f"{KIT}/logic_built"]
        return [*words, "--incremental", f"{self.room}/kept", "--jobs", str(jobs)]

    def check(self, functions, texts, copies=(), stubs=()):
        """What a check of some functions says, with these texts in place of the crate's own; `copies` are functions and their copies in
        them, and `stubs` are functions whose bodies they leave out."""
        for path, text in texts.items():
            write(f"{self.room}/{path}", text)
        for function, its_copy in copies:
            self.copy_proof(function, its_copy)
        for stub in stubs:
            self.leave_open(stub)
        chosen = [word for it in sorted(functions) for word in ("--only", it)]
        with self.processes.some() as jobs:
            words = [*self.words(jobs), "--allow-holes", *chosen]
            ran = run(words, self.room)
            if ran.returncode < 0:
                # (the system stopped it, for want of memory, say)
                ran = run(words, self.room)
        for part in ("src", "proofs"):
            shutil.rmtree(f"{self.room}/{part}")
            shutil.copytree(f"{self.source}/{part}", f"{self.room}/{part}")
        return ran.stdout

    def copy_proof(self, function, its_copy):
        """Gives a copy of a function the answers of the function."""
        of, to = (f"{self.room}/proofs/{it.folder}" for it in (function, its_copy))
        if os.path.isdir(of):
            shutil.copytree(of, to)
            for file in os.listdir(to):
                write(f"{to}/{file}", read(f"{to}/{file}").replace(f"{function.proofs}.", f"{its_copy.proofs}."))

    def leave_open(self, stub):
        """Has a hole in the place of the proof of a function without its body."""
        folder = f"{self.room}/proofs/{stub.folder}"
        for it in (folder, f"{os.path.dirname(folder)}/+{stub.name}"):
            shutil.rmtree(it, ignore_errors=True)
        os.makedirs(folder)
        goal = "unreachable-requires"
        lines = [f"use {stub.proofs}.Goals as goal", "", f"pub {goal} : goal.{goal}", f"{goal} = ?", ""]
        write(f"{folder}/Answers.antt", "\n".join(lines))


# ---- edits


class Edit:
    """A wrong edit of a crate: the texts that it replaces, each with its file, and the functions that show it: those that are named, or
    those in which the texts stand. It may be made in a copy of its function, beside another edit of the same one."""

    def __init__(self, name, crate, pairs, shown_by=()):
        self.name, self.pairs, self.functions, self.is_alone = name, pairs, set(shown_by), bool(shown_by)
        self.changed, self.copy = {function_at(crate, path, old) for path, old, _ in pairs} - {None}, None
        if not self.is_alone:
            self.functions = {it.shown for it in self.changed}

    def beside(self, others):
        """This edit as it goes with others: as it is, or in a copy of its function; nothing if it does not go with them."""
        edit = self if all(map(self.goes_with, others)) else self.in_copy(others)
        return edit if edit and all(map(edit.goes_with, others)) else None

    def in_copy(self, others):
        """This edit in a copy of its function, by a name that no copy in the others has; nothing if the function cannot be copied."""
        if self.is_alone or len(self.changed) != 1:
            return None
        (function,) = self.changed
        if not function.can_be_copied:
            return None
        edit = Edit(self.name, function.crate, self.pairs)
        copies = sum(it.copy is not None and it.changed == self.changed for it in others)
        edit.copy = dataclasses.replace(function, name=f"{function.name}_{copies + 2}")
        edit.functions = {edit.copy.shown}
        return edit

    def is_shown_by(self, name):
        """Whether a function of this name, or a closure in it, shows the edit."""
        return any(f"::{it}::" in f"::{name}::" for it in self.functions)

    def needs(self, function):
        """Whether the edit needs the body of a function."""
        return self.is_shown_by(function.shown) or any(it.shown == function.shown for it in self.changed)

    def goes_with(self, other):
        """Whether both can be made at once: they change different functions, and neither writes what the other replaces."""
        if self.is_alone or other.is_alone or self.functions & other.functions:
            return False
        written = [(old, new) for one, two in ((self, other), (other, self)) for _, old, _ in one.pairs for _, _, new in two.pairs]
        return not any(old in new for old, new in written)

    def applied(self, texts, folder):
        """The texts of files, with this edit; none where a text that it replaces doesn't stand in its file once."""
        if self.copy:
            return self.added(texts, folder)
        texts = dict(texts)
        for path, old, new in self.pairs:
            text = texts.get(path) or read(f"{folder}/{path}")
            if text.count(old) != 1:
                return None
            texts[path] = text.replace(old, new)
        return texts

    def added(self, texts, folder):
        """The texts of files, with a copy of the function after it, which has this edit; none where a text that it replaces doesn't stand
        in it once."""
        (function,) = self.changed
        whole = read(f"{folder}/{function.path}").split("\n")
        first = function.first
        while whole[first - 1].lstrip().startswith("#["):
            first -= 1
        text = "\n".join(whole[first : function.last + 1]).replace(f"fn {function.name}", f"fn {self.copy.name}", 1)
        for _, old, new in self.pairs:
            if text.count(old) != 1:
                return None
            text = text.replace(old, new)
        lines = texts[function.path].split("\n") if function.path in texts else whole
        return texts | {function.path: "\n".join([*lines[: function.last + 1], "", text, *lines[function.last + 1 :]])}


@dataclasses.dataclass(frozen=True)
class Function:
    """A function of a crate: its file, its first line, that which opens its body and its last, the type that it is of, its name, and
    whether a trait has it."""

    crate: str
    path: str
    first: int
    opens: int
    last: int
    owner: str
    name: str
    is_of_trait: bool

    @property
    def shown(self):
        """The end of the name that a check prints: its module or its type, and its own."""
        module = os.path.basename(self.path)[: -len(".rt")]
        return self.name if not self.owner and module in ("lib", "main") else f"{self.owner or module}::{self.name}"

    @property
    def folder(self):
        """The folder of its proof, below that of all proofs: its modules, or those of its type, its type and its name."""
        path = self.path if self.is_of_trait else types_of(self.crate).get(self.owner, self.path)
        modules = path[len("src/"): -len(".rt")]
        return "/".join(it for it in ("" if modules in ("lib", "main") else modules, self.owner, self.name) if it)

    @property
    def proofs(self):
        """The module of its proof."""
        return f"Rattle.{self.crate}.proofs.{self.folder.replace('/', '.')}"

    def can_be_stub(self, lines):
        """Whether it can lose its body, of the lines of its file: not if it does nothing, nor if the compiler itself may call it."""
        return self.opens < self.last and "const fn " not in lines[self.first]

    @property
    def can_be_copied(self):
        """Whether a copy of it by another name can stand beside it, and be proved as it is: not if a trait has it, nor if it may call
        itself, since functions that do have one proof in common."""
        beside = os.path.dirname(f"{ROOT}/crates/{self.crate}/proofs/{self.folder}")
        in_cycles = os.path.isdir(beside) and any(it.startswith("+") for it in os.listdir(beside))
        text = "\n".join(read(f"{ROOT}/crates/{self.crate}/{self.path}").split("\n")[self.first + 1 : self.last])
        return not self.is_of_trait and not in_cycles and not re.search(rf"(?<![\w:.]){self.name}\(|\b(Self::|self\.){self.name}\(", text)


def sources(crate):
    """The files of a crate's sources, from its folder."""
    folder = f"{ROOT}/crates/{crate}"
    return sorted(os.path.relpath(it, folder) for it in glob.glob(f"{folder}/src/**/*.rt", recursive=True))


@functools.cache
def types_of(crate):
    """The types that a crate declares, each with its file."""
    declared = r"^(?:pub(?:\(\w+\))? )?(?:struct|enum) (\w+)"
    return {name: path for path in sources(crate) for name in re.findall(declared, read(f"{ROOT}/crates/{crate}/{path}"), re.M)}


def function_at(crate, path, text):
    """The function in which a text stands."""
    source = read(f"{ROOT}/crates/{crate}/{path}")
    at = source[: source.find(text)].count("\n")
    return next((it for it in functions_in(crate, path, source) if it.first <= at <= it.last), None)


def functions_in(crate, path, source):
    """The functions of a file, whose text is given; not those that a trait only declares."""
    lines, owner, is_of_trait = source.split("\n"), "", False
    for number, line in enumerate(lines):
        whole = header(lines[number:])
        owner = "" if line.startswith("}") else owner_at(whole) or owner
        is_of_trait = not line.startswith("}") and (is_of_trait or bool(re.match(r"impl\b.* for |(?:pub(?:\(\w+\))? )?trait ", whole)))
        function = re.match(r"( *)(?:pub(?:\(\w+\))? )?(?:const )?fn (\w+)", line)
        body = function and body_in(lines[number:], function[1])
        if body:
            yield Function(crate, path, number, number + body[0], number + body[1], owner, function[2], is_of_trait)


def header(lines):
    """The first of some lines; if an impl begins there, all of its header, as one line."""
    end = next((number for number, line in enumerate(lines) if "{" in line), 0) if lines[0].startswith("impl") else 0
    return " ".join(line.strip() for line in lines[: end + 1]) if end else lines[0]


def body_in(lines, indent):
    """Which lines open and end the body of the function that begins with the first; nothing if a trait only declares it."""
    opens, depth = None, 0
    for number, line in enumerate(lines):
        if opens is None and re.fullmatch(rf"{indent}(\S.* )?{{(}})?", line):
            opens = number
        if opens is not None and (line == indent + "}" or opens == number and line.endswith("}")):
            return opens, number
        depth += line.count("{") - line.count("}")
        if opens is None and depth == 0 and line.endswith(";"):
            return None
    return None


def owner_at(line):
    """The type or the trait whose functions follow a line: of a type's impl of a trait both, and the types that the trait is given."""
    impl = re.match(r"impl(?:<(.*?)>)? (?:(\w+)(?:<(.*)>)? for )?(?:(\w+)|\((.*)\))", line)
    if not impl:
        alone = re.match(r"(?:pub(?:\(\w+\))? )?trait (\w+)", line)
        return alone and alone[1]
    parameters, trait, given, name, parts = impl.groups(default="")
    of_parts, of_given = ([it for it in re.findall(r"\w+", text) if it not in re.findall(r"\w+", parameters)] for text in (parts, given))
    words = [name or f"Tuple{impl[5].count(',') + 1}", *of_parts, trait, *of_given]
    return "".join(it[0].upper() + it[1:] for it in words if it)


# ---- what a check says

# An answer that names a goal or a value which is no more says nothing of the contract, nor does what rests on it.
STALE = re.compile(r"that can be named from here|is not in scope|has no field|has no `|was not admitted|(was|were) not checked")


def goals_left(said, crate):
    """The goals of each function that stay open, by the function's name."""
    left, goals, errors = {}, [], {}
    for line in said.split("\n"):
        error = re.match(r"\./proofs/(.*)/\w+\.antt:\d+:\d+: error: (?:`([^`]*)`)?", line)
        note = re.match(r"note: src/\S+:\d+:\d+: it is not proved .*\(`([^`]*)`\)", line)
        function = re.match(rf"fn {crate}::(\S+): (.*)", line)
        if error and not STALE.search(line):
            errors.setdefault(error[1].replace("/", "::").replace("+", ""), []).append(error[2] or "an answer")
        elif note:
            goals.append(note[1])
        elif function:
            more = re.search(r"did not prove (.*?)(?:; it calls|$)", function[2])
            left[function[1]] = goals + (re.findall(r"`([^`]+)`", more[1]) if more else [])
            goals = []
    return {name: list(dict.fromkeys(goals + errors.get(name, []))) for name, goals in left.items()}


def untried(said, crate):
    """The functions whose goals were not tried, since one that they call is not proved."""
    return re.findall(rf"^note: `search` has not tried the goals of `{crate}::(\S+)`", said, re.M)


NOT_MADE = "a text that it replaces stands in no function, or not once in its file"


def first_lines(said):
    """The start of what a check says."""
    return "\n".join(said.split("\n")[:8])


def made(copy, batch):
    """The edits of a batch that can be made, and the texts of files with them. Copies of functions come last, and the lower ones of a file
    first, so that a function stays in its lines until it is copied."""
    texts, edits = {}, []
    for edit in sorted(batch, key=lambda it: -it.copy.first if it.copy else -math.inf):
        applied = edit.applied(texts, copy.source) if edit.functions else None
        if applied is not None:
            texts = applied
            edits.append(edit)
    return edits, texts


def without_bodies(copy, texts, edits):
    """The texts of all files, in which each function that no edit needs has lost its body, and these functions. Where they are called,
    their contracts are taken for granted."""
    whole, stubs = {}, []
    for path in sources(copy.crate):
        lines = (texts.get(path) or read(f"{copy.source}/{path}")).split("\n")
        for function in reversed(list(functions_in(copy.crate, path, "\n".join(lines)))):
            if function.can_be_stub(lines) and not any(it.needs(function) for it in edits):
                lines[function.opens + 1 : function.last] = ["unreachable!()"]
                stubs.append(function)
        whole[path] = "\n".join(lines)
    return whole, stubs


def halves(edits):
    """Two halves of some edits, to be tried each by itself: one that does not compile hides the others."""
    return edits[: len(edits) // 2], edits[len(edits) // 2 :]


def attempt(copy, batch):
    """Gives for each edit of a batch whether it is refused, and why."""
    tried, texts = made(copy, batch)
    for edit in batch:
        if edit not in tried:
            yield edit, False, NOT_MADE
    if not tried:
        return
    texts, stubs = without_bodies(copy, texts, tried)
    copies = [(*it.changed, it.copy) for it in tried if it.copy]
    said = copy.check(set().union(*(it.functions for it in tried)), texts, copies, stubs)
    left = goals_left(said, copy.crate)
    if not left and len(tried) > 1:
        for half in halves(tried):
            yield from attempt(copy, half)
        return
    strangers = [name for name, goals in left.items() if goals and not any(it.is_shown_by(name) for it in tried)]
    waiting = untried(said, copy.crate)
    later = []
    for edit in tried:
        goals = [goal for name, them in left.items() if edit.is_shown_by(name) for goal in them]
        if not goals and len(tried) > 1 and any(map(edit.is_shown_by, waiting)):
            later.append(edit)
        elif not left:
            yield edit, False, f"it could not be tried:\n{first_lines(said)}"
        elif strangers:
            yield edit, False, f"{strangers[0]} is not proved, and no edit of the batch changes it"
        elif goals:
            yield edit, True, ", ".join(goals[:3])
        else:
            yield edit, False, "its function is still proved, or only answers are stale"
    if len(later) == len(tried):
        for edit in later:
            yield from attempt(copy, [edit])
    elif later:
        yield from attempt(copy, later)
