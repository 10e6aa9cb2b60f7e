"""The built program: plans and files with their answers, and runs in which one call of the C library is refused."""
import collections
import functools
import os
import random
import re
import signal
import subprocess
import sys

from calls import HERE, KIT, ROOT
from counts import LONGEST_RUN, together, write

sys.path.insert(0, f"{ROOT}/tests/random")
import cases
import oracle

MOST_CALLS = 5000  # of one sort, in a run
SEED, RANDOM_CASES, RUNS_OF_A_CASE = 1, 300, 8

Answer = collections.namedtuple("Answer", "status out err")
# A plan and its files: on the command line with these options, or on standard input if there are none.
Row = collections.namedtuple("Row", "name plan files answer options", defaults=[("--workers", "2")])


def source(files, *columns):
    return '{"files":%d,"columns":[%s]}' % (files, ",".join('["%s","%s"]' % tuple(it.split()) for it in columns))


def plan(sources, steps):
    return '{"version":1,"sources":[%s],"steps":[%s]}' % (",".join(sources), steps)


def frame(text):
    return Answer(0, text, "")


def fault(status, line):
    return Answer(status, "", f"frameq: {line}\n")


MEMORY = fault(6, "out of memory")
NO_PLAN = fault(5, "cannot read plan")
WRITE_LINE = "frameq: write failed\n"
SUMS = '{"group_by":{"keys":["g"],"aggs":[["s","sum","v"]]}}'
LEFT = '{"join":{"source":0,"on":["k"],"how":"left"}}'
INNER = '{"join":{"source":0,"on":["k"],"how":"inner"}}'
COUNTED = '{"group_by":{"keys":["k"],"aggs":[["n","len"]]}}'
ROLLED = '{"rolling_sum":{"column":"v","window":3,"min_samples":2,"name":"r"}}'
NOTED = [
    LEFT,
    '{"with_columns":[["t",["mul",{"col":"p"},{"col":"n"}]]]}',
    '{"group_by":{"keys":["k"],"aggs":[["s","sum","t"],["d","max","day"]]}}',
    '{"rolling_sum":{"column":"s","window":2,"min_samples":1,"name":"r"}}',
]
OVER_TEN = '{"filter":["gt",{"col":"v"},10]}'
JOINED = ["k,w\n1,a\n,b\n1,c\n", "k,v\n2,10\n1,20\n,30\n"]
K_W_AND_K_V = [source(1, "k int", "w text"), source(1, "k int", "v int")]

# Plans and files, with what the program answers if nothing is refused.
ROWS = [
    Row("two files in order", plan([source(2, "v int")], ""), ["v\n1\n2\n3\n", "v\n4\n5\n"],
        frame("v\n1\n2\n3\n4\n5\n"), ("--batch", "2")),
    Row("a filter", plan([source(1, "id int", "v int")], OVER_TEN), ["id,v\n1,5\n2,\n3,20\n"], frame("id,v\n3,20\n")),
    Row("sums that fit as a whole", plan([source(2, "g int", "v int")], SUMS),
        ["g,v\n1,9223372036854775807\n1,1\n", "g,v\n1,-1\n"], frame("g,s\n1,9223372036854775807\n")),
    Row("a sum that does not fit", plan([source(2, "g int", "v int")], SUMS),
        ["g,v\n1,9223372036854775807\n1,1\n", "g,v\n"], fault(4, "step 0, item 0: sum out of range")),
    Row("a left join", plan(K_W_AND_K_V, LEFT), JOINED, frame("k,v,w\n2,10,\n1,20,a\n1,20,c\n,30,\n")),
    Row("an inner join", plan(K_W_AND_K_V, INNER), JOINED, frame("k,v,w\n1,20,a\n1,20,c\n")),
    Row("rolling sums across files", plan([source(2, "i int", "v int")], ROLLED),
        ["i,v\n1,1\n2,\n", "i,v\n3,4\n4,\n5,\n6,7\n"], frame("i,v,r\n1,1,\n2,,\n3,4,5\n4,,\n5,,\n6,7,\n"), ("--batch", "1")),
    Row("a bad cell", plan([source(1, "x int")], ""), ["x\n9223372036854775808\n"],
        fault(4, "file 0, row 1, column 0: bad cell")),
    # (the caller's thread prints the rows of a plan that leaves it nothing else to do)
    Row("printed in parts", plan([source(1, "v int")], '{"rolling_sum":{"column":"v","window":1,"min_samples":1,"name":"s"}}'),
        ["v\n" + "12345\n" * 5000], frame("v,s\n" + "12345,12345\n" * 5000), ("--batch", "2048")),
    Row("no such column", plan([source(1, "id int")], OVER_TEN), ["id\n1\n"], fault(3, "plan: step 0: no such column")),
    Row("standard input", plan([source(1, "id int", "v int")], OVER_TEN), ["id,v\n1,5\n2,\n3,20\n"], frame("id,v\n3,20\n"), None),
    Row("amounts and dates", plan([source(2, "day int", "v int")], '{"with_columns":[["w",["mul",{"col":"v"},2]]]}'),
        ["day,v\n2024-02-29,1.5\n", "day,v\n,-.05\n"], frame("day,v,w\n2024-02-29,1.50,3.00\n,-0.05,-0.10\n"),
        ("--decimal", "v=2", "--date", "day", "--decimal", "w=2")),
    Row("notations that follow", plan([source(1, "k int", "p int"), source(1, "k int", "n int", "day int")], ",".join(NOTED)),
        ["k,p\n1,1.50\n2,2.25\n", "k,n,day\n1,2,2024-02-29\n2,1,2024-03-01\n1,1,2024-03-02\n"],
        frame("k,s,d,r\n1,4.50,2024-03-02,4.50\n2,2.25,2024-03-01,6.75\n"), ("--decimal", "p=2", "--date", "day")),
    Row("an amount of too many places", plan([source(1, "v int")], ""), ["v\n1.5\n1.25\n"], fault(4, "file 0, row 2, column 0: bad cell"),
        ("--decimal", "v=1")),
    Row("no scale", plan([source(1, "v int")], ""), ["v\n1.5\n"], fault(2, "--decimal takes NAME=SCALE, with a scale from 0 to 18"),
        ("--decimal", "v=2,v")),
    Row("two ways to write a name", plan([source(1, "v int")], ""), ["v\n1.5\n"], fault(2, "--decimal, --date: a name stands twice"),
        ("--decimal", "v=2", "--date", "v")),
    Row("a bad cell on standard input", plan([source(1, "x int")], ""), ["x\n9223372036854775808\n"],
        fault(4, "file 0, row 1, column 0: bad cell"), None),
]

# Arguments that run no plan, after the status that they give.
ARGUMENTS: list = [(0, "--help"), (2, "--nope"), (2, "--plan"), (2, "--plan", "p", "--workers", "17", "a"),
             (2, "--plan", "p", "--batch", "x", "a")]

# Plans and files that fault, the status, the line, and what --details says after it, of the plan P and the file F; then other options.
DETAILS = [
    ("a bad cell", plan([source(1, "x int")], ""), "x\n\n1\nz\n", 4, "file 0, row 2, column 0: bad cell",
        '  F:4: column "x": "z" is not an int\n'),
    ("a header", plan([source(1, "x int")], ""), "y\n1\n", 4, "file 0: header differs", '  F:1: column 0 is "y", the plan has "x"\n'),
    ("a width", plan([source(1, "x int", "t text")], ""), 'x,t\n1,a\n2"\n', 4, "file 0, row 2: wrong number of fields",
        "  F:3: 1 field, the header has 2\n"),
    ("a sum", plan([source(1, "x int")], '{"filter":["gt",["add",{"col":"x"},1],0]}'), "x\n9223372036854775807\n", 4,
        "step 0, item 0: overflow", "  filter\n"),
    ("a shape", '{"version":1,"sources":[],"steps":[]}', "", 3, "plan: wrong shape",
        "  P: sources: [] has no source; a plan has at least one\n"),
    ("a column", plan([source(1, "x int")], OVER_TEN), "", 3, "plan: step 0: no such column", '  "v"; there are "x"\n'),
    ("an amount", plan([source(1, "x int")], ""), "x\n1.5\n1.25\n", 4, "file 0, row 2, column 0: bad cell",
        '  F:3: column "x": "1.25" is not a decimal of at most 1 place\n', "--decimal", "x=1"),
    ("a scale", plan([source(1, "x int")], ""), "x\n", 2, "--decimal takes NAME=SCALE, with a scale from 0 to 18",
        "  --decimal \"y\"\n", "--decimal", "x=2,y"),
    ("a sum of two scales", plan([source(1, "x int", "y int")], '{"with_columns":[["z",["add",{"col":"x"},{"col":"y"}]]]}'), "", 2,
        "--decimal, --date: step 0, item 0: notations differ", '  "x" has scale 2 and "y" has scale 0: multiply "y" by 100\n',
        "--decimal", "x=2"),
    ("a name", plan([source(1, "x int", "t text")], ""), "x,t\n", 2, "--decimal, --date: no such int column",
        '  "t" is not an int column\n  source 0: "x"\n  the frame: "x"\n', "--decimal", "x=2", "--date", "t"),
]


def draft(*columns):
    """What --draft prints for a file with these columns."""
    lines = ",\n".join('        ["%s", "%s"]' % tuple(it.split()) for it in columns)
    return (
        f'{{\n  "version": 2,\n  "sources": [\n    {{\n      "files": 1,\n      "columns": [\n{lines}\n      ]\n    }}\n  ],\n'
        '  "steps": []\n}\n'
    )


# Files that are reviewed: the options, of the plan P and the file F, the plan, the file, the answer, and what is said of the file before a
# line.
X_INT = plan([source(1, "x int")], "")
REVIEWS = [
    ("a check", ("--plan", "P", "--check", "F"), X_INT, 'x\n\n1\nz\n2,3\n"4"5\nz\n', fault(4, "the files have problems"),
        'F:4: column "x": "z" is not an int\nF:5: 2 fields, the header has 1\nF:6: text follows a closing quote\n'
        'F:7: column "x": "z" is not an int\n'
        '2 bad fields. "x": "z" 2\n1 row of another width\n1 flaw of quotes or line ends\n'),
    ("a check that finds nothing", ("--plan", "P", "--check", "F"), X_INT, "x\n1\n\n2\n", frame(""), ""),
    ("a check of dates", ("--plan", "P", "--date", "x", "--check", "F"), X_INT, "x\n2024-02-29\n2023-02-29\n",
        fault(4, "the files have problems"),
        'F:3: column "x": "2023-02-29" is not a date, YYYY-MM-DD\n1 bad field. "x": "2023-02-29" 1\n'),
    ("a draft", ("--draft", "F"), X_INT, "x\n" + "1\n" * 20 + "a longer text than others\n2,3\n", frame(draft("x text")),
        '"x" is text: 20 ints, 1 other (first "a longer text than others", line 22)\nF:23: a row of another width is left out\n'),
    ("a draft of amounts and dates", ("--draft", "--decimal", "x=2", "--date", "d", "F"), X_INT, "x,d,t\n1.5,2024-02-29,1\n.25,,2.5\n",
        frame(draft("x int", "d int", "t text")), '"t" is text: 1 int, 1 decimal to 1 place; --decimal t=1 reads them as ints\n'),
    ("a draft whose names are refused", ("--draft", "--date", "d", "--decimal", "x=1", "F"), X_INT,
        "x,d\n1.5,2024-02-29\n.25,\n", fault(2, "--decimal, --date: no such int column"),
        '"x" is text: 1 decimal of at most 1 place, 1 decimal to 2 places; --decimal x=2 reads them as ints\n'),
]


class Program:
    """The built program, and a folder with the plans and files of its rows."""

    def __init__(self, path, room):
        self.path, self.arguments, self.inputs = os.path.abspath(path), {}, {}
        for row in ROWS:
            folder = f"{room}/{row.name.replace(' ', '-')}"
            os.mkdir(folder)
            if row.options is None:
                self.arguments[row.name], self.inputs[row.name] = [], write(f"{folder}/input", f"{row.plan}\n{row.files[0]}")
                continue
            files = [write(f"{folder}/{number}.csv", text) for number, text in enumerate(row.files)]
            self.arguments[row.name] = ["--plan", write(f"{folder}/plan.json", row.plan), *row.options, *files]
            self.inputs[row.name] = os.devnull

    def run_row(self, row, **how):
        """The answer of a row's run."""
        with open(self.inputs[row.name], "rb") as file:
            return self.run(self.arguments[row.name], stdin=file, **how)

    def run(self, arguments, under=(), **how):
        """The answer of a run, under another command if one is given; or why there is none."""
        how = {"stdin": subprocess.DEVNULL, "stdout": subprocess.PIPE, "stderr": subprocess.PIPE, "timeout": LONGEST_RUN, **how}
        try:
            ran = subprocess.run([*under, self.path, *arguments], check=False, **how)
        except subprocess.TimeoutExpired:
            return Answer(None, "", f"it did not end in {how['timeout']} s")
        text = lambda them: (them or b"").decode(errors="replace")
        return Answer(ran.returncode, text(ran.stdout), text(ran.stderr))


def is_documented(answer):
    """Whether an answer without a frame is one that docs/FAULTS.md has."""
    lines = {3: r"plan: .+", 4: r"(file|step) \d+.*: .+", 5: r"cannot read plan|read failed: file \d+", 6: "out of memory"}
    if answer.status == 5 and answer.err == WRITE_LINE:
        return True
    pattern = lines.get(answer.status)
    return bool(pattern and not answer.out and re.fullmatch(f"frameq: ({pattern})\n", answer.err))


def name_of(answer, own):
    """What an answer is called in the counts."""
    if answer == own:
        return "with the row's answer"
    return {5: "read or write failed", 6: "out of memory"}.get(answer.status, f"status {answer.status}")


ENDS = (signal.SIGHUP, signal.SIGINT, signal.SIGQUIT, signal.SIGTERM, signal.SIGKILL)
SORTS = ("memory", "thread", "open", "read", "write", "interrupt", "short-read", "short-write", "keep")


def is_allowed(sort, answer, own):
    """Whether an answer is allowed if a call of this sort is refused."""
    if sort == "keep":  # what is stored and renamed is the file of --output, and without either there is no frame
        return answer == Answer(5, "", WRITE_LINE)
    if answer == own:
        return True
    if sort in ("memory", "thread"):
        return answer == MEMORY
    if sort == "open" and answer == Answer(5, "", WRITE_LINE):
        return True
    if sort in ("open", "read"):
        is_failed = re.fullmatch(r"frameq: read failed: file \d+\n", answer.err) and answer.status == 5 and not answer.out
        return answer == NO_PLAN or bool(is_failed)
    if sort == "write" and own.status == 0:
        return answer.status == 5 and answer.err == WRITE_LINE and own.out.startswith(answer.out)
    # a line on standard error that is not written to its end changes no status
    return sort == "write" and own.err.startswith(answer.err) and answer == own._replace(err=answer.err)


def refuse(run, library, sort, number):
    """The answer of a run in which this call of a sort is refused, and whether it made that call. It is no answer if a thread that was
    started is not joined where the program says something."""
    reader, writer = os.pipe()
    try:
        answer = run(env={"LD_PRELOAD": library, "REFUSE": f"{sort} {number}", "REFUSE_TELL": str(writer)}, pass_fds=[writer])
        os.set_blocking(reader, False)
        try:
            told = os.read(reader, 1000)
        except BlockingIOError:
            told = b""
        return answer._replace(status=None, err=f"a thread is not joined: {answer}") if b"T" in told else answer, b"!" in told
    finally:
        os.close(reader)
        os.close(writer)


def try_call(count, kind, name, run, own, library, sort, number):
    """Refuses one call of a run, and gives whether the run made it."""
    answer, is_met = refuse(run, library, sort, number)
    allowed = is_allowed(sort, answer, own) if is_met else answer == own
    ending = name_of(answer, own) if is_met else "met none"
    count.add(kind, ending, None if allowed else f"{name}, {sort} call {number}: {answer._replace(out=answer.out[:200])}")
    return is_met


def try_sort(count, name, run, own, library, sort):
    """Refuses the first call of a sort, the second and so on, until a run meets none."""
    if all(try_call(count, f"program, {sort}", name, run, own, library, sort, it) for it in range(1, MOST_CALLS)):
        count.add(f"program, {sort}", "without end", f"{name}: there is always one more call")


def build_library(count, room):
    """The library that refuses calls, or None if it is not compiled."""
    library = f"{room}/refuse.so"
    compiler = [f"{KIT}/toolchain/bin/clang", "-fuse-ld=lld"] if os.path.exists(f"{KIT}/toolchain/bin/clang") else ["cc"]
    command = [*compiler, "-shared", "-fPIC", "-O2", "-nostdlib", "-ffreestanding", "-fno-builtin", "-o", library, f"{HERE}/refuse.c"]
    made = subprocess.run(command, stdout=subprocess.PIPE, stderr=subprocess.STDOUT, check=False)
    if made.returncode:
        count.add("program", "not built", f"refuse.c is not compiled:\n{made.stdout.decode(errors='replace')}")
        return None
    return library


class IntoFile:
    """A run whose frame takes the place of a file, in a folder of its own. Its output is what the file then holds."""

    def __init__(self, program, folder):
        os.mkdir(folder)
        self.program, self.folder, self.file = program, folder, f"{folder}/v.csv"
        self.arguments = ["--output", self.file, "--plan", write(f"{folder}/plan.json", plan([source(1, "v int")], OVER_TEN)), self.file]

    def __call__(self, **how):
        before = "v\n5\n20\n"
        write(self.file, before)
        answer = self.program.run(self.arguments, **how)
        with open(self.file, encoding="utf-8") as file:
            held = file.read()
        if answer.out or sorted(os.listdir(self.folder)) != ["plan.json", "v.csv"] or (answer.status != 0 and held != before):
            return answer._replace(status=None, err=f"{os.listdir(self.folder)}, {held!r}, {answer}")
        return answer._replace(out=held if answer.status == 0 else "")


def end_into_file(count, program, folder, library, ends):
    """Runs into a file that a signal ends before each call of a run in turn: the file stays as it was, or holds the frame, and what is left
    beside it the next run takes away."""
    os.mkdir(folder)
    steps, data = write(f"{folder}/plan.json", plan([source(1, "v int")], OVER_TEN)), write(f"{folder}/v.csv", "v\n5\n20\n")
    taken, kind = f"{folder}/frame.csv", f"program, ended by {ends.name}"
    run = functools.partial(program.run, ["--output", taken, "--plan", steps, data])

    def held():
        with open(taken, encoding="utf-8") as file:
            return file.read()

    for number in range(1, MOST_CALLS):
        write(taken, "other\n")
        answer, is_met = refuse(run, library, "signal", f"{number} {ends.value}")
        own, texts = (Answer(-ends, "", ""), ("other\n", "v\n20\n")) if is_met else (frame(""), ("v\n20\n",))
        is_right = answer == own and held() in texts
        count.add(kind, "met none" if not is_met else "replaced" if held() != "other\n" else "as it was",
                  None if is_right else f"call {number}: {answer}, {held()!r}")
        after = run()
        left = sorted(os.listdir(folder))
        is_right = after == frame("") and held() == "v\n20\n" and left == ["frame.csv", "plan.json", "v.csv"]
        count.add(kind, "the run after it", None if is_right else f"after call {number}: {after}, {held()!r}, {left}")
        if not is_met:
            return
    count.add(kind, "without end", "there is always one more call")


def with_names(text, paths):
    """A text with these paths where the letters for them stand before a colon. All at once, since a path may hold such a letter."""
    return re.sub("[PF](?=:)", lambda letter: paths[letter[0]], text)


class Detailed:
    """A run with --details, in a folder of its own. Of its answer, what follows the line of the fault, or a part of that, is cut off."""

    def __init__(self, program, folder, own_plan, rows, details, options):
        os.mkdir(folder)
        paths = {"P": write(f"{folder}/plan.json", own_plan), "F": write(f"{folder}/rows.csv", rows)}
        self.program, self.arguments = program, ["--details", *options, "--plan", paths["P"], paths["F"]]
        self.details = with_names(details, paths)

    def whole(self, **how):
        return self.program.run(self.arguments, **how)

    def __call__(self, **how):
        answer = self.whole(**how)
        line, end, more = answer.err.removesuffix(self.details).partition("\n")
        return answer._replace(err=line + end) if all(it.startswith("  ") for it in more.splitlines()) else answer


def is_part(part, whole):
    """Whether a text is another without some of its characters."""
    rest = iter(whole)
    return all(it in rest for it in part)


class Reviewed:
    """A run with --check or --draft, in a folder of its own. Of its answer, what is said of the file, or a part of that, is cut off."""

    def __init__(self, program, folder, options, own_plan, rows, own, said):
        os.mkdir(folder)
        paths = {"P": write(f"{folder}/plan.json", own_plan), "F": write(f"{folder}/rows.csv", rows)}
        self.program, self.arguments, self.own = program, [paths.get(it, it) for it in options], own
        self.said = with_names(said, paths)

    def whole(self, **how):
        return self.program.run(self.arguments, **how)

    def __call__(self, **how):
        answer = self.whole(**how)
        said, line = re.fullmatch(r"(.*?)(frameq: [^\n]*\n)?", answer.err, re.DOTALL).groups()
        return answer._replace(err=line or "") if is_part(said, self.said + self.own.err) else answer


def try_reviews(count, pool, program, library, room):
    """What --check and --draft say, and that a call that is refused ends them with its own line."""
    runs = []
    for name, options, own_plan, rows, own, said in REVIEWS:
        run = Reviewed(program, f"{room}/{name.replace(' ', '-')}", options, own_plan, rows, own, said)
        answer = run.whole()
        is_right = answer == own._replace(err=run.said + own.err)
        count.add("program, reviews", f"status {own.status}", None if is_right else f"{name}: {answer}")
        runs.append((name, run, own))
    together(((try_sort, count, *it, library, sort) for it in runs for sort in SORTS), pool)


def try_details(count, pool, program, library, room):
    """What --details says, and that a call that is refused changes nothing of the answer but that."""
    runs = []
    for name, own_plan, rows, status, line, details, *options in DETAILS:
        run, own = Detailed(program, f"{room}/details-{name.replace(' ', '-')}", own_plan, rows, details, options), fault(status, line)
        answer = run.whole()
        is_right = answer == own._replace(err=own.err + run.details)
        count.add("program, details", f"status {status}", None if is_right else f"{name}: {answer}")
        runs.append((f"{name}, with details", run, own))
    together(((try_sort, count, *it, library, sort) for it in runs for sort in SORTS), pool)


def try_program(count, pool, program, library, room):
    runs = [(row.name, functools.partial(program.run_row, row), row.answer) for row in ROWS]
    for status, *arguments in ARGUMENTS:
        # what clap prints is its own, and the same if nothing is refused
        run, name = functools.partial(program.run, arguments), " ".join(arguments)
        own = run()
        count.add("program, arguments", f"status {own.status}", None if own.status == status else f"{name}: {own}")
        runs.append((name, run, own))
    together(((try_sort, count, *it, library, sort) for it in runs for sort in SORTS), pool)
    own = frame("v\n20\n")
    together(((try_sort, count, "into a file", IntoFile(program, f"{room}/into-{sort}"), own, library, sort) for sort in SORTS), pool)
    together(((end_into_file, count, program, f"{room}/ended-{ends.name}", library, ends) for ends in ENDS), pool)
    for sort in SORTS:
        if not any(kind == f"program, {sort}" and ending != "met none" for kind, ending in count.endings):
            count.add(f"program, {sort}", "never met", "no run makes a call that refuse.c refuses")


def makes(run, library, sort, number):
    """Whether a run makes so many calls of a sort. The last of them is refused."""
    return refuse(run, library, sort, number)[1]


def try_setting(count, name, run, library, sort, least, most):
    """Whether a run makes at least and at most so many calls of a sort, or has so many threads at once."""
    fits = makes(run, library, sort, least) and not makes(run, library, sort, most + 1)
    wrong = None if fits else f"{name}: not {least} to {most} calls, {sort}"
    count.add("program, settings", "as asked for" if fits else "otherwise", wrong)


def try_settings(count, program, library, room):
    """A run has a thread for each file and for each worker that is asked for, and makes batches of the size that is asked for."""
    own_plan, rows = plan([source(2, "v int")], ""), "v\n" + "1\n" * 100
    path, file = write(f"{room}/settings.json", own_plan), write(f"{room}/settings.csv", rows)
    run = lambda *options: functools.partial(program.run, ["--plan", path, *options, file, file])
    for workers in (1, 2, 5, 16):
        try_setting(count, f"{workers} workers", run("--workers", str(workers)), library, "thread", 2 + workers, 2 + workers)
    try_setting(count, "no number of workers", run(), library, "thread", 4, 4)
    # two batches in all, or two hundred, each of which takes memory at least five times
    try_setting(count, "a batch size of 100", run("--batch", "100"), library, "memory", 1, 999)
    try_setting(count, "no batch size", run(), library, "memory", 1, 999)
    try_setting(count, "a batch size of 1", run("--batch", "1"), library, "memory", 1000, MOST_CALLS)
    alone = write(f"{room}/settings.input", f"{plan([source(1, 'v int')], '')}\n{rows}")

    def run_alone(**how):
        with open(alone, "rb") as file:
            return program.run([], stdin=file, **how)

    try_setting(count, "standard input", run_alone, library, "thread", 3, 3)
    # a thread prints each whole 2,048 rows, unless there is one worker
    in_parts = lambda workers: lambda **how: program.run([*program.arguments["printed in parts"], "--workers", workers], **how)
    for word, threads in (("1", 2), ("2", 5), ("16", 19)):
        try_setting(count, f"printed in parts, {word} workers", in_parts(word), library, "thread", threads, threads)
    try_setting(count, "standard input", run_alone, library, "memory", 1, 499)


def try_printing(count, program, library, room):
    """A run whose threads that print are refused prints the same; no more of them print at once than there are workers; and they are joined
    before the program says that a read has failed."""
    row = next(it for it in ROWS if it.name == "printed in parts")
    for number in (4, 5):
        answer, is_met = refuse(functools.partial(program.run_row, row), library, "thread", number)
        fits = is_met and answer == row.answer
        count.add("program, printing", "with the row's answer" if fits else "otherwise", None if fits else f"thread {number} that prints")
    # 29 parts, and a file of several reads
    rows, (_, steps, *_) = "12345\n" * 60_000, program.arguments[row.name]
    path = write(f"{room}/long.csv", f"v\n{rows}")
    long = lambda workers: functools.partial(program.run, ["--plan", steps, "--workers", str(workers), path])
    # beside the thread of the file and those of the workers
    for workers, threads in ((1, 2), (2, 5), (3, 7)):
        try_setting(count, f"a long file in parts, {workers} workers", long(workers), library, "at-once", threads, threads)
    own = frame("v,s\n" + rows.replace("12345", "12345,12345"))
    try_sort(count, "a long file in parts", long(2), own, library, "read")


def try_large_batches(count, program, library, room):
    """A batch of 1,024 rows, of which each byte is a read, and one of which a join makes 102 parts: 6,656,000 rows, at most 65,536 in
    each."""
    ones = lambda rows: write(f"{room}/{rows}-ones.csv", "k\n" + "1\n" * rows)
    counted = ["--plan", write(f"{room}/counted.json", plan([source(1, "k int")], COUNTED)), ones(1024)]
    joined = ["--plan", write(f"{room}/joined-ones.json", plan([source(1, "k int")] * 2, f"{INNER},{COUNTED}")), ones(6500), ones(1024)]
    # (a program with run-time checks takes minutes)
    answer, is_met = refuse(functools.partial(program.run, counted, timeout=20 * LONGEST_RUN), library, "short-reads", 2 * 1024)
    is_right = is_met and answer == frame("k,n\n1,1024\n")
    count.add("program, large batches", f"status {answer.status}", None if is_right else f"a byte a read: {answer}, {is_met}")
    answer = program.run(joined, timeout=20 * LONGEST_RUN)
    count.add("program, large batches", f"status {answer.status}", None if answer == frame("k,n\n1,6656000\n") else f"joined: {answer}")


def try_random_case(count, program, library, room, case, own, draw):
    """A random plan over random files, in which calls that are drawn are refused."""
    os.mkdir(room)
    paths = [f"{room}/plan.json", *(f"{room}/{number}.csv" for number in range(len(case.files)))]
    for path, data in zip(paths, (case.plan, *case.files)):
        with open(path, "wb") as file:
            file.write(data)
    notations = [word for pair in case.notations for word in pair]
    arguments = ["--batch", str(case.batch), "--workers", str(case.workers), *notations, "--plan", *paths]
    for _ in range(RUNS_OF_A_CASE):
        sort = draw.choice(("memory",) * 4 + SORTS)
        number = draw.randint(1, 300 if sort == "memory" else 12)
        run = functools.partial(program.run, arguments)
        try_call(count, f"random, {sort}", f"seed {SEED}, {room[room.rindex('/') + 1:]}", run, own, library, sort, number)


def try_random(count, pool, program, library, room):
    text = lambda them: them.decode(errors="replace")
    jobs = []
    for number in range(RANDOM_CASES):
        case = cases.case(SEED, number, noted=40)
        wanted = oracle.answer(case.plan, case.files, case.notations)
        own = Answer(wanted.status, text(wanted.output), text(wanted.error))
        jobs.append((try_random_case, count, program, library, f"{room}/case {number}", case, own, random.Random(number)))
    together(jobs, pool)
