"""The built program when the operating system refuses something."""
import contextlib
import errno
import os
import pty
import select
import shlex
import shutil
import signal
import subprocess
import tempfile
import threading
import time

from counts import LONGEST_RUN, together, write
from program import INNER, MEMORY, NO_PLAN, ROWS, WRITE_LINE, Answer, fault, frame, is_allowed, is_documented, plan, source


def limit(kind, most):
    """The command under which a program has a limit of this kind (prlimit's long options name them)."""
    return ["prlimit", f"--{kind}={most}", "--"]


def closing(descriptor):
    """The command under which a program has this descriptor closed."""
    return ["sh", "-c", f'exec "$@" {descriptor}>&-', "sh"]


def unwritten(name, number):
    """The answer with --details where a write into this failed by an error of this number."""
    return Answer(5, "", f"{WRITE_LINE}  {name}: {os.strerror(number)}\n")


def check(count, kind, what, answer, allowed):
    is_right = allowed(answer)
    count.add(f"system, {kind}", f"status {answer.status}", None if is_right else f"{what}: {answer._replace(out=answer.out[:200])}")


def large_rows(room):
    """Plans over 20,000 rows: no step, a grouping with as many groups, and a join, with what they print."""
    numbers = range(20_000)
    text = write(f"{room}/numbers.csv", "k,v\n" + "".join(f"{it},{it % 7}\n" for it in numbers))
    made = []
    for name, steps, wanted in [
        ("all", "", "k,v\n" + "".join(f"{it},{it % 7}\n" for it in numbers)),
        ("grouped", '{"group_by":{"keys":["k"],"aggs":[["s","sum","v"]]}}', "k,s\n" + "".join(f"{it},{it % 7}\n" for it in numbers)),
    ]:
        path = write(f"{room}/{name}.json", plan([source(1, "k int", "v int")], steps))
        made.append((name, ["--plan", path, text], frame(wanted)))
    joined = plan([source(1, "k int", "v int")] * 2, INNER)
    wanted = frame("k,v,v_right\n" + "".join(f"{it},{it % 7},{it % 7}\n" for it in numbers))
    made.append(("joined", ["--plan", write(f"{room}/joined.json", joined), text, text], wanted))
    made.append(("all at 16 workers", ["--workers", "16", *made[0][1]], made[0][2]))
    return made


def starts(program, most):
    """Whether the program starts in an address space of so many bytes: it says what it does."""
    answer = program.run(["--help"], under=limit("as", most))
    return answer.status == 0 or answer == MEMORY


def address_spaces(count, pool, program, rows):
    """Address spaces from where the program starts to where each run has enough."""
    least = next((it for it in range(1 << 20, 1 << 27, 1 << 18) if starts(program, it)), None)
    if least is None:
        count.add("system, address space", "not run", "the program starts in none")
        return

    def until_enough(name, arguments, own):
        # the loader takes some pages more or less
        most = least + (1 << 18)
        while most < 1 << 33:
            answer = program.run(arguments, under=limit("as", most))
            check(count, "address space", f"{name} in {most} bytes", answer, lambda it: it in (own, MEMORY))
            most += max(most // 40, 1 << 16)
        check(count, "address space", f"{name} without a limit", program.run(arguments), lambda it: it == own)

    together(((until_enough, *it) for it in rows), pool)


def stack_sizes(count, program, rows):
    """Small stacks: the program's first thread has as much as the limit says."""
    for name, arguments, own in rows:
        for most in (1 << 20, 1 << 19, 1 << 18):
            answer = program.run(arguments, under=limit("stack", most))
            check(count, "stack", f"{name} with a stack of {most} bytes", answer, lambda it, own=own: it in (own, MEMORY))


def devices(count, program, rows):
    """A full device, a closed pipe, a closed output, a file of limited size."""
    wanted = Answer(5, "", WRITE_LINE)
    for name, arguments, own in rows:
        with open("/dev/full", "wb") as full:
            check(count, "full device", name, program.run(arguments, stdout=full), lambda it: it == wanted)
            answer = program.run(["--details", *arguments], stdout=full)
            check(count, "full device", f"{name}, with details", answer, lambda it: it == unwritten("standard output", errno.ENOSPC))
            check(count, "full standard error", name, program.run(arguments, stderr=full), lambda it, own=own: it == own)
        for restores in (True, False):
            reader, writer = os.pipe()
            os.close(reader)
            answer = program.run(arguments, stdout=writer, restore_signals=restores)
            os.close(writer)
            check(count, "closed pipe", f"{name}, signals {restores}", answer, lambda it: it == wanted)
        answer = program.run(arguments, under=closing(1))
        check(count, "closed output", name, answer, lambda it: it == wanted)
        for most in (0, 1, 7, 4096, len(own.out) - 1):
            with tempfile.TemporaryFile() as file:
                how = {"stdout": file, "restore_signals": False, "under": limit("fsize", most)}
                answer = program.run(arguments, **how)
                file.seek(0)
                text = file.read().decode()
            check(count, "file of limited size", f"{name}, {most} bytes", answer,
                  lambda it, own=own, text=text: it == wanted and own.out.startswith(text))


def open_files(count, program, rows):
    """Fewer descriptors than a run opens files; it takes four to start."""
    for name, arguments, own in rows:
        for most in range(4, 9):
            answer = program.run(arguments, under=limit("nofile", most))
            check(count, "open files", f"{name}, {most} descriptors", answer, lambda it, own=own: it == own or is_allowed("open", it, own))


def early_reader(count, program, rows):
    """A reader of the output that ends after some bytes."""
    for name, arguments, _ in rows:
        ran = subprocess.Popen([program.path, *arguments], stdin=subprocess.DEVNULL, stdout=subprocess.PIPE, stderr=subprocess.PIPE)
        ran.stdout.read(5)
        ran.stdout.close()
        _, said = ran.communicate(timeout=LONGEST_RUN)
        answer = Answer(ran.returncode, "", said.decode())
        check(count, "reader that ends", name, answer, lambda it: it == Answer(5, "", WRITE_LINE))


def folders(count, program, room):
    """A folder, and a file that cannot be opened, in the place of a file."""
    data, text = write(f"{room}/v.csv", "v\n1\n"), write(f"{room}/v.json", plan([source(2, "v int")], ""))
    for path in (room, f"{room}/missing.csv", f"{data}/below"):
        for arguments, wanted in [
            (["--plan", path, data, data], NO_PLAN),
            (["--plan", text, path, data], fault(5, "read failed: file 0")),
            (["--plan", text, data, path], fault(5, "read failed: file 1")),
        ]:
            check(count, "folder or missing file", path, program.run(arguments), lambda it, wanted=wanted: it == wanted)
    with open("/proc/self/mem", "rb") as unreadable:
        check(count, "unreadable input", "standard input", program.run([], stdin=unreadable),
              lambda it: it == fault(5, "read failed: file 0"))
    folder = os.open(room, os.O_RDONLY)
    check(count, "unreadable input", "a folder", program.run([], stdin=folder), lambda it: it == fault(5, "read failed: file 0"))
    os.close(folder)
    check(count, "unreadable input", "closed", program.run([], under=closing(0)),
          lambda it: it == fault(5, "read failed: file 0"))
    # (a file that is opened takes the lowest number that is free, which a closed input leaves)
    for turn in range(20):
        check(count, "unreadable input", f"closed beside a file, run {turn}", program.run(["--plan", text, data, "-"], under=closing(0)),
              lambda it: it == fault(5, "read failed: file 1"))


def outputs(count, program, room):
    """A file that takes the frame: new, over another, over an input, through a link; one that cannot; a run that is killed."""
    room = f"{room}/outputs"
    os.mkdir(room)
    text, other = "v\n1\n2\n", "other\n"
    steps, data = write(f"{room}/plan.json", plan([source(1, "v int")], "")), write(f"{room}/v.csv", text)
    bad = write(f"{room}/bad.csv", "v\nx\n")

    def into(what, path, file, wanted, holds, *options, **how):
        answer = program.run([*options, "--plan", steps, "-o", path, file], **how)
        said = None
        if holds is not None:
            with open(path, encoding="utf-8") as opened:
                said = opened.read()
        new = [it for it in os.listdir(room) if it.startswith(".frameq")]
        is_right = lambda it: it == wanted and said == holds and not new
        check(count, "output file", f"{what}: holds {said!r}, beside it {new}", answer, is_right)

    def fails_into(what, path, number, holds, **how):
        into(what, path, data, Answer(5, "", WRITE_LINE), holds, **how)
        into(f"{what}, with details", path, data, unwritten(path, number), holds, "--details", **how)

    done = Answer(0, "", "")
    into("a new file", f"{room}/new.csv", data, done, text)
    own = write(f"{room}/own.csv", text)
    os.chmod(own, 0o640)
    into("an input", own, own, done, text)
    check(count, "output file", "its permissions", Answer(os.stat(own).st_mode & 0o777, "", ""), lambda it: it.status == 0o640)
    for owner, group in (0, 1), (1, 0):
        try:
            os.chown(own, owner, group)
        except OSError as error:
            print(f"system, output file: not run with owner {owner} and group {group}: {error}")
            continue
        into(f"an input of owner {owner} and group {group}", own, own, done, text)
        there = os.stat(own)
        check(count, "output file", "its owner and group", Answer(0, f"{there.st_uid} {there.st_gid}", ""),
              lambda it, owner=owner, group=group: it.out == f"{owner} {group}")
    into("a fault", write(f"{room}/other.csv", other), bad, fault(4, "file 0, row 1, column 0: bad cell"), other)
    os.symlink("other.csv", f"{room}/link.csv")
    into("a link", f"{room}/link.csv", data, done, text)
    check(count, "output file", "the link", Answer(int(os.path.islink(f"{room}/link.csv")), "", ""), lambda it: it.status == 1)
    write(f"{room}/other.csv", other)
    fails_into("a limited size", f"{room}/other.csv", errno.EFBIG, other, under=limit("fsize", 3), restore_signals=False)
    os.symlink("nothing.csv", f"{room}/dangling.csv")
    fails_into("a link to nothing", f"{room}/dangling.csv", errno.ENOENT, None)
    check(count, "output file", "what it leads to", Answer(int(os.path.exists(f"{room}/nothing.csv")), "", ""), lambda it: it.status == 0)
    refused, own_plan = fault(2, "the frame would replace the plan"), plan([source(1, "v int")], "")
    os.symlink("plan.json", f"{room}/plan-link.json")
    os.link(steps, f"{room}/plan-other.json")
    for name in ("plan.json", "./plan.json", "plan-link.json", "plan-other.json"):
        into(f"the plan by {name}", f"{room}/{name}", data, refused, own_plan)
        into(f"the plan by {name}, before a file is opened", f"{room}/{name}", f"{room}/none.csv", refused, own_plan)
    fails_into("a folder that is not there", f"{room}/none/new.csv", errno.ENOENT, None)
    fails_into("a folder", room, errno.EISDIR, None)
    fails_into("a full device", "/dev/full", errno.ENOSPC, None)
    interrupted_outputs(count, program, room, steps, into)


def descriptors(count, program, room):
    """Files that take the frame and are named by a descriptor: a shell has written to them before, and writes to them afterwards."""
    steps, data = write(f"{room}/descriptors.json", plan([source(1, "v int")], "")), write(f"{room}/descriptors.csv", "v\n1\n")
    bad, out = write(f"{room}/bad-descriptors.csv", "v\nx\n"), f"{room}/descriptors.out"
    run = f"{shlex.quote(program.path)} --plan {shlex.quote(steps)}"

    def into(what, script, wanted, said):
        write(out, "old\n")
        ran = subprocess.run(["sh", "-c", script], cwd=room, capture_output=True, text=True, timeout=LONGEST_RUN, check=False)
        with open(out, encoding="utf-8") as opened:
            answer = Answer(ran.returncode, ran.stdout, ran.stderr + opened.read())
        check(count, "output descriptor", f"{what}: {script}", answer, lambda it: it == Answer(wanted, "", said))

    for descriptor, names in (1, ("/dev/stdout", "/dev/fd/1", "/proc/self/fd/1")), (2, ("/dev/stderr", "/dev/fd/2", "/proc/self/fd/2")):
        for name in names:
            around = f"{{ echo a >&{descriptor}; {run} -o {name} {data}; echo b >&{descriptor}; }} {descriptor}"
            into("written over", f"{around}> {out}", 0, "a\nv\n1\nb\n")
            into("written behind", f"{around}>> {out}", 0, "old\na\nv\n1\nb\n")
    for name in ("/dev/fd/3", "/proc/self/fd/3"):
        into("of a number, written over", f"{{ echo a >&3; {run} -o {name} {data}; }} 3> {out}", 0, "a\nv\n1\n")
        into("of a number, written behind", f"{{ echo a >&3; {run} -o {name} {data}; echo b >&3; }} 3>> {out}", 0, "old\na\nv\n1\nb\n")
        into("of a pipe", f"{run} -o {name} {data} 3>&1 | cat > {out}", 0, "v\n1\n")
        into("a fault", f"{run} -o {name} {bad} 3>> {out}", 4, "frameq: file 0, row 1, column 0: bad cell\nold\n")
        # (the files of the run have these numbers)
        into("of a file that is read", f"{run} -o {name} {out.replace('.out', '.csv')}", 5, WRITE_LINE + "old\n")
    into("that is read alone", f"{run} -o /dev/fd/3 {data} 3< {out}", 5, WRITE_LINE + "old\n")
    into("that is not open", f"{run} -o /dev/fd/9 {data}", 5, WRITE_LINE + "old\n")
    with open(data, encoding="utf-8") as opened:
        check(count, "output descriptor", "what was read", Answer(0, opened.read(), ""), lambda it: it == frame("v\n1\n"))


@contextlib.contextmanager
def waiting_run(program, room, steps, path):
    """A run into a file that waits for the rows of a pipe, and the end of that pipe."""
    pipe = f"{room}/pipe"
    os.mkfifo(pipe)
    rows = open(pipe, "r+b", buffering=0)  # (does not wait for a reader)
    ran = subprocess.Popen([program.path, "--plan", steps, "-o", path, pipe], stderr=subprocess.DEVNULL)
    rows.write(b"v\n1\n")
    new = f"{room}/.frameq-0"
    for _ in range(LONGEST_RUN * 100):
        if os.path.exists(new):
            break
        time.sleep(0.01)
    time.sleep(0.05)
    try:
        yield ran, rows, new
    finally:
        ran.kill()
        ran.wait()
        rows.close()
        os.unlink(pipe)


def interrupted_outputs(count, program, room, steps, into):
    """A file that takes the frame of a run that is ended by a signal, and of one beside another."""
    other, data, done = f"{room}/other.csv", f"{room}/v.csv", Answer(0, "", "")
    for ends in (signal.SIGHUP, signal.SIGINT, signal.SIGQUIT, signal.SIGTERM, signal.SIGKILL):
        write(other, "other\n")
        os.chmod(other, 0o640)
        with waiting_run(program, room, steps, other) as (ran, _, new):
            mode = os.stat(new).st_mode & 0o777
            ran.send_signal(ends)
            ran.wait()
            with open(other, encoding="utf-8") as opened:
                answer = Answer(ran.returncode, opened.read(), "")
                check(count, "output file", f"ended by {ends.name}, the new file with mode {mode:o}", answer,
                      lambda it, ends=ends, mode=mode: it == Answer(-ends, "other\n", "") and mode == 0o600)
        into(f"what a run left that was ended by {ends.name}", other, data, done, "v\n1\n2\n")
    write(other, "other\n")
    with waiting_run(program, room, steps, other) as (ran, rows, new):
        answer = program.run(["--plan", steps, "-o", f"{room}/beside.csv", data])
        check(count, "output file", "beside another run", answer._replace(out=str(os.path.exists(new))),
              lambda it: it == Answer(0, "True", ""))
        rows.close()
        ran.wait()
        with open(other, encoding="utf-8") as opened:
            check(count, "output file", "the other run", Answer(ran.returncode, opened.read(), ""),
                  lambda it: it == Answer(0, "v\n1\n", ""))
    for number in range(1000):
        write(f"{room}/.frameq-{number}", "left\n")
    answer = program.run(["--plan", steps, "-o", other, data])
    check(count, "output file", "a thousand files left", answer, lambda it: it == done)


def read_terminal(controller):
    """What was written to a terminal, which may come in pieces."""
    text = b""
    while select.select([controller], [], [], 1)[0]:
        text += os.read(controller, 4096)
    return text.decode()


def terminal(count, program, room):
    """A terminal as standard input, without arguments, and as standard error, which shows how much is read."""
    text = "v\n" + "1234567\n" * 300_000
    watched = ["--progress", "--plan", write(f"{room}/megabytes.json", plan([source(1, "v int")], "")),
               write(f"{room}/megabytes.csv", text)]
    shown = "\r\x1b[K".join(["", "frameq: file 0: 1 of 2 MB", "frameq: file 0: 2 of 2 MB", "", ""])  # at the file's end, and the run's
    controller, device = pty.openpty()
    answer = program.run([], stdin=device)
    check(count, "terminal", "no argument", answer, lambda it: it.status == 2 and not it.out and "Usage: frameq" in it.err)
    check(count, "terminal", "--progress without one", program.run(watched), lambda it: it == frame(text))
    answer = program.run(watched, stderr=device)._replace(err=read_terminal(controller))
    check(count, "terminal", "--progress", answer, lambda it: it == Answer(0, text, shown))
    half = write(f"{room}/half.csv", "v\n" + "1234567\n" * 150_000)
    both = ["--progress", "--plan", write(f"{room}/halves.json", plan([source(2, "v int")], "")), half, half]
    # (files are read side by side, so their lines come in any order)
    answer = program.run(both, stderr=device)._replace(err=sorted(read_terminal(controller).split("\r\x1b[K")))
    of_both = [""] * 4 + ["frameq: file 0: 1 of 1 MB", "frameq: file 1: 1 of 1 MB"]
    check(count, "terminal", "--progress of two files", answer, lambda it: it == Answer(0, text, of_both))
    os.close(controller)
    os.close(device)


def pipes(count, program, room):
    """Named pipes as plan and data, written byte by byte, and ones whose writer ends early."""
    whole, row = "v\n1\n2\n3\n", plan([source(2, "v int")], "")
    data = write(f"{room}/w.csv", "v\n4\n")
    for number, (plan_text, data_text, wanted) in enumerate([
        (row, whole, frame("v\n1\n2\n3\n4\n")),
        (row, "", fault(4, "file 0: header differs")),
        (row, "v\n1\n2", frame("v\n1\n2\n4\n")),
        (row, "v\n1\n2,", fault(4, "file 0, row 2: wrong number of fields")),
        (row[:-1], whole, fault(3, "plan: not JSON")),
    ]):
        names = [f"{room}/pipe-{number}-plan", f"{room}/pipe-{number}-data"]
        writers = []
        for name, text in zip(names, (plan_text, data_text)):
            os.mkfifo(name)
            writers.append(threading.Thread(target=write_slowly, args=(name, text), daemon=True))
            writers[-1].start()
        answer = program.run(["--plan", names[0], names[1], data])
        check(count, "pipe", repr(data_text), answer, lambda it, wanted=wanted: it == wanted)


def write_slowly(path, text):
    with open(path, "wb", buffering=0) as pipe:
        for byte in text.encode():
            try:
                pipe.write(bytes([byte]))
            except BrokenPipeError:
                return


def shrinking_files(count, program, room):
    """A file that is cut while it is read: a frame, or a fault of the row at which it was cut."""
    text = "k,v\n" + "".join(f"{it},{it % 7}\n" for it in range(400_000))
    path, steps = f"{room}/shrinks.csv", write(f"{room}/shrinks.json", plan([source(1, "k int", "v int")], ""))
    for turn in range(12):
        write(path, text)
        ran = subprocess.Popen([program.path, "--plan", steps, path], stdout=subprocess.PIPE, stderr=subprocess.PIPE)
        time.sleep(turn * 0.004)
        os.truncate(path, 1000 + turn)
        out, err = ran.communicate(timeout=LONGEST_RUN)
        answer = Answer(ran.returncode, out.decode(), err.decode())
        check(count, "shrinking file", f"cut after {turn * 4} ms", answer._replace(out=answer.out[:100]),
              lambda it, out=answer.out: it.status == 0 and text.startswith(out[:-1]) and not it.err or is_documented(it))


def threads(count, program, rows):
    """So many threads for the user, if this one may have them refused."""
    how = {} if os.geteuid() else {"user": "nobody", "extra_groups": []}
    try:
        why: object = None if program.run(rows[0][1], **how) == rows[0][2] else "nobody cannot run the program"
    except (OSError, LookupError, subprocess.SubprocessError) as error:
        why = error
    if why:
        print(f"system, threads: not run: {why}; the part 'program' refuses each thread in turn")
        return
    for name, arguments, own in rows:
        for most in (*range(1, 24), 4096):
            answer = program.run(arguments, under=limit("nproc", most), **how)
            check(count, "threads", f"{name}, {most} threads", answer, lambda it, own=own: it in (own, MEMORY))


def try_system(count, pool, program, room):
    if not shutil.which("prlimit"):
        count.add("system", "not run", "there is no prlimit")
        return
    os.chmod(room, 0o755)
    rows = large_rows(room)
    small = [(it.name, program.arguments[it.name], it.answer) for it in ROWS if it.answer.status == 0 and it.options is not None]
    parts = [(stack_sizes, count, program, rows), (devices, count, program, rows), (early_reader, count, program, rows),
             (open_files, count, program, small + rows), (folders, count, program, room), (pipes, count, program, room),
             (shrinking_files, count, program, room),
             (outputs, count, program, room), (descriptors, count, program, room), (terminal, count, program, room),
             (threads, count, program, small + rows)]
    together(parts, pool)
    address_spaces(count, pool, program, rows + small)
