"""Programs that `rt try` compiles, with run-time checks and without a proof."""
import os
import subprocess
import time


def keep_program(words, folder, room, path, seconds):
    """Runs `rt try` in the folder of a crate, and gives its program, which it removes at its end, a second name. Gives the status of
    `rt try`, and what was said. It works in `room`, which has to be on the same disk as `path`."""
    with open(f"{room}/said", "w+b") as said:
        tried = subprocess.Popen(["rt", "try", *words], cwd=folder, stdin=subprocess.DEVNULL, stdout=said, stderr=said,
                                 env={**os.environ, "TMPDIR": room})
        began = time.monotonic()
        while tried.poll() is None and time.monotonic() - began < seconds:
            time.sleep(0.02)
            built = [f"{it}/program" for it, _, files in os.walk(room) if "program" in files]
            if built and not os.path.exists(path):
                try:
                    os.link(built[0], path)
                except FileNotFoundError:
                    pass
        tried.terminate()
        status = tried.wait()
        said.seek(0)
        return status, said.read().decode(errors="replace")
