"""The runs that were made, and what was wrong with them."""
import collections
import concurrent.futures
import threading

LONGEST_RUN = 30  # seconds


class Count:
    """The runs of each kind, and what was wrong."""

    def __init__(self):
        self.lock, self.runs, self.wrong, self.endings = threading.Lock(), collections.Counter(), [], collections.Counter()

    def add(self, kind, ending, wrong=None):
        with self.lock:
            self.runs[kind] += 1
            self.endings[kind, ending] += 1
            if wrong:
                self.wrong.append(f"FAILED  {kind}: {wrong}")

    def show(self):
        for kind, runs in sorted(self.runs.items()):
            endings = ", ".join(f"{number} {name}" for (it, name), number in sorted(self.endings.items()) if it == kind)
            print(f"{kind}: {runs} runs: {endings}")
        for line in self.wrong:
            print(line)
        print(f"{sum(self.runs.values()) - len(self.wrong)} passed, {len(self.wrong)} failed")


def together(jobs, pool):
    """Runs functions with their arguments side by side; what one of them raises is raised here."""
    for it in concurrent.futures.as_completed([pool.submit(*job) for job in jobs]):
        it.result()


def write(path, text):
    with open(path, "w", encoding="utf-8") as file:
        file.write(text)
    return path
