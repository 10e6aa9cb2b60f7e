"""Random plans and files, written anew by the calls of the package, and run; the answers are those of the second implementation."""
import concurrent.futures
import json
import os
import tempfile
import unittest

from repository import fq, program

import cases
import oracle

COUNT = int(os.environ.get("FRAMEQ_CASES", "2000"))
KINDS = {"int": fq.Int64, "text": fq.String, "bool": fq.Boolean}
METHODS = {"and": "and_", "or": "or_", "not": "not_"}


def expression(value):
    """An expression by calls: a plan's, or ["roll", e, window, least] or ["agg", function, e] in it."""
    if isinstance(value, dict):
        return fq.col(value["col"]) if "col" in value else fq.lit(None, dtype=KINDS[value["null"]])
    if not isinstance(value, list):
        return fq.lit(value)
    operation, first, *rest = value
    if operation == "roll":
        return expression(first).rolling_sum(rest[0], min_samples=rest[1])
    if operation == "agg":
        return fq.len() if first == "len" else getattr(expression(rest[0]), first)()
    return getattr(expression(first), METHODS.get(operation, operation))(*map(expression, rest))


def outputs(pairs):
    return [expression(value).alias(name) for name, value in pairs]


def aggregate(name, function, *column):
    return (getattr(fq.col(column[0]), function)() if column else fq.len()).alias(name)


def after(frame, scans, step):
    """A frame after a step, by the call that writes it."""
    (word, value), = step.items()
    if word == "filter":
        return frame.filter(expression(value))
    if word in ("select", "with_columns"):
        return getattr(frame, word)(outputs(value))
    if word == "join":
        return frame.join(scans[value["source"]], on=value["on"], how=value["how"], nulls_equal=value.get("nulls_equal", False))
    if word == "group_by":
        return frame.group_by(value["keys"]).agg([aggregate(*it) for it in value["aggs"]])
    rolled = fq.col(value["column"]).rolling_sum(value["window"], min_samples=value.get("min_samples"))
    return frame.with_columns(rolled.alias(value["name"]))


def frame_of(plan, files):
    """The frame of a plan over files with these names."""
    scans, files = [], list(files)
    for source in plan["sources"]:
        count = source["files"]
        schema = {name: KINDS[kind] for name, kind in source["columns"]}
        scans.append(fq.scan_csv(files[:count], schema=schema, null_values=source.get("null_values")))
        files = files[count:]
    frame = scans[-1]
    for step in plan["steps"]:
        frame = after(frame, scans, step)
    return frame


def without_places(steps):
    """Steps without the numbers of sources, defaults written out, and without those that change nothing."""
    plain = []
    for step in steps:
        (word, value), = step.items()
        if word == "join":
            value = {"nulls_equal": False, **value, "source": None}
        elif word == "rolling_sum":
            value = {"min_samples": value["window"], **value}
        if value != [] or word != "with_columns":
            plain.append({word: value})
    return plain


def right_cases():
    """Cases whose plan the check takes, and whose files are as many as it wants."""
    number = 0
    while True:
        case = cases.case(47, number)
        number += 1
        try:
            plan = oracle.read_plan(case.plan)
            oracle.check(plan)
        except (oracle.Ending, oracle.Refusal):
            continue
        if oracle.files_wanted(plan) == len(case.files):
            yield case


class Random(unittest.TestCase):
    """The plans of random cases."""

    def test_cases(self):
        """Each is written with the same steps, and answered as the second implementation answers it."""
        path = program()
        cases_left = right_cases()
        with concurrent.futures.ThreadPoolExecutor(len(os.sched_getaffinity(0))) as pool:
            for difference in pool.map(lambda case: self.difference(case, path), (next(cases_left) for _ in range(COUNT))):
                self.assertIsNone(difference)

    def difference(self, case, path):
        """None, or what differs."""
        plan = json.loads(case.plan)
        with tempfile.TemporaryDirectory() as room:
            names = [os.path.join(room, f"{number}.csv") for number in range(len(case.files))]
            for name, data in zip(names, case.files):
                with open(name, "wb") as file:
                    file.write(data)
            frame = frame_of(plan, names)
            if without_places(frame.plan()["steps"]) != without_places(plan["steps"]):
                return plan, frame.plan()
            data = dict(zip(names, case.files))
            expected = oracle.answer(json.dumps(frame.plan()).encode(), [data[name] for name in frame.files()])
            # (a source that no step joins is not in the plan that is written, so its files cannot fault there)
            original = oracle.answer(case.plan, case.files)
            if original.status == 0 and original != expected:
                return plan, frame.plan(), original, expected
            result = os.path.join(room, "result")
            try:
                frame.sink_csv(result, batch=case.batch, workers=case.workers, program=path)
            except fq.FrameqError as error:
                return None if (error.status, f"{error.line}\n".encode()) == (expected.status, expected.error) else (plan, error, expected)
            with open(result, "rb") as file:
                return None if expected.status == 0 and file.read() == expected.output else (plan, expected)


if __name__ == "__main__":
    unittest.main()
