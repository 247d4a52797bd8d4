"""The parts of a series that run on their own: their files in one folder."""
import json
import os

PARTS = "parts.json"


class Refused(Exception):
    """Why a series is not split, or reports are not joined."""


def plan_of(part):
    return f"part-{part}.json"


def matrices_of(part):
    return f"part-{part}-matrices.csv"


def failures_of(part):
    return f"part-{part}-failures.csv"


def predictions_of(part):
    return f"part-{part}-predictions.csv"


def report_of(part):
    return f"part-{part}-report.csv"


def write(folder, name, text):
    with open(os.path.join(folder, name), "w", encoding="utf-8", newline="\n") as file:
        file.write(text)


def write_parts(folder, schemes, steps):
    """Keeps the schemes of the reports, in order, and for each part the number of its steps."""
    write(folder, PARTS, json.dumps({"schemes": schemes, "steps": steps}) + "\n")


def read_parts(folder):
    with open(os.path.join(folder, PARTS), encoding="utf-8") as file:
        kept = json.load(file)
    return kept["schemes"], kept["steps"]
