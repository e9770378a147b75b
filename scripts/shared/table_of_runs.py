"""Reads the table of runs in runs/, and the examples. runs/README.md says how a run is written."""

import copy
import glob
import os
import re
import subprocess
import sys

from shared.plain_reading import DECIDED, RULES
from shared.selected_flows import selected_by
from shared.tree import path

# A command whose report is known: what makes its input, the program's command, the rule, and what
# takes its output.
ASKED = re.compile(
    r"(?:(?P<maker>.*) \| )?(?:taskset -c \d+ )?segrx (?P<command>\w+)"
    r"(?: --(?:mailbox|ring)[ =]\d+| --losses[ =](?P<rule>\w+)| --flows[ =](?P<flows>\S+)| --shard[ =](?P<shard>\S+))*"
    r"(?: \| (?P<taker>.*))?"
)


class Run:
    def __init__(self, file, name):
        self.file, self.name = file, name
        self.commands, self.status, self.times = [], 0, 1
        self.command = None  # in what read_table answers, the one of these that is to be run
        self.input, self.output, self.parts, self.error = b"", b"", [], b""


def text_of(written):
    """The bytes of a line of the table: {00*3} stands for 000000, and \\t, \\r, \\x0b and the like
    for such bytes."""
    repeated = re.sub(r"\{([^{}*]+)\*(\d+)\}", lambda m: m[1] * int(m[2]), written)
    return repeated.encode().decode("unicode_escape").encode("latin-1") if "\\" in repeated else repeated.encode()


def add_line(run, mark, rest):
    if mark == "$":
        run.commands.append(rest)
    elif mark == "<":
        run.input += text_of(rest) + b"\n"
    elif mark == "<.":
        run.input += text_of(rest)
    elif mark == "<<":
        run.input += contents(path("examples", rest))
    elif mark == ">":
        run.output += text_of(rest) + b"\n"
    elif mark == ">>":
        run.output += contents(path("examples", rest))
    elif mark == ">~":
        run.parts.append(text_of(rest))
    elif mark == "!":
        run.error += text_of(rest) + b"\n"
    elif mark == "=":
        run.status = int(rest)
    elif mark == "*":
        run.times = int(rest)
    else:
        sys.exit(f"runs: {run.file}: {run.name}: no line of a run begins with {mark}")


def read_runs(path):
    runs = []
    with open(path) as table:
        for line in table.read().split("\n"):
            mark, _, rest = line.partition(" ")
            if mark == "==":
                runs.append(Run(os.path.basename(path), rest))
            elif runs and line:
                add_line(runs[-1], mark, rest)
    return runs


def of_command(run, command):
    """A run of several commands as a run of this one."""
    one = copy.copy(run)
    one.command = command
    return one


def printed_by(command, given=b""):
    """What a command prints that a shell runs on this input."""
    return subprocess.run(["bash", "-c", command], input=given, stdout=subprocess.PIPE, check=True).stdout


def taken_by(taker, answer):
    """What a shell's command makes of the program's standard output, and then the exit status.
    Without one it stays."""
    if not taker:
        return answer
    ran = subprocess.run(["bash", "-c", taker], input=answer[0], stdout=subprocess.PIPE, check=False)
    return ran.stdout, answer[1], ran.returncode


def reports_of(command):
    """The runs of one of the program's commands that have an answer to their input: each with the
    rule that it asks for, its input, and what is to be made of the program's standard output before
    it is compared. Of a report of some flows alone that is the lines that are left."""
    for run in read_table():
        asked = ASKED.fullmatch(run.command)
        if asked and asked["command"] == command and not run.parts and run.status in (0, 1):
            given = printed_by(asked["maker"], run.input) if asked["maker"] else run.input
            yield run, asked["rule"] or DECIDED, given, selected_by(asked["flows"], asked["shard"]), asked["taker"]


def read_examples():
    """Replays of the traces in examples/, whose reports stand beside them: NAME.report by decisions
    alone, and NAME.RULE.report by this rule."""
    commands = {f"{rule}.report": [f"segrx replay --losses {rule}"] for rule in RULES}
    commands["report"] = ["segrx replay"]
    commands[f"{DECIDED}.report"].append("segrx replay")
    for trace in sorted(glob.glob(path("examples", "*.trace"))):
        for ending, replays in commands.items():
            report = trace.removesuffix("trace") + ending
            if os.path.exists(report):
                run = Run("examples", os.path.basename(report))
                run.commands, run.input, run.output = replays, contents(trace), contents(report)
                yield run


def contents(file):
    with open(file, "rb") as opened:
        return opened.read()


def read_table():
    """All runs, each of one command."""
    runs = [run for file in sorted(glob.glob(path("runs", "*.txt"))) for run in read_runs(file)]
    runs += read_examples()
    return [of_command(run, command) for run in runs for command in run.commands]
