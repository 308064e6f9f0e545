"""Runs the built oracle; its place is found from this file's."""

import os
import subprocess
import sys

HERE = os.path.dirname(os.path.abspath(__file__))
PROGRAM = os.path.join(HERE, "..", "rust", "target", "sat_oracle")


def oracle(*arguments, lines=None):
    """Output lines of one oracle run over these input lines."""
    if not os.path.exists(PROGRAM):
        sys.exit("the oracle is not built: run tests/rust/build first")
    text = "" if lines is None else "".join(line + "\n" for line in lines)
    run = subprocess.run([PROGRAM, *map(str, arguments)], input=text, text=True,
                         stdout=subprocess.PIPE)
    if run.returncode != 0:
        sys.exit("the oracle stopped: " + " ".join(map(str, arguments)))
    return run.stdout.splitlines()


def stored(name):
    with open(os.path.join(HERE, name), encoding="ascii") as file:
        return file.read().splitlines()


def store(name, lines):
    with open(os.path.join(HERE, name), "w", encoding="ascii") as file:
        file.writelines(line + "\n" for line in lines)
