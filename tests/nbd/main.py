"""Tries each part, and says at the end how many comparisons were made and how many of them were wrong."""
import importlib.util
import shutil
import sys
import tempfile

import copies
import endings
import file_systems
import in_flight
import information
import negotiation
import transmission
from trial import Trial

PARTS = {part.__name__: part for part in (negotiation, transmission, endings, information, in_flight, copies, file_systems)}


def missing(part):
    """The packages of the tools that a part needs and that aren't there."""
    is_there = lambda tool: importlib.util.find_spec(tool[7:]) if tool.startswith("python:") else shutil.which(tool)
    return [package for tool, package in part.NEEDS.items() if not is_there(tool)]


def main():
    if len(sys.argv) < 2 or not set(sys.argv[2:]) <= set(PARTS):
        sys.exit(f"usage: tests/nbd/run PROGRAM [{'|'.join(PARTS)}]..")
    left_out = 0
    with tempfile.TemporaryDirectory() as folder:
        trial = Trial(sys.argv[1], folder)
        for name in sys.argv[2:] or PARTS:
            packages = missing(PARTS[name])
            if packages:
                left_out += 1
                print(f"nbd: {name} is left out, since {' and '.join(sorted(set(packages)))} isn't installed")
            else:
                PARTS[name].try_all(trial)
    print(f"nbd: {trial.tried} tried, {trial.wrong} wrong, {left_out} parts left out")
    sys.exit(trial.wrong > 0 or trial.tried == 0)


main()
