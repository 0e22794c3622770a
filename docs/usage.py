"""What `cardtool help` says, taken apart: by this the manual and the completions are made."""
import re
import subprocess

# the commands that have a text of their own, in the order of the manual
COMMANDS = ["serve", "new", "check", "decode", "nbd"]


def text_of(program, command=None):
    """What `help` prints, of all or of a command."""
    words = [program, "help"] + ([command] if command else [])
    return subprocess.run(words, capture_output=True, text=True, check=True).stdout


def rows_of(block):
    """The rows of a table: a name and its words, whose further lines are indented deeper; or nothing, where it isn't one."""
    rows = []
    for line in block.splitlines():
        if row := re.fullmatch(r"    (\S.*?)  +(\S.*)", line) or re.fullmatch(r"    (--\S+(?: \S+)?)()", line):
            rows.append([row[1], row[2]])
        elif rows and line.startswith(" " * 8):
            rows[-1][1] += "\n" + line
        else:
            return []
    return rows


def blocks_of(text):
    """The paragraphs, tables and examples, in their order: ("usage" | "words" | "table" | "example", what)."""
    for block in text.strip("\n").split("\n\n"):
        if block.startswith("usage: "):
            yield "usage", " ".join(block.removeprefix("usage: ").split())
        elif rows := rows_of(block):
            yield "table", rows
        elif block.startswith("    "):
            yield "example", [line.strip() for line in block.splitlines()]
        else:
            yield "words", " ".join(block.split())


def options_of(program, command):
    """Its options: each with its value's name, or nothing of a flag, and its first words."""
    for kind, what in blocks_of(text_of(program, command)):
        for name, words in what if kind == "table" else []:
            if name.startswith("--"):
                option, _, value = name.partition(" ")
                yield option, value, " ".join(words.split())
