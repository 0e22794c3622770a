"""Code and lists that stand twice: in a document, and where they come from."""
import re

from documents import TOP, files, source
from reach import DEVICE, HEADLINE, RELATION, reached


def section(text, title):
    return re.search(rf"^#+ {title}$(.*?)(?=^#+ |\Z)", text, re.M | re.S)[1]


def code_that_differs(documents):
    """The code under "A driver in Rattle" is that of crates/example_device, paragraph by paragraph, and has the whole driver."""
    sources = [path.read_text() for path in (TOP / "crates/example_device/src").glob("*.rt")]
    porting = section(documents.texts["docs/PORTING.md"], "A driver in Rattle")
    for block in re.findall(r"(?:^    .*\n)(?:(?:    .*)?\n)*", porting, re.M):
        for paragraph in re.split(r"\n\n+", re.sub(r"^    ", "", block, flags=re.M).strip("\n")):
            if not any(paragraph in text for text in sources):
                yield f"docs/PORTING.md has code that the example hasn't:\n{paragraph}"
    shown = re.sub(r"^    ", "", porting, flags=re.M)
    for paragraph in re.split(r"\n\n+", source("crates/example_device/src/driver.rt").strip("\n"))[1:]:
        if paragraph not in shown:
            yield f"crates/example_device/src/driver.rt has code that docs/PORTING.md hasn't:\n{paragraph}"


def definitions_that_differ(documents):
    """The first line of a file of definitions says "Headline" exactly if the headline or what holds beside it rests on it, and "Relation"
    exactly if not that does, but what a bus promises; docs/AUDIT.md has them by docs/write."""
    headline = {one[:2] for one in reached(tuple(HEADLINE + DEVICE))}
    wanted = {"Headline": headline, "Relation": {one[:2] for one in reached(tuple(RELATION))} - headline}
    for mark, reaches in wanted.items():
        due = {f"crates/{crate}/specs/{file}.antt" for crate, file in reaches}
        marked = {name for name in files() if "/specs/" in name and source(name).startswith(f"-- {mark} ")}
        yield from (f"{name} has to be marked {mark}" for name in sorted(due - marked))
        yield from (f"{name} is marked {mark}, and isn't reached" for name in sorted(marked - due))


def faults_that_are_not(documents):
    """Each fault of the card relation, a constructor of a step, stands in both tables of faults."""
    steps = re.findall(r"^pub data (\w+Step)\b(.*?)(?=^pub data|\Z)", source("crates/mmc_card/specs/Faults.antt"), re.M | re.S)
    for step, text in steps:
        for fault in set(re.findall(r"^  (\w+) : ", text, re.M)) - {"faithful", "brownout"}:
            if f"`{step}.{fault}`" not in documents.texts["docs/ARCHITECTURE.md"]:
                yield f"docs/ARCHITECTURE.md, \"Where a fault lives\", hasn't {step}.{fault}"
            if f"`{fault}`" not in section(documents.texts["docs/STANDARD.md"], "Faults"):
                yield f"docs/STANDARD.md, \"Faults\", hasn't {fault}"


def commands_that_are_not(documents):
    """Each command of a code block is there, and each option of cardtool's."""
    options = set(re.findall(r"--[a-z][\w-]*", " ".join(source(name) for name in files() if re.match(r"crates/card\w*/src/", name))))
    named = set(re.findall(r'"([a-z][\w-]*)"', " ".join(source(name) for name in files() if re.match(r"crates/card\w*/src/", name))))
    for place, line in documents.lines():
        if not line.startswith("    ") or "docs/STANDARD" in place:
            continue
        for path in re.findall(r"(?:^|[ (])((?:\.ci|bench|c|tests|crates|docs|examples)/[\w./-]+)", line):
            if "/out" not in path and not (TOP / path).exists():
                yield f"{place}: there is no {path}"
        for words in re.findall(r"\bcardtool ((?:[a-z]+ |--)[^|#>&']*)", line):
            for option in re.findall(r"--[a-z][\w-]*", words):
                if option not in options and option[2:] not in named:
                    yield f"{place}: cardtool has no {option}"


CHECKS = [code_that_differs, definitions_that_differ, faults_that_are_not, commands_that_are_not]
