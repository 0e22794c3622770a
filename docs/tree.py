"""What the documents' scripts read of the tree: groups and crates of crates.txt, and what a file is for."""
import re
from functools import cache
from pathlib import Path

TOP = Path(__file__).resolve().parent.parent


@cache
def groups():
    """The groups of crates.txt in order, each a title and its crates."""
    found = []
    for line in (TOP / "crates.txt").read_text().splitlines():
        if line.startswith("#"):
            found.append((line[1:].strip(), []))
        elif line.strip():
            found[-1][1].append(line.split(":")[0].split()[0])
    return found


@cache
def needs():
    """The libraries that each crate stands on, by its line of crates.txt."""
    lines = [line for line in (TOP / "crates.txt").read_text().splitlines() if line.strip() and line[0] != "#"]
    return {line.split(":")[0].split()[0]: line.split(":")[1].split() for line in lines}


@cache
def below(crate):
    """All crates of the repository that a crate stands on."""
    own = {name for name in needs()[crate] if name in needs()}
    return own.union(*map(below, own))


def directly_below(crate):
    """The crates that it stands on, but those that another one of them stands on."""
    own = [name for name in needs()[crate] if name in needs()]
    return [name for name in own if not any(name in below(other) for other in own)]


def ported():
    """The ported crates that each crate names."""
    return {crate: [name for name in names if name not in needs()] for crate, names in needs().items()}


def head(path):
    """What a file is for: the comment that it begins with, or the first documentation in it."""
    text = path.read_text()
    for mark in (r"//[!/]?", "--"):
        if comment := re.match(rf"((?:{mark} ?.*\n)+)", text):
            return " ".join(re.sub(rf"^{mark} ?", "", line) for line in comment[1].splitlines())
    documented = re.search(r"^/// ?(.*)\n(?:///.*\n|#\[.*\n)*pub (?:struct|enum|trait|fn)", text, re.M)
    return documented[1] if documented else ""


def purpose(crate):
    """What a crate is for, in few words: its first sentence, or what stands before the details of a long one."""
    sentence = re.split(r"(?<=[.])\s", head(root_file(crate)))[0].rstrip(".")
    return sentence if len(sentence) <= 80 else re.split(r": | \(|; |, and ", sentence)[0]


def root_file(crate):
    folder = TOP / "crates" / crate / "src"
    return folder / "lib.rt" if (folder / "lib.rt").exists() else folder / "main.rt"
