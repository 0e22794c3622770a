"""The shape of documents: lines, cells, pictures, and what scripts write."""
import re
import subprocess
from importlib.machinery import SourceFileLoader

from documents import TOP, source

WRITE = SourceFileLoader("docs_write", str(TOP / "docs/write")).load_module()


def lines_that_are_long(documents):
    for place, line in documents.lines():
        if len(line) > 100 and not line.startswith(("|", "    ", "<!--")):
            yield f"{place}: {len(line)} columns"


def cells_that_are_long(documents):
    for place, line in documents.lines():
        if line.startswith("|"):
            for cell in map(str.strip, re.split(r"(?<!\\)\|", line.strip("|"))):
                if len(cell) > 150:
                    yield f"{place}: a cell of {len(cell)} characters: {cell[:40]}"


def pictures_that_differ(documents):
    for name in ("stack", "crates"):
        drawn = subprocess.run([TOP / "docs/draw", name], check=True, capture_output=True, text=True).stdout
        if drawn != source(f"docs/{name}.svg"):
            yield f"docs/{name}.svg isn't what docs/draw {name} draws"


def parts_that_differ(documents):
    for name, text in documents.texts.items():
        if WRITE.written(text) != text:
            yield f"{name} isn't what docs/write writes"


def plain_english(documents):
    """Words that stumble, with what is said in their place."""
    for place, line in documents.lines():
        for word, plain in (("behind", "after"), ("just where", "exactly if"), ("just if", "exactly if")):
            if re.search(rf"\b{word}\b", line) and not line.startswith("    "):
                yield f"{place}: {word}, for {plain}"


CHECKS = [lines_that_are_long, cells_that_are_long, pictures_that_differ, parts_that_differ, plain_english]
