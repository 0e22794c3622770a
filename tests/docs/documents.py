"""The documents that are held against the tree, with texts put in place of some for a trial."""
import re
import sys
from functools import cache
from pathlib import Path

TOP = Path(__file__).resolve().parent.parent.parent
sys.path.insert(0, str(TOP / "docs"))
PATHS = ["README.md", "CHANGELOG.md", "examples/README.md", *(str(path.relative_to(TOP)) for path in sorted([*TOP.glob("docs/*.md"), *TOP.glob("bench/*.md"), *TOP.glob("c/*/*.md"), *TOP.glob("rust/*.md")]))]


@cache
def files():
    """The files of the tree, but those that are built."""
    return [str(path.relative_to(TOP)) for path in TOP.rglob("*")
            if path.is_file() and not {"out", ".git", "__pycache__"} & set(path.relative_to(TOP).parts)]


@cache
def source(name):
    return (TOP / name).read_text(errors="replace")


class Documents:
    """Each document by its name, some of them with other texts than the tree's."""

    def __init__(self, other=None):
        self.texts = {name: source(name) for name in PATHS} | (other or {})

    def lines(self):
        for name, text in self.texts.items():
            for number, line in enumerate(text.splitlines(), 1):
                yield f"{name}:{number}", line

    def spans(self):
        """The words in code style, each with its place; of indented code nothing is asked."""
        for place, line in self.lines():
            if not line.startswith("    "):
                for span in re.findall(r"`([^`]+)`", line):
                    yield place, span

    def paragraphs(self):
        """Paragraphs, items and rows, each with the document that it stands in, and without what docs/write writes."""
        for name, text in self.texts.items():
            plain = re.sub(r"<!-- docs/write: .*?<!-- end -->", "", text, flags=re.S)
            for paragraph in re.split(r"\n\n|\n(?=- |\| )", plain):
                if not paragraph.startswith("    "):
                    yield name, " ".join(paragraph.split())
