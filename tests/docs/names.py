"""Names: what a document names stands in the tree, and where the document says."""
import re
from functools import cache
from pathlib import Path

from documents import TOP, files, source
from tree import needs, ported

# what others than the tree name: commands of the toolchain and of Debian, and the standards
FOREIGN = {"fail-alloc", "plant", "nbdfuse", "ERR_UNSUP", "ERR_UNKNOWN", "ERR_INVALID"}
# hosts send these commands; a law names each by its number
HOSTS = ["mmc_identify", "mmc_switch", "mmc_transfer", "mmc_erase", "mmc_recovery", "mmc_bus"]


@cache
def words_of_the_tree():
    words = set()
    for name in files():
        words |= {*Path(name).parts, Path(name).stem}
        if not name.endswith(".md") and "tests/docs/stale" not in name:
            words |= set(re.findall(r"[\w-]+", source(name)))
    return words | {part for word in words for part in word.split("-")}


@cache
def words_of(crate):
    words = set()
    for name in files():
        if name.startswith(f"crates/{crate}/"):
            words |= {*Path(name).parts, Path(name).stem} | set(re.findall(r"\w+", source(name)))
    return words


def is_there(path):
    return "out" in Path(path).parts or any(any(folder.glob(path)) for folder in (TOP, TOP / "crates"))


def names_that_are_not(documents):
    """A file in code style exists, from the top or from crates/; each other word stands in the tree. Words in capitals are places."""
    words = words_of_the_tree() | FOREIGN
    roots = {Path(name).parts[0] for name in files()} | set(needs())
    for place, span in documents.spans():
        if re.fullmatch(r"[\w.*/-]+", span) and "/" in span and span.split("/")[0] in roots:
            if not is_there(span.rstrip("/")):
                yield f"{place}: there is no {span}"
            continue
        for word in re.findall(r"(?<![*\w-])[A-Za-z_][\w-]{3,}", span):
            if word not in words and not word.isupper():
                yield f"{place}: nothing is named {word}: {span}"


def names_of_other_crates(documents):
    """What is named by its path in a crate, or in parentheses after the crate, stands in that crate."""
    for document, text in documents.paragraphs():
        crate = None
        for found in re.finditer(r"`([^`]+)`", text):
            span, before = found[1], text[: found.start()]
            first = re.match(r"\w+", span)
            if first and first[0] in needs() and re.match(r"(::|$)", span[first.end():]):
                crate = first[0]
                asked = re.findall(r"\w+", span)[1:]
            else:
                is_inside = before.count("(") > before.count(")")
                asked = [span] if crate and is_inside and re.fullmatch(r"[A-Za-z_]\w{3,}", span) else []
            for word in asked:
                if word not in words_of(crate):
                    yield f"{document}: {crate} has no {word}: {text[:60]}"


def numbers_of_other_crates(documents):
    """A bound in parentheses after a crate and its clause stands in that crate."""
    for document, text in documents.paragraphs():
        for crate, inside in re.findall(r"\(`(\w+)`, `\w+`([^()]*)\)", text):
            for bound in re.findall(r"\b\d{3,}\b", inside):
                if crate in needs() and bound not in words_of(crate):
                    yield f"{document}: {crate} has no {bound}: {inside}"


def lists_of_files(documents):
    """A row that names a crate and its files names all of them, of src/ or of specs/."""
    for document, text in documents.paragraphs():
        row = re.match(r"\| (\w+) \| (`\w+`.*?) \|", text)
        if not row or row[1] not in needs():
            continue
        listed = set(re.findall(r"`(\w+)`", row[2]))
        for folder in ("src", "specs"):
            there = {Path(name).stem for name in files() if name.startswith(f"crates/{row[1]}/{folder}/")} - {"lib", "Lib"}
            if listed & there and there - listed:
                yield f"{document}: of crates/{row[1]}/{folder} this leaves out {', '.join(sorted(there - listed))}"


def crates_below(documents):
    """Ported crates are listed by docs/write alone, and a crate that stands on another one alone does so."""
    known = {name for names in ported().values() for name in names}
    for document, text in documents.paragraphs():
        if len(known & set(re.findall(r"`(\w+)`", text))) > 3:
            yield f"{document}: a list of ported crates that docs/write doesn't write: {text[:60]}"
        for crate, below in re.findall(r"`(\w+)`,? on `(\w+)` alone", text):
            if {name for name in needs()[crate] if name in needs()} != {below}:
                yield f"{document}: {crate} doesn't stand on {below} alone"


def senders(constant):
    """The crates that send a command. The inquiries are asked by a call of their own, which is told the kind."""
    asked = {"SEND_OP_COND": r"ask_ocr\(bus, Kind::Mmc", "SD_SEND_OP_COND": r"ask_ocr\(bus, Kind::Sd"}
    for name in files():
        crate = Path(name).parts[1] if name.startswith("crates/") else ""
        if crate in HOSTS and "/src/" in name and not name.endswith(("_laws.rt", "/host.rt", "/together.rt")):
            if re.search(asked.get(constant, rf"(?<!::)\b{constant}\b"), without_use(name)):
                yield crate


@cache
def without_use(name):
    return re.sub(r"^use [^;]*;|//.*$", "", source(name), flags=re.M)


def rows_of_commands(documents):
    """The table of commands: indexes, and who sends each; each law of a command is in it."""
    text = documents.texts["docs/ARCHITECTURE.md"]
    rows = re.findall(r"^\| (A?CMD\d[^|]*?) \| ([^|]*) \| ([^|]*) \| ([^|]*) \| ([^|]*) \| ([^|]*) \|$", text, re.M)
    indexes = dict(re.findall(r"pub const (\w+): u8 = (\d+);", source("crates/mmc_frame/src/commands.rt")))
    told = {}
    for title, constants, _, _, _, hosts in rows:
        if "the same" in constants:
            constants = before
        before = constants
        for constant in re.findall(r"`(\w+)`", constants):
            told.setdefault(constant, set()).update(re.findall(r"`(mmc_\w+)`", hosts))
            if indexes.get(constant) not in re.findall(r"CMD(\d+)", title):
                yield f"docs/ARCHITECTURE.md: {constant} isn't the index of {title}"
    for constant, hosts in told.items():
        if set(senders(constant)) != hosts:
            yield f"docs/ARCHITECTURE.md: {constant} is sent by {', '.join(sorted(set(senders(constant))))}, and not by {', '.join(sorted(hosts))}"
    laws = {law for path in TOP.glob("crates/mmc_bus/src/*_laws.rt") for law in re.findall(r"pub fn (a?cmd\w+)", path.read_text())}
    yield from (f"docs/ARCHITECTURE.md: the table of commands leaves out {law}" for law in sorted(laws) if f"`{law}`" not in text)


def clauses_for_c(documents):
    """What C is promised, "C" of PROMISES, names each clause of the library's exports and requests."""
    section = re.search(r"^## C$(.*?)^## ", documents.texts["docs/PROMISES.md"], re.M | re.S)[1]
    for name in ("exports", "requests", "opening"):
        for clause in sorted(set(re.findall(r"ensures (\w+)", source(f"crates/kelifandro/src/{name}.rt")))):
            if f"`{clause}`" not in section:
                yield f"docs/PROMISES.md: the part on C doesn't name {clause} of kelifandro's {name}"
    if "say nothing by contract" in " ".join(section.split()):
        yield "docs/PROMISES.md: the exports have contracts"


CHECKS = [names_that_are_not, names_of_other_crates, numbers_of_other_crates, lists_of_files, crates_below, rows_of_commands, clauses_for_c]
