"""Figures and counts: each is that of the tree, or stands after a mark that says which command made it."""
import re
from fractions import Fraction

from documents import TOP, source

NUMBERS = dict(zip("one two three four five six seven eight nine ten eleven twelve thirteen fourteen fifteen sixteen".split(), range(1, 17)))
COUNTS = [
    ("docs/AUDIT.md", r"(\w+) cases, each a readable file", "tests/cases/*.case"),
    ("docs/AUDIT.md", r"find each of (\w+)\s+wrong copies", "tests/fuzz/wrong/*.edit"),
    ("docs/AUDIT.md", r"and of (\w+) wrong hosts and registers", "tests/conform/wrong/*.edit"),
    ("docs/ARCHITECTURE.md", r"`tests/cases/` \| (\w+) cases", "tests/cases/*.case"),
    ("docs/DECISIONS.md", r"(\w+) wrong copies of `c/kelifandro.c`", "tests/fuzz/wrong/*.edit"),
    ("docs/DECISIONS.md", r"smallest function that carries it, and (\w+) in all", "crates/*/must-fail/*.edit"),
]
WORK = "crates/mmc_host/src/work.rt"
COSTS = "bench/COSTS.md"
# Wherever a document says this, the number is the one that stands in this file, divided so, or sixteen times that, which all looks of
# a busy time come to: at least one document says it.
FACTS = [
    (r"(\w+) ms for a write", WORK, r"Work::Write => ([\d_]+)", 1000),
    (r"(\w+) ms for a switch", WORK, r"Work::Switch => ([\d_]+)", 1000),
    (r"(\w+) s and \w+ ms a sector", WORK, r"\(([\d_]+) \+ 16_000", 1000000),
    (r"\w+ s and (\w+) ms a sector", WORK, r"\(10_000_000 \+ ([\d_]+)", 1000),
    (r"(\w+) minutes at most for an erase", WORK, r"\.min\(([\d_]+)\)", 60000000),
    (r"(\w+) ms after an R3 that isn't ready", "crates/mmc_host/src/replies.rt", r"BETWEEN_INQUIRIES: u32 = ([\d_]+)", 1000),
    (r"its (\w+) attempts\s+have failed", "crates/mmc_requests/src/limits.rt", r"ATTEMPTS: u64 = (\d+)", 1),
    (r"(?:write of 1 to|requests and) ([\d,]+) sectors", "crates/mmc_requests/src/limits.rt", r"MAX_COUNT: u64 = (\d+)", 1),
    (r"(?:writes of|or writes) 1 to ([\d,]+) sectors", "crates/mmc_transfer/src/job.rt", r"MAX_BLOCKS: u32 = ([\d_]+)", 1),
    (r"up to (\w+) requests and", "crates/mmc_queue/src/extent.rt", r"MAX_GROUP: usize = (\d+)", 1),
    (r"waits in the queue, (\w+)", "crates/mmc_queue/src/queue.rt", r"MAX_WAITING: usize = (\d+)", 1),
    (r"makes at most (\d+) exchanges\b(?=[^.]*\n?[^.]*OpenFault|, a `turn`)", "crates/mmc_switch/src/initialization.rt",
     r"EXCHANGES_OF_AN_INITIALIZATION: u64 = (\d+)", Fraction(1, 3)),
    (r"no time: (\w+) inquiries", "crates/mmc_identify/src/sd.rt", r"MAX_INQUIRIES: u8 = (\d+)", 1),
]


def number(text):
    plain = text.replace(",", "").replace("_", "")
    return NUMBERS.get(plain.lower()) or (int(plain) if plain.isdigit() else plain)


def counts_that_differ(documents):
    for document, pattern, paths in COUNTS:
        told = re.findall(pattern, " ".join(documents.texts[document].split()))
        stands = len(list(TOP.glob(paths)))
        if [number(word) for word in told] != [stands]:
            yield f"{document}: there are {stands} of {paths}, and it tells {', '.join(told) or 'nothing'}"


def facts_that_differ(documents):
    """Bounds and times, as the code has them."""
    for pattern, path, where, unit in FACTS:
        stands = number(re.search(where, source(path))[1]) // unit
        told = [(name, word) for name, text in documents.texts.items() for word in re.findall(pattern, " ".join(text.split()))]
        if not told:
            yield f"no document says {stands}, as {path} has it: {pattern}"
        yield from (f"{name}: {word} of {pattern}, and {path} has {stands}" for name, word in told if number(word) not in (stands, 16 * stands))


def sizes_that_differ(documents):
    """Code and stack of the library for C, as README's table has them, which tests/processors/sizes measures."""
    rows = re.findall(r"^\| [\w-]+ \| ([\d,]+) \| [\d,]+ \| ([\d,]+) \|", documents.texts["README.md"], re.M)
    code, stack = number(rows[0][0]), max(number(it) for _, it in rows)
    for name, text in {**documents.texts, "c/kelifandro.h": source("c/kelifandro.h")}.items():
        for word in re.findall(r"(\d+) KiB of stack", text):
            if int(word) != -(-stack // 1024):
                yield f"{name}: {word} KiB of stack, and README has {stack:,} bytes"
        for word in re.findall(r"(\d+) KB of code", text):
            if abs(1000 * int(word) - code) > 1000:
                yield f"{name}: {word} KB of code, and README has {code:,} bytes"


def costs_that_differ(documents):
    """README's cost of a sector is that of COSTS, to one in a hundred."""
    stands = number(re.search(r"^\| instructions a sector, by a host, a block a call, runs of 16 \| ([\d,]+)", documents.texts[COSTS], re.M)[1])
    for word in re.findall(r"([\d,]+) instructions in runs of 16", documents.texts["README.md"]):
        if abs(number(word) - stands) * 100 > stands:
            yield f"README.md: {word} instructions a sector, and {COSTS} has {stands}"


def figures_without_a_mark(documents):
    """Each table of COSTS stands after a mark that names the command which made it, and each row is one that the command prints."""
    marks = re.split(r"<!-- ((?:bench|tests)/[\w/]+)[^>]* -->\n", documents.texts[COSTS])
    if re.search(r"^\|", marks[0], re.M):
        yield f"{COSTS}: a table without a mark that says which command made it"
    for command, text in zip(marks[1::2], marks[2::2]):
        tables = re.findall(r"(?:^\|.*\n)+", text, re.M)
        if len(tables) != 1:
            yield f"{COSTS}: {len(tables)} tables after the mark of {command}"
        printed = re.sub(r"\{[^}]*\}", "{}", source(command)) if (TOP / command).exists() else ""
        if not printed:
            yield f"{COSTS}: there is no {command}"
        named = source(command) + source("c/boards/boards.txt") + source("tests/faults/faults.c") if (TOP / command).exists() else ""
        for row in tables[0].splitlines()[2:] if tables else []:
            name = row.split("|")[1].strip()
            if name not in named and not is_printed(name, printed):
                yield f"{COSTS}: {command} prints no row of {name}"


def is_printed(name, printed):
    """A row whose name has numbers or words put in."""
    return any(re.fullmatch(re.escape(text).replace(r"\{\}", ".*"), name) for text in re.findall(r'"([^"\n]{6,})"', printed))


def versions_that_differ(documents):
    """The one number of the header, in cardtool, in an archive's name, and at the top of CHANGELOG."""
    stands = re.search(r'#define KELIFANDRO_VERSION "(.*)"', source("c/kelifandro.h"))[1]
    told = [("crates/card_commands/src/help.rt", number) for number in re.findall(r'"cardtool ([\d.]+)', source("crates/card_commands/src/help.rt"))]
    told += [("CHANGELOG.md", number) for number in re.findall(r"^## ([\d.]+)", documents.texts["CHANGELOG.md"], re.M)[:1]]
    told += [(name, number) for name, text in documents.texts.items() for number in re.findall(r"kelifandro-(\d+\.\d+\.\d+)", text)]
    yield from (f"{name}: version {number}, and c/kelifandro.h has {stands}" for name, number in told if number != stands)


CHECKS = [counts_that_differ, facts_that_differ, versions_that_differ, sizes_that_differ, costs_that_differ, figures_without_a_mark]
