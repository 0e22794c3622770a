"""Which definitions of specs/ the contracts of public calls rest on: those that their clauses name, and those that these name."""
import re
from functools import cache

from tree import TOP

START = re.compile(r"^(?:(?:abbrev|unfoldable|record|data|pub) )+([A-Za-z_][\w-]*)\b", re.M)
IMPORT = re.compile(r"^ *(?:ghost )?use Rattle\.(\w+)\.specs\.(\w+)\.\{([^}]*)\}", re.M)
WORD = re.compile(r"[A-Za-z_][\w-]*")
# The headline, one clause of each call of a device with its history; all clauses of these calls, with what holds beside the headline;
# and the trait of its bus, which says when one is kept.
HEADLINE = [("mmc_history", name) for name in ("submit.continues", "cancel.continues", "turn.continues", "open.served", "close.served")]
DEVICE = [("mmc_history", name) for name in ("submit", "cancel", "turn", "close")]
RELATION = [("mmc_bus", "Bus")]
# The calls of one client without a queue.
DIRECT = [("mmc_direct", name) for name in ("read", "write", "erase")]
# The calls of C, with their history.
C = [("kelifandro", name) for name in ("open", "serve", "close")]
# The calls of a queue of C's, with theirs.
QUEUE = [("kelifandro", name) for name in ("submit", "cancel", "start", "carry_out", "conclude", "history")]
# What is said of the card and of its host: all else stands above them.
BELOW = {"mmc_frame", "mmc_regs", "mmc_ext_csd", "mmc_card", "mmc_bus", "mmc_host"}


@cache
def definitions(crate, file):
    """The definitions of a file, each with its text."""
    path = TOP / "crates" / crate / "specs" / f"{file}.antt"
    if not path.exists():
        return {}
    text = re.sub(r"--.*$", "", path.read_text(), flags=re.M)
    starts = list(START.finditer(text))
    ends = [start.start() for start in starts[1:]] + [len(text)]
    return {start[1]: text[start.end():end] for start, end in zip(starts, ends)}


@cache
def home(crate, file):
    """The crate in which a file of specs/ stands, also where this crate hands it on."""
    lib = TOP / "crates" / crate / "specs" / "Lib.antt"
    handed = lib.exists() and re.search(rf"^pub use Rattle\.(\w+)\.specs\.{file}$", lib.read_text(), re.M)
    return handed[1] if handed else crate


@cache
def imports(path):
    """Which file of specs/ each imported word is from."""
    return {word.split(" as ")[-1].strip(): (home(crate, file), file, word.split(" as ")[0].strip())
            for crate, file, words in IMPORT.findall(path.read_text()) for word in words.split(",")}


def clauses(crate, words):
    """The contract of a public function, or those of a trait's, and the file that it stands in; of FUNCTION.CLAUSE that clause alone."""
    function, _, clause = words.partition(".")
    alone = rf"\bensures {clause} \{{(?:[^{{}}]|\{{[^{{}}]*\}})*\}}"
    for path in sorted((TOP / "crates" / crate / "src").glob("*.rt")):
        text = path.read_text()
        found = re.search(rf"^pub trait {function}\b(.*?)^\}}$|^ *pub (?:\w+ )*fn {function}\b(.*?)^ *\{{$", text, re.M | re.S)
        found = found and (None, found[1] or found[2])
        if found and clause and re.search(alone, found[1], re.S):
            return re.search(alone, found[1], re.S)[0], path
        if found and not clause and re.search(r"\b(?:requires|ensures)\b", found[1]):
            return " ".join(re.findall(r"(?:requires|ensures)\b(?:[^{}]|\{(?:[^{}]|\{[^{}]*\})*\})*", found[1])), path
    raise SystemExit(f"docs/reach: {crate} has no public {words} with a contract")


def named(text, own, given):
    """The definitions that a text names, where these are its own file's and these are imported."""
    for word in set(WORD.findall(text)):
        if word in given:
            crate, file, name = given[word]
            if name in definitions(crate, file):
                yield crate, file, name
        elif own and word in definitions(*own):
            yield *own, word


def reached(calls):
    """All definitions below these calls, as crate, file and name."""
    work, found = [], set()
    for crate, function in calls:
        text, path = clauses(crate, function)
        first = [*named(text, None, imports(path))]
        if not first:
            raise SystemExit(f"docs/reach: the clauses of {crate} {function} name no definition")
        work += first
    while work:
        crate, file, name = one = work.pop()
        if one not in found:
            found.add(one)
            path = TOP / "crates" / crate / "specs" / f"{file}.antt"
            work += named(definitions(crate, file)[name], (crate, file), imports(path))
    return found
