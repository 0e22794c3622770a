"""What COSTS.md tells, and whether what is measured keeps to it: so no figure is lost without notice."""
import re
from pathlib import Path

COSTS = Path(__file__).resolve().parent / "COSTS.md"
# A figure may be so much larger than COSTS tells: compilers and libraries differ a little.
ALLOWED = 1.03


def told(command):
    """The rows of the tables that COSTS marks with this command, by their names."""
    rows = {}
    for mark, text in re.findall(r"<!-- (bench/\w+)[^>]* -->\n((?:\|.*\n)+)", COSTS.read_text()):
        if mark == command:
            titles, _, *lines = [[cell.strip() for cell in line.strip().strip("|").split("|")] for line in text.splitlines()]
            rows |= {cells[0]: dict(zip(titles[1:], cells[1:])) for cells in lines}
    return rows


def numbers(text):
    return [int(word.replace(",", "")) for word in re.findall(r"\d[\d,]*", text)]


def losses(command, measured):
    """What is larger than COSTS tells, of the figures by their names; `wanted` may be missed only where COSTS says so."""
    rows = told(command)
    for name, figures in measured.items():
        if name not in rows:
            continue
        stands = numbers(rows[name].get("now") or rows[name].get("measured") or " ".join(list(rows[name].values())[:3]))
        wanted = numbers(rows[name].get("wanted", ""))
        for figure, stand in zip(figures, stands):
            if figure > stand * ALLOWED:
                yield f"{name}: {figure:,}, and COSTS tells {stand:,}"
            elif len(wanted) == 1 and stand <= wanted[0] < figure:
                yield f"{name}: {figure:,}, and {wanted[0]:,} are the most that is wanted"
    yield from (f"COSTS tells a row that isn't measured: {name}" for name in rows if name not in measured)
