"""Opening a card, and reading and writing 16 MiB, beside U-Boot's own stack: virtual time at a nanosecond an instruction."""
import re

from images import with_both
from machine import Machine

WAYS = [("U-Boot's stack", None), ("library over U-Boot's driver", "mmc"), ("library by registers", "pci")]
LINE = re.compile(r"@ measured (-?\d+) (\d+) (\d+) microseconds (\d+) (\d+) (\d+)")
SECTORS = 32768


def measure(program, folder, way, is_pio):
    image = folder / "measured.img"
    with_both(folder, image, 64 << 20)
    with Machine(program, image, str(folder), 0) as machine:
        if way:
            machine.say("kelifandro open " + way)
        told = machine.say("kelifandro_measure %s%s" % ("kelifandro" if way else "mmc", " pio" if is_pio else ""), 300)
    found = LINE.search(told)
    if not found or found.group(1, 2, 3) != ("0", str(SECTORS), str(SECTORS)):
        raise RuntimeError("measured %s: %s" % (way or "mmc", told.strip()))
    return [int(word) / 1000 for word in found.group(4, 5, 6)]


def table(program, folder):
    lines = ["| | %s |" % " | ".join(name for name, _ in WAYS), "|---|---|---|---|"]
    for is_pio in (False, True):
        times = [measure(program, folder, way, is_pio) for _, way in WAYS]
        for n, what in enumerate(("open", "read 16 MiB", "write 16 MiB")):
            lines.append("| %s, %s | %s |" % (what, "PIO" if is_pio else "ADMA", " | ".join("%.3g ms" % row[n] for row in times)))
    return "\n".join(lines)
