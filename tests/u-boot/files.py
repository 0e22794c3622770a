"""Files by each way, read, saved and compared: what U-Boot reads with what lies on the card, what it saves with what mtools, debugfs
and fsck find on the image."""
import re
import zlib

from images import run, take, with_both
from machine import Machine

TO, FROM = 0x44000000, 0x45000000
# A length that ends within a sector, and memory that is aligned to nothing.
LENGTH, ODD = 300001, 3


def crc_of(content):
    return "%08x" % zlib.crc32(content)


def expect(told, text, what):
    if text not in told:
        raise RuntimeError("%s: %r isn't in: %s" % (what, text, told.strip() or "nothing"))


class Try:
    """A card of this size, one way to it, and what is done by it."""

    def __init__(self, machine, folder, image, rows):
        self.machine, self.folder, self.image, self.rows = machine, folder, image, rows
        self.sources = [folder / "read", folder / "root" / "read"]
        self.saved = []

    def open(self, way, number):
        told = self.machine.say("kelifandro open " + way)
        expect(told, "kelifandro %d: " % number, "open " + way)
        return "kelifandro %d" % number

    def load(self, drive, part, name, content, at):
        told = self.machine.say("load %s:%d %x %s" % (drive, part, at, name))
        expect(told, "%d bytes read" % len(content), "load of %s by %s" % (name, drive))
        expect(self.machine.say("crc32 %x %x" % (at, len(content))), crc_of(content), "what %s loads of %s" % (drive, name))

    def save(self, drive, part, name, n, at):
        content = self.machine.bytes_at(at, n)
        told = self.machine.say("save %s:%d %x /%s %x" % (drive, part, at, name, n))
        expect(told, "%d bytes written" % n, "save of %s by %s" % (name, drive))
        self.saved.append((part, name, content))
        return content

    def read_and_save(self, drive):
        for part, source in ((1, self.sources[0]), (2, self.sources[1])):
            expect(self.machine.say("ls %s:%d" % (drive, part)), "read", "ls by " + drive)
            content = source.read_bytes()
            for at in (TO, TO + ODD):
                self.load(drive, part, "/read", content, at)
            for at in (FROM, FROM + ODD):
                name = "%s%d" % (re.sub(r"\W", "", drive)[-5:], at - FROM)
                saved = self.save(drive, part, name, LENGTH, at)
                self.load(drive, part, "/" + name, saved, TO)

    def compare(self):
        """What has been saved, as the tools of this machine find it."""
        parts = [take(self.image, row, self.folder / ("part%d" % n)) for n, row in enumerate(self.rows)]
        run("fsck.fat", "-n", parts[0])
        run("e2fsck", "-f", "-n", parts[1])
        out = self.folder / "out"
        for part, name, content in self.saved:
            out.unlink(missing_ok=True)
            if part == 1:
                run("mcopy", "-n", "-i", parts[0], "::" + name, out)
            else:
                run("debugfs", "-R", "dump /%s %s" % (name, out), parts[1])
            if out.read_bytes() != content:
                raise RuntimeError("partition %d: %s isn't what was saved" % (part, name))
        return len(self.saved)


def erase(machine, image, rows):
    """The sectors behind the partitions hold no longer what they held."""
    first, n = rows[-1][0] + rows[-1][1], 256
    with open(image, "r+b") as card:
        card.seek(first * 512)
        card.write(b"\x5a" * (n + 1) * 512)
    expect(machine.say("kelifandro erase %x %x" % (first, n)), "%d sectors erased" % n, "erase")
    with open(image, "rb") as card:
        card.seek(first * 512)
        held = card.read((n + 1) * 512)
    if b"\x5a" in held[:n * 512] or held[n * 512:] != b"\x5a" * 512:
        raise RuntimeError("an erase left sectors as they were, or took more")


def try_card(program, folder, size):
    image = folder / "card.img"
    rows = with_both(folder, image, size)
    with Machine(program, image, str(folder)) as machine:
        machine.memory[FROM - 0x40000000:FROM - 0x40000000 + LENGTH + 8] = bytes((i * 31 + i // 256) & 255 for i in range(LENGTH + 8))
        card = Try(machine, folder, image, rows)
        for number, way in enumerate(("mmc", "pci")):
            drive = card.open(way, number)
            card.read_and_save(drive)
            erase(machine, image, rows)
            expect(machine.say("kelifandro info"), "last answer: done", "info")
        # U-Boot's own stack reads what the library has written, and the other way round
        machine.say("mmc rescan")
        for part, name, content in list(card.saved):
            card.load("mmc 0", part, "/" + name, content, TO)
        saved = card.save("mmc 0", 1, "own", LENGTH, FROM)
        card.load("kelifandro 0", 1, "/own", saved, TO)
        kind = re.search(r"SD card by \w+", machine.say("kelifandro info"))
    if not kind:
        raise RuntimeError("kelifandro info doesn't tell of an SD card")
    return card.compare(), kind.group()


def try_files(program, folder):
    for size in (64 << 20, 4 << 30):
        own = folder / str(size)
        own.mkdir()
        n, kind = try_card(program, own, size)
        print("%s of %d MiB: files by U-Boot's driver, by registers and by U-Boot's own stack: %d saved ones as they have to be"
              % (kind, size >> 20, n), flush=True)
        (own / "card.img").unlink()
