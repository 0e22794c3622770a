"""Images of cards with a FAT and an ext4 partition, and with one FAT partition whose files lie in pieces."""
import os
import random
import struct
import subprocess

SECTOR = 512
FIRST = 2048
os.environ["MTOOLS_SKIP_CHECK"] = "1"
os.environ["PATH"] += ":/usr/sbin:/sbin"


def run(*words):
    made = subprocess.run([str(word) for word in words], capture_output=True, text=True)
    if made.returncode != 0:
        raise RuntimeError("%s: %s" % (words[0], (made.stdout + made.stderr).strip()))
    return made.stdout


def noise(seed, n):
    return random.Random(seed).randbytes(n)


def table_of(partitions):
    """A partition table: a first sector, a number of sectors and a kind each."""
    entries = b"".join(struct.pack("<B3xB3xII", 0, kind, first, n) for first, n, kind in partitions)
    return bytes(446) + entries.ljust(64, b"\0") + b"\x55\xaa"


def put(image, partitions):
    """Puts partitions, each a file and a kind, one after the other on the card."""
    first, rows = FIRST, []
    with open(image, "r+b") as card:
        for path, kind in partitions:
            content = path.read_bytes()
            card.seek(first * SECTOR)
            card.write(content)
            rows.append((first, len(content) // SECTOR, kind))
            first += len(content) // SECTOR
        card.seek(0)
        card.write(table_of(rows))
    return rows


def take(image, row, path):
    """A partition of the card, as a file."""
    with open(image, "rb") as card:
        card.seek(row[0] * SECTOR)
        path.write_bytes(card.read(row[1] * SECTOR))
    return path


def with_both(folder, image, size):
    """A card of this size with a FAT16 and an ext4 partition of 16 MiB each, a file `read` on each. Answers the rows of its table."""
    fat, ext, root = folder / "fat", folder / "ext", folder / "root"
    root.mkdir(exist_ok=True)
    (root / "read").write_bytes(noise(2, 1 << 20))
    (folder / "read").write_bytes(noise(1, 1 << 20))
    for path, n in ((image, size), (fat, 16 << 20), (ext, 16 << 20)):
        with open(path, "wb") as file:
            file.truncate(n)
    run("mkfs.vfat", "-F", "16", fat)
    run("mcopy", "-i", fat, folder / "read", "::")
    run("mkfs.ext4", "-q", "-F", "-O", "^metadata_csum,^64bit,^has_journal", "-d", root, ext)
    return put(image, [(fat, 6), (ext, 0x83)])


def in_pieces(folder, image):
    """A card of 8 MiB with a FAT16 partition whose free clusters are single holes: `a.bin` on it lies in pieces. Answers that file."""
    fat = folder / "pieces"
    with open(image, "wb") as card:
        card.truncate(8 << 20)
    with open(fat, "wb") as file:
        file.truncate(6 << 20)
    run("mkfs.vfat", "-F", "16", "-s", "2", fat)
    small = [folder / ("s%03d" % n) for n in range(160)]
    for n, path in enumerate(small):
        path.write_bytes(noise(n, 1024))
    run("mcopy", "-i", fat, *small, "::")
    run("mdel", "-i", fat, *("::" + path.name for path in small[::2]))
    for n, name, length in ((1001, "a.bin", 24 * 1024 - 100), (1002, "b.bin", 20 * 1024)):
        (folder / name).write_bytes(noise(n, length))
    run("mcopy", "-i", fat, folder / "a.bin", folder / "b.bin", "::")
    put(image, [(fat, 6)])
    return (folder / "a.bin").read_bytes()
