"""File systems with files, copied onto cards that fail: behind it they are clean, and the files are what they were."""
import random
import shutil
from pathlib import Path

import cards
from copies import copy_back, copy_there, is_same

NEEDS = {"nbdcopy": "libnbd-bin", "mkfs.ext4": "e2fsprogs", "e2fsck": "e2fsprogs", "debugfs": "e2fsprogs"}
TOP = Path(__file__).resolve().parents[2]


def make_files(trial):
    """A folder of files of many sizes, and what each holds."""
    generator = random.Random(14)
    folder = Path(trial.path("files"))
    files = {}
    for number, size in enumerate([0, 1, 511, 512, 513, 4096, 20000, 65536, 100000, 200001, 300000]):
        files[f"FILE{number}.BIN"] = generator.randbytes(size)
        files[f"FOLDER/{number}.TXT"] = f"line {number}\n".encode() * generator.randrange(1, 2000)
    for name, data in files.items():
        (folder / name).parent.mkdir(parents=True, exist_ok=True)
        (folder / name).write_bytes(data)
    return folder, files


def ext4(trial, sectors):
    """An image of ext4: its path, and the checks of a copy of it."""
    folder, files = make_files(trial)
    image = trial.path("ext4")
    made = trial.client("mkfs.ext4", "-q", "-F", "-d", str(folder), image, f"{sectors // 2}k")
    trial.want("mkfs.ext4", made[0], 0)

    def check(label, copy):
        trial.want(f"{label}: e2fsck", trial.client("e2fsck", "-fn", copy)[0], 0)
        out = Path(trial.path("out"))
        out.mkdir()
        (out / "FOLDER").mkdir()
        commands = trial.file("commands", "".join(f"dump /{name} {out / name}\n" for name in files))
        trial.want(f"{label}: debugfs", trial.client("debugfs", "-f", commands, copy)[0], 0)
        trial.want(f"{label}: files that differ", [name for name, data in files.items() if not is_same(out / name, data)], [])

    return image, check


def vfat(trial, sectors):
    """The same of FAT. Without mtools there are no files in it."""
    folder, files = make_files(trial)
    image = trial.file("vfat", bytes(512 * sectors))
    trial.want("mkfs.vfat", trial.client("mkfs.vfat", image)[0], 0)
    has_files = bool(shutil.which("mcopy"))
    if has_files:
        trial.want("mcopy", trial.client("mcopy", "-i", image, "-s", *map(str, folder.iterdir()), "::")[0], 0)

    def check(label, copy):
        trial.want(f"{label}: fsck.vfat", trial.client("fsck.vfat", "-n", copy)[0], 0)
        out = Path(trial.path("out"))
        out.mkdir()
        if has_files:
            trial.want(f"{label}: mcopy", trial.client("mcopy", "-i", copy, "-s", "::FOLDER", *[f"::{path.name}" for path in folder.glob("*.BIN")],
                                                       str(out))[0], 0)
            trial.want(f"{label}: files that differ", [name for name, data in files.items() if not is_same(out / name, data)], [])

    return image, check


def survives(trial, label, text, image, check, *words):
    """The image on the card is byte by byte what was copied, clean and with its files; and so it is read back."""
    saved = copy_there(trial, label, text, image, *words)
    trial.want(f"{label}: bytes", is_same(saved, Path(image).read_bytes()), True)
    if Path(saved).exists():
        check(label, saved)
    if not words and Path(saved).exists():
        check(f"{label}, back", copy_back(trial, label, text, saved))


def of_kind(trial, name, make):
    sd = trial.new("--kind", "sd", "--sectors", "8192", "--highspeed", "--cmd23")
    mmc = trial.new("--kind", "mmc", "--sectors", "8192", "--boot", "256", "--gp", "8192")
    image, check = make(trial, 8192)
    plans = [("no faults", lambda _: ""), ("every hundredth", cards.every_hundredth), ("lost power", cards.lost_power),
             ("lost power again", cards.lost_power)]
    for seed, (plan, faults) in enumerate(plans):
        survives(trial, f"{name} on an SD card, {plan}", sd + faults(seed), image, check)
        survives(trial, f"{name} on an eMMC device, {plan}", mmc + faults(seed), image, check, "--part", "user")
        survives(trial, f"{name} in gp1, {plan}", mmc + faults(seed), image, check, "--part", "gp1")


def commands_of(folder, *titles):
    """The commands of these sections of docs/CARDTOOL.md, as they stand there."""
    sections = dict(section.split("\n", 1) for section in (TOP / "docs/CARDTOOL.md").read_text().split("\n## ")[1:])
    lines = [line for title in titles for line in sections[title].splitlines() if line.startswith("    ")]
    return lines, "\n".join([f"cd {folder}", "PATH=$PATH:.", *lines])


def as_the_document_says(trial):
    """The commands for a file system on a card, for several clients at once, and for fio."""
    folder = Path(trial.path("document"))
    for name in ("docs", "examples"):
        shutil.copytree(TOP / name, folder / name)
    (folder / "cardtool").symlink_to(trial.program)
    lines, text = commands_of(folder, "A file system on a card that fails", "Several clients at once")
    trial.want("CARDTOOL: its commands", len(lines), 9)
    status, output, errors = trial.client("bash", trial.file("commands", text))
    told = [line for line in errors.splitlines() if not line.startswith("e2fsck ")]
    trial.want("CARDTOOL: status, errors", (status, [line for line in told if not line.startswith("cardtool: exchanges ")]), (0, []))
    trial.want("CARDTOOL: what happened", len(told), 1)
    trial.want("CARDTOOL: what is saved", is_same(folder / "after.img", (folder / "files.img").read_bytes()), True)
    if shutil.which("fio"):
        status, output, errors = trial.client("bash", trial.file("fio", commands_of(folder, "By fio")[1]))
        trial.want("CARDTOOL: fio", (status, "err= 0" in output, "cardtool: exchanges " in errors), (0, True, True))
    else:
        print("nbd: fio isn't installed: not tried")


def try_all(trial):
    trial.attempt(of_kind, "ext4", ext4)
    if shutil.which("socat"):
        trial.attempt(as_the_document_says)
    if shutil.which("mkfs.vfat"):
        trial.attempt(of_kind, "vfat", vfat)
    else:
        print("nbd: no file system of FAT, since dosfstools isn't installed")
