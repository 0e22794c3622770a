"""Bytes copied to a card and back by nbdcopy and by qemu's tools."""
import random
import shutil
from pathlib import Path

import cards
from relay import Relay
from trial import Served

NEEDS = {"nbdcopy": "libnbd-bin"}
GOOD = (0, "")


def random_file(trial, seed, sectors):
    data = random.Random(seed).randbytes(512 * sectors)
    return data, trial.file("random", data)


def copy_there(trial, label, text, path, *words, options=()):
    """Copies a file to the card: the path of what is saved."""
    saved = trial.path("saved")
    served = Served(trial, trial.file("card", text), "--save", saved, *words)
    trial.want(f"{label}: nbdcopy there", trial.client("nbdcopy", *options, "--flush", path, *served.bracketed), (0, "", ""))
    trial.want(f"{label}: the end", served.ended(), GOOD)
    return saved


def copy_back(trial, label, text, image, *words, options=()):
    """Copies from the card that holds an image: the path of the copy."""
    copy = trial.path("copy")
    served = Served(trial, trial.file("card", text), "--image", image, *words)
    trial.want(f"{label}: nbdcopy back", trial.client("nbdcopy", *options, *served.bracketed, copy), (0, "", ""))
    trial.want(f"{label}: the end of reading", served.ended(), GOOD)
    return copy


def is_same(path, data):
    return Path(path).exists() and Path(path).read_bytes() == data


def there_and_back(trial, label, text, sectors, options=()):
    data, path = random_file(trial, sectors, sectors)
    saved = copy_there(trial, label, text, path, options=options)
    trial.want(f"{label}: saved", is_same(saved, data), True)
    trial.want(f"{label}: back", is_same(copy_back(trial, label, text, path, options=options), data), True)


def copies(trial):
    there_and_back(trial, "SD of 32 MiB", trial.new("--kind", "sd", "--sectors", "65536"), 65536)
    there_and_back(trial, "SD of 64 KiB", trial.new("--kind", "sd", "--sectors", "128"), 128)
    there_and_back(trial, "eMMC", trial.new("--kind", "mmc", "--sectors", "8192"), 8192)
    there_and_back(trial, "one at a time", cards.SD, cards.SD_SECTORS, options=["--synchronous"])
    there_and_back(trial, "2 MiB at a time", trial.new("--kind", "sd", "--sectors", "16384"), 16384, options=["--request-size=2097152"])


def copies_parts(trial):
    for name, sectors in cards.SEVEN_SECTORS.items():
        data, path = random_file(trial, sectors, sectors)
        saved = copy_there(trial, name, cards.SEVEN, path, "--part", name)
        trial.want(f"{name}: saved", is_same(saved, data), True)


def copies_with_faults(trial):
    for seed, (plan, faults) in enumerate([("every hundredth", cards.every_hundredth), ("lost power", cards.lost_power)]):
        there_and_back(trial, f"SD, {plan}", cards.SD + faults(seed), cards.SD_SECTORS)
        large = trial.new("--kind", "mmc", "--sectors", "8192", "--highspeed")
        there_and_back(trial, f"eMMC, {plan}", large + faults(seed), 8192)


def qemu_converts(trial):
    """Random bytes with a gap of zeroes are there, and are the same by qemu's own comparison; what differs is seen."""
    text = trial.new("--kind", "mmc", "--sectors", "16384")
    data, path = random_file(trial, 11, 16384)
    data = data[:1 << 20] + bytes(1 << 20) + data[2 << 20:]
    Path(path).write_bytes(data)
    other = trial.file("other", data[:-1] + bytes([data[-1] ^ 1]))
    saved, copy = trial.path("saved"), trial.path("copy")
    card = trial.file("card", text)
    relay = Relay(trial, Served(trial, card, "--save", saved))
    trial.want("qemu-img convert there", trial.client("qemu-img", "convert", "-n", "-f", "raw", "-O", "raw", path, relay.uri())[0], 0)
    trial.want("qemu-img convert: the end", relay.ended(), [GOOD])
    trial.want("qemu-img convert: saved", is_same(saved, data), True)
    relay = Relay(trial, *[Served(trial, card, "--image", saved) for _ in range(3)])
    for label, words, status in [("compare", ["compare", "-f", "raw", "-F", "raw", path, relay.uri()], 0),
                                 ("compare with another", ["compare", "-f", "raw", "-F", "raw", other, relay.uri("user")], 1),
                                 ("convert back", ["convert", "-f", "raw", "-O", "raw", relay.uri(), copy], 0)]:
        trial.want(f"qemu-img {label}", trial.client("qemu-img", *words)[0], status)
    trial.want("qemu-img: the ends", relay.ended(), [GOOD] * 3)
    trial.want("qemu-img convert back: the copy", is_same(copy, data), True)


def qemu_reads_and_writes(trial):
    """Patterns, of which some aren't whole sectors, and trims, in a session with faults and in one without."""
    for label, text in [("SD", cards.SD), ("eMMC", cards.EMMC), ("every hundredth", cards.SD + cards.every_hundredth(12)),
                        ("lost power", cards.EMMC + cards.lost_power(12))]:
        steps = []
        for k in range(40):
            steps += [f"write -P {k + 1} {8192 * k} 8192", f"read -P {k + 1} {8192 * k} 8192"]
        steps += ["write -P 77 1000 3000", "read -P 77 1000 3000", "read -P 1 0 1000", "read -P 1 4000 4192", "flush", "discard 327680 8192",
                  "aio_write -P 88 16384 4096", "aio_write -P 89 20480 4096", "aio_flush", "read -P 88 16384 4096", "read -P 89 20480 4096"]
        relay = Relay(trial, Served(trial, trial.file("card", text)))
        status, output, errors = trial.client("qemu-io", "-f", "raw", *[word for step in steps for word in ("-c", step)], relay.uri())
        found = [line for line in (output + errors).splitlines() if "fail" in line or "rror" in line]
        trial.want(f"qemu-io, {label}", (status, found, relay.ended()), (0, [], [GOOD]))


def socat_listens(trial):
    """By `nofork` the connection itself is the program's input and output. Without it socat ends the program half a second after the
    client has left, maybe before all is saved."""
    data, path = random_file(trial, 13, cards.SD_SECTORS)
    saved, listening = trial.path("saved"), trial.path("socket")
    command = f"{trial.program} nbd --card {trial.file('card', cards.SD)} --save {saved}"
    words = f"socat UNIX-LISTEN:{listening} EXEC:'{command}',nofork & until [ -S {listening} ]; do sleep 0.05; done; "
    words += f"nbdcopy {path} 'nbd+unix:///?socket={listening}'"
    trial.want("nbdcopy by socat", trial.client("bash", "-c", words), (0, "", ""))
    trial.want("nbdcopy by socat: saved", is_same(saved, data), True)


def try_all(trial):
    tests = [copies, copies_parts, copies_with_faults]
    if shutil.which("qemu-img") and shutil.which("qemu-io"):
        tests += [qemu_converts, qemu_reads_and_writes]
    else:
        print("nbd: no copies by qemu, since qemu-utils isn't installed")
    if shutil.which("socat"):
        tests.append(socat_listens)
    else:
        print("nbd: no copy by socat, since socat isn't installed")
    for test in tests:
        trial.attempt(test)
