"""The requests and their replies, by hand."""
import random
import re
import struct
import sys
from pathlib import Path

import cards
from session import (DISC, EINVAL, EIO, ENOTSUP, EPERM, FLUSH, FUA, NO_HOLE, READ, SEND_WRITE_ZEROES, Session, TRIM, WRITE, WRITE_ZEROES,
                     ends_badly, ends_well, request_bytes)

NEEDS = {}
SD_BYTES = 512 * cards.SD_SECTORS
MIB = 1 << 20

# It runs a program, and notes how much memory that had.
MEASURED = str(Path(__file__).resolve().parent / "measured.py")


def random_bytes(seed, count):
    return random.Random(seed).randbytes(count)


def served(trial, card, *words, name=""):
    session = Session(trial, trial.file("card", card), *words)
    session.go(name)
    return session


def reads_and_writes(trial):
    """What was written is read, in each partition, and its neighbours hold what they held."""
    for name, count in cards.SEVEN_SECTORS.items():
        with served(trial, cards.SEVEN, name=name) as session:
            data = random_bytes(1, 3 * 512)
            for start in (0, 1, 7, count - 3):
                before = session.read(0, 512 * count)
                trial.want(f"{name}: write at {start}", session.write(512 * start, data, FUA * (start == 7)), 0)
                wanted = before[1][:512 * start] + data + before[1][512 * (start + 3):]
                trial.want(f"{name}: read behind the write at {start}", session.read(0, 512 * count) == (0, wanted), True)
            trial.want(f"{name}: flush", session.ask(FLUSH), (0, b""))
            ends_well(trial, name, session)


def refuses_requests(trial):
    """Each is answered EINVAL, and nothing changes; the data of a write is skipped, whatever it looks like."""
    with served(trial, cards.SD) as session:
        trial.want("the first write", session.write(0, random_bytes(2, 4096)), 0)
        whole = session.read(0, SD_BYTES)
        ranges = [("an odd offset", 1, 512), ("an odd offset and length", 100, 412), ("an odd length", 512, 511), ("length 1", 0, 1),
                  ("length 0", 512, 0), ("the end", SD_BYTES, 512), ("a sector too much", SD_BYTES - 512, 1024), ("far", 1 << 40, 512),
                  ("an offset that wraps", (1 << 64) - 512, 1024), ("the last offset", (1 << 64) - 512, 512)]
        for label, offset, length in ranges:
            for kind in (READ, WRITE, TRIM):
                data = (request_bytes(DISC, 0, 0, 0) * 40)[:length] if kind == WRITE else b""
                trial.want(f"{label}: request {kind}", session.ask(kind, offset, length, data), (EINVAL, b""))
        for label, kind, offset, length in [("4 GiB are read", READ, 0, 0xFFFFFE00), ("4 GiB are trimmed", TRIM, 512, 0xFFFFFE00)]:
            trial.want(label, session.ask(kind, offset, length), (EINVAL, b""))
        trial.want("a long write past the end", session.write(SD_BYTES - 512, bytes(2 * MIB)), EINVAL)
        for kind in (5, 7, 8, 77, 0xFFFF):
            trial.want(f"request {kind}", session.ask(kind, 0, 512), (EINVAL, b""))
        trial.want("all sectors behind these", session.read(0, SD_BYTES) == whole, True)
        ends_well(trial, "refused requests", session)


def breaks_off(trial):
    for label, junk in [("junk", b"x" * 28), ("a reply", bytes.fromhex("67446698") + bytes(24)), ("another option", b"IHAVEOPT" + bytes(20))]:
        with served(trial, cards.SD) as session:
            trial.want(f"{label}: a read before", session.read(0, 512)[0], 0)
            session.send(junk)
            trial.want(f"{label} for a request: what came", ends_badly(trial, f"{label} for a request", session), b"")


def protects(trial):
    with served(trial, trial.new("--kind", "sd", "--sectors", "1024", "--readonly")) as session:
        whole = session.read(0, SD_BYTES)
        trial.want("read of a read-only card", whole[0], 0)
        trial.want("write to a read-only card", session.write(512, b"w" * 1024), EPERM)
        trial.want("trim of a read-only card", session.ask(TRIM, 512, 1024), (EPERM, b""))
        trial.want("a read-only card behind these", session.read(0, SD_BYTES) == whole, True)
        ends_well(trial, "a read-only card", session)


def trims(trial):
    """Trimmed sectors hold the erased byte or what they held, and their neighbours what they held. A boot partition has no trims."""
    for label, card, name, erased in [("SD", cards.SD, "", 0), ("eMMC", cards.EMMC, "", 255), ("gp", cards.GAP, "gp2", 255),
                                      ("units", cards.WITHOUT_TRIM, "", 255)]:
        with served(trial, card, name=name) as session:
            data = random_bytes(3, 512 * 1024)
            trial.want(f"{label}: write", session.write(0, data), 0)
            trial.want(f"{label}: trim", session.ask(TRIM, 512 * 5, 512 * 1000), (0, b""))
            found = session.read(0, len(data))[1]
            changed = [k for k in range(1024) if found[512 * k:512 * k + 512] != data[512 * k:512 * k + 512]]
            trial.want(f"{label}: sectors outside", [k for k in changed if not 5 <= k < 1005], [])
            trial.want(f"{label}: sectors inside", {found[512 * k:512 * k + 512] for k in changed} <= {bytes([erased]) * 512}, True)
            ends_well(trial, label, session)
    with served(trial, cards.EMMC, name="boot1") as session:
        trial.want("boot1: write", session.write(0, b"b" * 512), 0)
        trial.want("boot1: trim", session.ask(TRIM, 0, 512), (ENOTSUP, b""))
        trial.want("boot1: zeroes", session.ask(WRITE_ZEROES, 0, 512)[0] in (EINVAL, ENOTSUP), True)
        trial.want("boot1: read", session.read(0, 512), (0, b"b" * 512))
        ends_well(trial, "boot1", session)


def zeroes(trial):
    """WRITE_ZEROES leaves zeroes where it is offered, with and without holes, and changes nothing elsewhere."""
    with Session(trial, trial.file("card", cards.ZEROING)) as session:
        trial.want("zeroes are offered", session.go("gp2")[1] & SEND_WRITE_ZEROES, SEND_WRITE_ZEROES)
        data = random_bytes(4, 512 * 64)
        trial.want("zeroes: write", session.write(0, data), 0)
        for start, count, flags in [(3, 1, 0), (9, 20, NO_HOLE), (40, 2, FUA)]:
            trial.want(f"{count} zeroed sectors", session.ask(WRITE_ZEROES, 512 * start, 512 * count, flags=flags), (0, b""))
            data = data[:512 * start] + bytes(512 * count) + data[512 * (start + count):]
            trial.want(f"what {count} zeroed sectors hold", session.read(0, 512 * 64) == (0, data), True)
        for offset, length in [(1, 512), (0, 100), (0, 0), (512 * 1024, 512)]:
            trial.want(f"{length} zeroes at {offset}", session.ask(WRITE_ZEROES, offset, length), (EINVAL, b""))
        ends_well(trial, "zeroes", session)
    for label, card in [("an SD card", cards.SD), ("erased bytes FFh", cards.EMMC)]:
        with served(trial, card) as session:
            trial.want(f"{label}: write", session.write(0, b"z" * 512), 0)
            trial.want(f"{label}: no zeroes", session.ask(WRITE_ZEROES, 0, 512)[0] in (EINVAL, ENOTSUP), True)
            trial.want(f"{label}: read", session.read(0, 512), (0, b"z" * 512))
            ends_well(trial, f"{label}: no zeroes", session)


def answers_each_once(trial):
    """Hundreds of requests in one piece: each gets one reply, under its cookie, with its own data, in whatever order."""
    image = random_bytes(5, SD_BYTES)
    with served(trial, cards.SD, "--image", trial.file("image", image)) as session:
        wanted, pieces = {}, []
        for number in range(700):
            offset = 512 * number
            kind = (READ, WRITE, READ, FLUSH, READ, WRITE, 77)[number % 7]
            data = struct.pack(">Q", number) * 64 if kind == WRITE else b""
            where = (0, 0) if kind == FLUSH else (offset, 512)
            cookie, spelled = session.spell(kind, *where, data, cookie={0: 0, 1: (1 << 64) - 1}.get(number))
            wanted[cookie] = (EINVAL if kind == 77 else 0, image[offset:offset + 512] if kind == READ else b"")
            pieces.append(spelled)
        session.send(b"".join(pieces))
        found = {cookie: (error, data) for cookie, error, data in (session.reply() for _ in pieces)}
        trial.want("replies to 700 requests", sum(found.get(cookie) != reply for cookie, reply in wanted.items()), 0)
        trial.want("one of the writes", session.read(512 * 699 - 512 * 5, 512)[1][:8], struct.pack(">Q", 694))
        ends_well(trial, "700 requests", session)


def cuts_inside(trial):
    """A request of 2 MiB is answered once, and so is one of a whole card."""
    with served(trial, trial.new("--kind", "sd", "--sectors", "8192")) as session:
        before = session.read(0, 4 * MIB)
        trial.want("a read of 4 MiB", (before[0], len(before[1])), (0, 4 * MIB))
        data = random_bytes(6, 2 * MIB)
        trial.want("a write of 2 MiB", session.write(512 * 3, data), 0)
        trial.want("a read of 2 MiB", session.read(512 * 3, 2 * MIB) == (0, data), True)
        whole = before[1][:512 * 3] + data + before[1][512 * 3 + 2 * MIB:]
        trial.want("a read of all", session.read(0, 4 * MIB) == (0, whole), True)
        trial.want("a trim of 2 MiB", session.ask(TRIM, 512 * 3, 2 * MIB), (0, b""))
        trial.want("a flush behind it", session.ask(FLUSH), (0, b""))
        ends_well(trial, "2 MiB", session)


def flushes(trial):
    """A flush is answered once all writes before it are, also those that are cut."""
    with served(trial, trial.new("--kind", "sd", "--sectors", "8192")) as session:
        for turn in range(4):
            writes = [session.spell(WRITE, 2048 * k, 512, bytes([turn + k & 255]) * 512) for k in range(150)]
            writes.append(session.spell(WRITE, MIB, MIB + 512, bytes(MIB + 512)))
            flush, spelled = session.spell(FLUSH)
            session.send(b"".join(data for _, data in writes) + spelled)
            order = [session.reply()[0] for _ in range(len(writes) + 1)]
            trial.want("writes behind the flush", len(writes) - order.index(flush), 0)
        ends_well(trial, "flushes", session)


def answers_before_more_comes(trial):
    """A request that is there is answered, though only a piece of the next one has come."""
    with served(trial, cards.SD) as session:
        following = session.spell(WRITE, 512, 1024, b"n" * 1024)[1]
        for cut in (1, 4, 27, 28, 29, 28 + 512, len(following) - 1):
            session.pending.clear()
            first, spelled = session.spell(READ, 0, 512)
            second, following = session.spell(WRITE, 512, 1024, b"n" * 1024)
            session.send(spelled + following[:cut])
            trial.want(f"a read before {cut} bytes of a write", session.reply()[:2], (first, 0))
            session.send(following[cut:])
            trial.want(f"the write in two pieces, cut at {cut}", session.reply()[:2], (second, 0))
        ends_well(trial, "pieces", session)


def answers_before_it_leaves(trial):
    """What was asked before DISC in the same piece is answered, and nothing behind DISC is read."""
    with served(trial, cards.SD) as session:
        spelled = b"".join(session.spell(WRITE, 512 * k, 512, b"d" * 512)[1] for k in range(100))
        session.send(spelled + request_bytes(DISC, 0, 0, 0) + b"junk" * 20)
        trial.want("writes before DISC", {session.reply()[1] for _ in range(100)}, {0})
        trial.want("DISC: the end", session.ended(), (b"", 0, []))


def fails(trial):
    """The opening takes exchanges 0 to 19. Behind it the card answers so badly for a while that all attempts at a request fail: EIO, and
    a read has no data then."""
    for kind, fault in [(WRITE, "reject"), (READ, "bad-block")]:
        with served(trial, cards.SD + cards.each_exchange(20, 275, fault)) as session:
            errors = [session.ask(kind, 512 * k, 512, b"f" * 512 * (kind == WRITE))[0] for k in range(100)]
            trial.want(f"{fault}: errors", (errors[0], set(errors), errors[-1]), (EIO, {0, EIO}, 0))
            wanted = [(0, (b"\0", b"f")[error == 0 and kind == WRITE] * 512) for error in errors]
            trial.want(f"{fault}: sectors", [session.read(512 * k, 512) for k in range(100)] == wanted, True)
            ends_well(trial, fault, session)


def serves_large_cards(trial):
    """2^22 sectors are the most. The memory is that of what was written, less than 64 MiB of a card of 2 GiB where 16 MiB were, in one
    piece and the last sector; with an image it is that of the card, once, less than 200 MiB, also while it is saved."""
    note, large = trial.path("memory"), trial.file("card", trial.new("--kind", "sd", "--sectors", str(1 << 22)))
    with Session(trial, large, before=[sys.executable, MEASURED, note]) as session:
        session.go()
        for k in range(16):
            trial.want("2 GiB: write", session.write(1000 * MIB + k * MIB, random_bytes(k, MIB)), 0)
        trial.want("2 GiB: the last sector", session.write((1 << 31) - 512, b"l" * 512), 0)
        trial.want("2 GiB: read", session.read((1 << 31) - 512, 512), (0, b"l" * 512))
        trial.want("2 GiB: read back", session.read(1015 * MIB, MIB), (0, random_bytes(15, MIB)))
        ends_well(trial, "2 GiB", session)
    trial.want("2 GiB: memory", int(Path(note).read_text()) // 1024 < 64, True)
    with Session(trial, trial.file("card", trial.new("--kind", "sd", "--sectors", str((1 << 22) + 1024)))) as session:
        ends_badly(trial, "more than 2 GiB", session, 2)
    image = trial.path("saved")
    for words in (["--save", image], ["--image", image, "--save", trial.path("saved")]):
        note = trial.path("memory")
        card = trial.file("card", trial.new("--kind", "sd", "--sectors", str(1 << 18)))
        with Session(trial, card, *words, before=[sys.executable, MEASURED, note]) as session:
            session.go()
            trial.want("128 MiB: write", session.write(128 * MIB - MIB, random_bytes(7, MIB)), 0)
            ends_well(trial, "128 MiB", session)
        least, most = (128, 200) if "--image" in words else (0, 64)
        trial.want("128 MiB: memory", least < int(Path(note).read_text()) // 1024 < most, True)
        with open(words[-1], "rb") as saved:
            saved.seek(127 * MIB)
            trial.want("128 MiB: what is saved", saved.read() == random_bytes(7, MIB), True)


def heals_by_rules(trial):
    """A fault in each two hundredth exchange by chance, more than a card file may plan: nothing is lost, and it is said what fell and that
    attempts failed. A sector that can't be read is EIO in each request for it, and in no other."""
    card, data = trial.file("card", trial.new("--kind", "sd", "--sectors", "24576")), random_bytes(11, 12 * MIB)
    with Session(trial, card, "--fault", "random 1/200 any", "--seed", "7", "--stats") as session:
        session.go()
        parts = range(0, len(data), 64 * 1024)
        trial.want("by chance: written", {session.write(k, data[k:k + 64 * 1024]) for k in parts}, {0})
        trial.want("by chance: read", all(session.read(k, 64 * 1024) == (0, data[k:k + 64 * 1024]) for k in parts), True)
        rest, status, lines = session.disconnect()
        exchanges, fell, planned, attempts, *failed = (int(number) for number in re.findall(r"\d+", "".join(lines)))
        trial.want("by chance: the end", (rest, status, len(lines), len(failed)), (b"", 0, 1, 7))
        trial.want("by chance: what fell", (256 < fell <= planned < exchanges // 100, 0 < sum(failed[:5]) < attempts), (True, True))
    with Session(trial, card, "--fault", "read 5-6 no-block") as session:
        session.go()
        errors = [session.read(512 * k, 512)[0] for k in range(9)]
        trial.want("sectors that can't be read", errors, [0, 0, 0, 0, 0, EIO, EIO, 0, 0])
        ends_well(trial, "sectors that can't be read", session)


def try_all(trial):
    for test in (reads_and_writes, refuses_requests, breaks_off, protects, trims, zeroes, answers_each_once, cuts_inside, flushes,
                 answers_before_more_comes, answers_before_it_leaves, fails, heals_by_rules, serves_large_cards):
        trial.attempt(test)
