"""How sessions end, and what is saved then, by hand."""
import struct
from pathlib import Path

import cards
from session import ABORT, ACK, FLUSH, GO, LIST, READ, Session, WRITE, ends_badly, ends_well, information_bytes, option_bytes, request_bytes
from transmission import SD_BYTES, random_bytes

NEEDS = {}
WRITTEN = random_bytes(8, 4096)


def image_of(sectors, parts):
    """An image of all partitions in order, of random bytes; `parts` overwrites the beginning of some."""
    pieces = {name: random_bytes(name, 512 * count) for name, count in sectors.items()}
    return b"".join(parts.get(name, b"") + piece[len(parts.get(name, b"")):] for name, piece in pieces.items())


def ends_in(trial, label, last, is_good):
    """Writes that were answered are saved, whatever the last bytes of the input are; a write that isn't whole isn't begun."""
    before = random_bytes(9, SD_BYTES)
    saved = trial.path("saved")
    with Session(trial, trial.file("card", cards.SD), "--image", trial.file("image", before), "--save", saved) as session:
        session.go()
        trial.want(f"{label}: writes", [session.write(8192 * k, WRITTEN) for k in range(8)], [0] * 8)
        session.send(last)
        session.close_input()
        if is_good:
            trial.want(label, session.ended(), (b"", 0, []))
        else:
            trial.want(f"{label}: what came", ends_badly(trial, label, session), b"")
    wanted = b"".join(WRITTEN + before[8192 * k + 4096:8192 * k + 8192] for k in range(8)) + before[65536:]
    trial.want(f"{label}: saved", Path(saved).read_bytes() == wanted, True)


def ends_anywhere(trial):
    whole = request_bytes(WRITE, 5, 4096, 2048, b"u" * 2048)
    ends_in(trial, "DISC", request_bytes(2, 0, 0, 0), True)
    ends_in(trial, "an end behind a request", b"", True)
    for cut in (1, 27, 28, 29, 28 + 512, 28 + 2047):
        ends_in(trial, f"an end behind {cut} bytes of a write", whole[:cut], False)
    ends_in(trial, "an end within a read", request_bytes(READ, 5, 0, 512)[:20], False)
    ends_in(trial, "junk", b"j" * 100, False)


def ends_while_it_negotiates(trial):
    """The card was opened, so its image is saved."""
    image = trial.file("image", random_bytes(10, SD_BYTES))
    go = option_bytes(GO, information_bytes("user"))
    for label, data in [("client flags", b"\0\0"), ("an option", struct.pack(">I", 3) + go[:-1]), ("a header", struct.pack(">I", 3) + go[:11]),
                        ("a long option", struct.pack(">I", 3) + b"IHAVEOPT\0\0\0\7\0\0\x20\0")]:
        saved = trial.path("saved")
        with Session(trial, trial.file("card", cards.SD), "--image", image, "--save", saved) as session:
            session.send(data)
            session.close_input()
            ends_badly(trial, f"an end within {label}", session)
        trial.want(f"an end within {label}: saved", Path(saved).read_bytes() == Path(image).read_bytes(), True)
    saved = trial.path("saved")
    with Session(trial, trial.file("card", cards.SD), "--image", image, "--save", saved) as session:
        session.greet()
        session.send_option(ABORT)
        trial.want("ABORT", (session.option_reply(ABORT), session.ended()), ((ACK, b""), (b"", 0, [])))
    trial.want("ABORT: saved", Path(saved).read_bytes() == Path(image).read_bytes(), True)


def loses_its_output(trial):
    """Nobody reads the replies any more: the program ends by itself, not by a signal, and saves what was answered."""
    reads = [request_bytes(READ, number, 0, 51200) for number in range(400)]
    writes = [request_bytes(WRITE, number, 0, 512, b"o" * 512) for number in range(400)]
    for label, first, count, last in [("before reads", [], 0, reads), ("before writes", [], 0, writes),
                                      ("before a flush", [], 0, [request_bytes(FLUSH, 0, 0, 0)]), ("in a reply", reads[:20], 100, reads)]:
        saved = trial.path("saved")
        with Session(trial, trial.file("card", cards.SD), "--save", saved) as session:
            session.go()
            trial.want(f"{label}: write", session.write(512 * 1000, WRITTEN), 0)
            session.send(b"".join(first))
            session.receive(count)
            session.close_output()
            session.send(b"".join(last))
            ends_badly(trial, f"the output is closed {label}", session)
        trial.want(f"the output is closed {label}: saved", Path(saved).read_bytes()[512000:516096] == WRITTEN, True)


def loses_its_output_early(trial):
    """The client goes away before it has read the greeting."""
    saved = trial.path("saved")
    with Session(trial, trial.file("card", cards.SD), "--save", saved) as session:
        session.close_output()
        session.send(struct.pack(">I", 3) + option_bytes(LIST))
        ends_badly(trial, "the output is closed early", session)
    trial.want("the output is closed early: saved", Path(saved).stat().st_size, SD_BYTES)


def saves_all_in_order(trial):
    """Each partition is written in a session of its own, on the image that the one before has saved."""
    image = trial.file("image", image_of(cards.SEVEN_SECTORS, {}))
    written = {}
    for number, name in enumerate(reversed(cards.SEVEN_SECTORS)):
        saved = trial.path("saved")
        with Session(trial, trial.file("card", cards.SEVEN), "--image", image, "--save", saved) as session:
            session.go(name)
            written[name] = random_bytes(number, 1024)
            trial.want(f"{name}: write", session.write(0, written[name]), 0)
            ends_well(trial, name, session)
        trial.want(f"{name}: saved", Path(saved).read_bytes() == image_of(cards.SEVEN_SECTORS, written), True)
        image = saved


def saves_a_part(trial):
    """With --part these bytes alone are saved, also where another export was written."""
    for name, written in [("boot2", "boot2"), ("gp2", "user")]:
        saved = trial.path("saved")
        with Session(trial, trial.file("card", cards.GAP), "--part", name, "--save", saved) as session:
            session.go(written)
            trial.want(f"{name}: write", session.write(1024, WRITTEN), 0)
            ends_well(trial, name, session)
        whole = bytearray(b"\xff" * 512 * cards.GAP_SECTORS[name])
        if name == written:
            whole[1024:1024 + len(WRITTEN)] = WRITTEN
        trial.want(f"{name}: saved", Path(saved).read_bytes() == bytes(whole), True)


def begins_nothing(trial):
    """What is wrong before the session is one line and status 2, with a second one about the file or the word where that says more."""
    card, there = trial.file("card", cards.SD), trial.file("there", b"mine")
    short = trial.file("short", bytes(SD_BYTES - 512))
    for label, said, words in [("a save that is there", 2, [card, "--save", there]),
                               ("an image that isn't there", 2, [card, "--image", card + "-none"]),
                               ("a short image", 2, [card, "--image", short]), ("no card file", 2, [card + "-none"]),
                               ("a locked card", 2, [trial.file("card", cards.LOCKED)]),
                               ("a save that can't be made", 1, [card, "--save", card + "/saved"])]:
        with Session(trial, *words) as session:
            session.close_input()
            ends_badly(trial, label, session, said)
    trial.want("the file that was there", Path(there).read_bytes(), b"mine")
    for said, words in ((1, ["--part", "nonsense"]), (2, ["--part"]), (2, ["--script", card])):
        with Session(trial, card, *words) as session:
            session.close_input()
            rest, status, lines = session.ended()
            trial.want(f"words {words}", (rest, status, len(lines)), (b"", 2, said))


def try_all(trial):
    for test in (ends_anywhere, ends_while_it_negotiates, loses_its_output, loses_its_output_early, saves_all_in_order, saves_a_part,
                 begins_nothing):
        trial.attempt(test)
