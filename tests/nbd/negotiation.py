"""The greeting and the options, by hand."""
import struct
import time

import cards
from session import (ABORT, ACK, BLOCK_SIZE, ERROR_INVALID, ERROR_UNKNOWN, ERROR_UNSUPPORTED, EXPORT, EXPORT_NAME, FIXED_NEWSTYLE, GO,
                     HAS_FLAGS, INFO, LIST, NO_ZEROES, READ, READ_ONLY, SEND_FLUSH, SEND_FUA, SEND_TRIM, SEND_WRITE_ZEROES, Session,
                     ends_badly, ends_well, information_bytes, option_bytes)

NEEDS = {}
GREETING = b"NBDMAGICIHAVEOPT\0\3"
BLOCK_SIZES = struct.pack(">III", 512, 512, 524288)
PLAIN = HAS_FLAGS | SEND_FLUSH | SEND_FUA
TRIMMED = PLAIN | SEND_TRIM
ZEROED = TRIMMED | SEND_WRITE_ZEROES


def flags_of(name, elsewhere):
    """No boot partition is trimmed."""
    return PLAIN if name.startswith("boot") else elsewhere


def greets(trial):
    with Session(trial, trial.file("card", cards.SD)) as session:
        trial.want("greeting", session.greet(), GREETING)


def opens_by_name(trial):
    """EXPORT_NAME has no reply but size and flags, and zeroes where the client wants them. The next byte belongs to a reply."""
    of_sd = struct.pack(">QH", 512 * cards.SD_SECTORS, TRIMMED)
    of_boot = struct.pack(">QH", 512 * cards.EMMC_SECTORS["boot2"], PLAIN)
    for card, words, name, flags, wanted in [
            (cards.SD, [], "user", FIXED_NEWSTYLE, of_sd + bytes(124)), (cards.SD, [], "user", FIXED_NEWSTYLE | NO_ZEROES, of_sd),
            (cards.SD, [], "", FIXED_NEWSTYLE | NO_ZEROES, of_sd), (cards.EMMC, [], "boot2", FIXED_NEWSTYLE | NO_ZEROES, of_boot),
            (cards.EMMC, ["--part", "boot2"], "", FIXED_NEWSTYLE, of_boot + bytes(124))]:
        with Session(trial, trial.file("card", card), *words) as session:
            label = f"EXPORT_NAME {name!r} {words}, client flags {flags}"
            session.greet(flags)
            session.send_option(EXPORT_NAME, name.encode())
            trial.want(label, session.receive(len(wanted)), wanted)
            trial.want(f"{label}: a read behind it", session.read(512, 1024)[0], 0)
            ends_well(trial, label, session)


def lists(trial):
    for card, sectors in [(cards.SD, {"user": 0}), (cards.EMMC, cards.EMMC_SECTORS), (cards.SEVEN, cards.SEVEN_SECTORS),
                          (cards.GAP, cards.GAP_SECTORS)]:
        with Session(trial, trial.file("card", card)) as session:
            session.greet()
            names, last = session.exports()
            trial.want("LIST", (sorted(names), last), (sorted(sectors), (ACK, b"")))
            session.send_option(LIST, b"user")
            trial.want("LIST with data", session.option_reply(LIST)[0], ERROR_INVALID)
            trial.want("LIST once more", session.exports(), (names, last))


def tells(trial):
    """INFO and GO tell each partition's size, flags and sizes of blocks."""
    for label, card, sectors, flags in [
            ("SD", cards.SD, {"user": cards.SD_SECTORS}, TRIMMED), ("seven", cards.SEVEN, cards.SEVEN_SECTORS, TRIMMED),
            ("without trim", cards.WITHOUT_TRIM, cards.EMMC_SECTORS, TRIMMED), ("zeroing", cards.ZEROING, cards.GAP_SECTORS, ZEROED)]:
        for name, count in sectors.items():
            with Session(trial, trial.file("card", card)) as session:
                session.greet()
                export = struct.pack(">QH", 512 * count, flags_of(name, flags))
                for option in (INFO, INFO, GO):
                    told, last = session.information(option, name)
                    wanted = ({EXPORT: export, BLOCK_SIZE: BLOCK_SIZES}, (ACK, b""))
                    trial.want(f"{label}: option {option} of {name}", ({kind: told.get(kind) for kind in wanted[0]}, last), wanted)
                trial.want(f"{label}: a read of {name} behind GO", session.read(512 * (count - 1), 512)[0], 0)
                ends_well(trial, f"{label}: {name}", session)


def tells_without_being_asked(trial):
    """A client needn't ask for the sizes of blocks, and the empty name is that of --part, or user."""
    for words, count in [([], 2048), (["--part", "boot1"], 256), (["--part", "gp2"], 1024)]:
        with Session(trial, trial.file("card", cards.GAP), *words) as session:
            session.greet()
            for option in (INFO, GO):
                told, last = session.information(option, "", wanted=())
                trial.want(f"option {option} of the empty name {words}", (told[EXPORT][:8], last), (struct.pack(">Q", 512 * count), (ACK, b"")))


def tells_protection(trial):
    with Session(trial, trial.file("card", trial.new("--kind", "sd", "--sectors", "1024", "--readonly"))) as session:
        size, flags = session.go()
        trial.want("a read-only card", (size, flags & (HAS_FLAGS | READ_ONLY)), (524288, HAS_FLAGS | READ_ONLY))


def refuses_options(trial):
    """What isn't known is answered by an error, with its data skipped, and the next option is heard."""
    with Session(trial, trial.file("card", cards.GAP)) as session:
        session.greet()
        for option, data in [(0, b""), (4, b""), (5, b""), (8, b""), (9, bytes(12)), (10, bytes(60)), (11, b""), (77, bytes(4096)),
                             (0xFFFFFFFF, b"IHAVEOPT")]:
            session.send_option(option, data)
            trial.want(f"option {option}", session.option_reply(option)[0], ERROR_UNSUPPORTED)
        for option in (INFO, GO):
            for name in ("gp1", "User", "user ", "x" * 3000):
                trial.want(f"option {option} of {name[:9]!r}", session.information(option, name)[1][0], ERROR_UNKNOWN)
            for data in (b"", b"\0\0\0", b"\0\0\0\4user", information_bytes("user")[:-1], b"\xff\xff\xff\xffuser\0\0", bytes(7)):
                session.send_option(option, data)
                trial.want(f"option {option} with data {data!r}", session.option_reply(option)[0], ERROR_INVALID)
        trial.want("GO behind all these", session.information(GO, "gp2")[1], (ACK, b""))
        ends_well(trial, "refused options", session)


def has_no_such_name(trial):
    """EXPORT_NAME has no error, so the session ends without a byte."""
    with Session(trial, trial.file("card", cards.SD)) as session:
        session.greet()
        session.send_option(EXPORT_NAME, b"boot1")
        rest, status, lines = session.ended()
        trial.want("EXPORT_NAME of no export", (rest, status in (0, 1, 2), len(lines) <= 1), (b"", True, True))


def aborts(trial):
    with Session(trial, trial.file("card", cards.SD)) as session:
        session.greet()
        session.send_option(ABORT)
        trial.want("ABORT", session.option_reply(ABORT), (ACK, b""))
        trial.want("ABORT: the end", session.ended(), (b"", 0, []))


def breaks_off(trial):
    """No reply: the session ends though the input stays open."""
    long = b"IHAVEOPT" + struct.pack(">II", 77, 4097)
    for label, flags, data in [
            ("an option of 4,097 bytes", 3, long + bytes(4097)), ("a header of 4,097 bytes", 3, long),
            ("a name of 4,097 bytes", 3, option_bytes(EXPORT_NAME, b"x" * 4097)),
            ("an option of 4 GiB", 3, b"IHAVEOPT\0\0\0\1\xff\xff\xff\xff"), ("junk", 3, b"GET / HTTP/1.1\r\n\r\n"),
            ("a request for an option", 3, bytes.fromhex("25609513") + bytes(24)), ("client flags that nobody knows", 0x83, b"")]:
        with Session(trial, trial.file("card", cards.SD)) as session:
            session.greet(flags)
            session.send(data)
            trial.want(f"{label}: what came", ends_badly(trial, label, session), b"")


def takes_any_pieces(trial):
    """A message may come byte by byte, and all of them at once."""
    whole = struct.pack(">I", 3) + option_bytes(9, bytes(5)) + option_bytes(GO, information_bytes("user"))
    with Session(trial, trial.file("card", cards.SD)) as session:
        spelled = [session.spell(READ, 512 * k, 512)[1] for k in range(3)]
        for byte in whole + spelled[0]:
            session.send(bytes([byte]))
            time.sleep(0.001)
        session.receive(18)
        trial.want("byte by byte", session.option_reply(9)[0], ERROR_UNSUPPORTED)
        trial.want("byte by byte: GO", session.option_replies(GO)[-1], (ACK, b""))
        trial.want("byte by byte: a read", session.reply()[1], 0)
    with Session(trial, trial.file("card", cards.SD)) as session:
        session.send(whole + b"".join(session.spell(READ, 512 * k, 512)[1] for k in range(3)))
        session.receive(18)
        trial.want("at once", session.option_reply(9)[0], ERROR_UNSUPPORTED)
        trial.want("at once: GO", session.option_replies(GO)[-1], (ACK, b""))
        trial.want("at once: reads", [session.reply()[1] for _ in range(3)], [0, 0, 0])
        ends_well(trial, "at once", session)


def try_all(trial):
    for test in (greets, opens_by_name, lists, tells, tells_without_being_asked, tells_protection, refuses_options, has_no_such_name,
                 aborts, breaks_off, takes_any_pieces):
        trial.attempt(test)
