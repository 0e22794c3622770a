"""A card as the card relation has it: its registers, what it remembers, frames, and error bits.

Sections are those of the SD Physical Layer Simplified Specification 6.00 (SD) and of JESD84-B51 (MMC). Contents of sectors are
left out. Error bits that may be pending are one set (`may`), of which one at least is there where `must` says so: they show whole
in the next status, so that any choice of them that fits will do. What no exchange has told is UNKNOWN: an RCA that nobody heard,
and how far a read has come that went on unseen.
"""
from collections import namedtuple

IDLE, READY, IDENT, STBY, TRAN, DATA, RCV, PRG = range(8)
SD, MMC = "sd", "mmc"
UNKNOWN = -1
# How often a card may say that it isn't ready, or is at work (the project's own).
PATIENCE = 15


def bits(*places):
    return sum(1 << place for place in places)


# Card status (SD 4.10.1, MMC 6.13).
OUT_OF_RANGE, ADDRESS_ERROR, BLOCK_LEN_ERROR, ERASE_SEQ_ERROR, ERASE_PARAM, WP_VIOLATION = (1 << at for at in range(31, 25, -1))
LOCKED, COM_CRC_ERROR, ILLEGAL_COMMAND, ERASE_RESET, READY_FOR_DATA, SWITCH_ERROR = (1 << at for at in (25, 23, 22, 13, 8, 7))
COMMAND_ERRORS = COM_CRC_ERROR | ILLEGAL_COMMAND
EXECUTION = bits(31, 30, 29, 27, 26, 21, 20, 19, 16, 15)
ERRORS = EXECUTION | bits(28, 24, 13)

Made = namedtuple("Made", "kind ocr cid csd scr ext_csd is_nameless is_locked answers_cmd8 has_cmd6 has_cmd23 has_high_speed")
# `erase` holds none, one or two addresses. `source` is what a read sends, if no sectors: its name, its length, and the timing
# after it. `left` are the blocks to come, None where they aren't counted.
Card = namedtuple("Card", "state rca part width timing erase_group_def block_length count app erase command_errors command_may "
                          "may must switch_error accepted_cmd8 inquiries is_busy polled lags source place left is_single "
                          "is_switching")
# What a card answers: a status of this card with these error bits besides, or an RCA, an interface condition, an OCR, a register.
Answer = namedtuple("Answer", "name card errors", defaults=(None, 0))


def field(high, low, number):
    return number >> low & (1 << high - low + 1) - 1


def crc7(data):
    check = 0
    for byte in data:
        for at in range(7, -1, -1):
            high = check >> 6 ^ byte >> at & 1
            check = (check << 1 & 0x7F) ^ (9 if high else 0)
    return check


def sound_argument(frame, index):
    """Of a response with a check, to this command (SD 4.9); none where its reader refuses it."""
    sound = len(frame) == 6 and frame[0] == index and frame[5] == crc7(frame[:5]) << 1 | 1
    return int.from_bytes(frame[1:5], "big") if sound else None


def sound_ocr(frame):
    return int.from_bytes(frame[1:5], "big") if len(frame) == 6 and frame[0] == 0x3F and frame[5] == 0xFF else None


def sound_register(frame):
    """Of an R2; its end bit stands in place of bit 0 (SD 4.9.3)."""
    sound = len(frame) == 17 and frame[0] == 0x3F and frame[16] == crc7(frame[1:16]) << 1 | 1
    return frame[1:] if sound else None


def sound_command(frame):
    sound = len(frame) == 6 and frame[0] >> 6 == 1 and frame[5] == crc7(frame[:5]) << 1 | 1
    return (frame[0] & 0x3F, int.from_bytes(frame[1:5], "big")) if sound else None


# What a card is made with.

def has_sector_addresses(made):
    return field(30, 30, made.ocr) == 1 if made.kind == SD else field(30, 29, made.ocr) == 2


def named_block_length(made):
    return 512 if has_sector_addresses(made) or made.csd is None else 1 << field(83, 80, made.csd)


def csd_sectors(kind, csd):
    """SD 5.3.2 and 5.3.3, MMC 7.3."""
    if kind == SD and field(127, 126, csd) == 1:
        return (field(69, 48, csd) + 1) * 1024
    return ((field(73, 62, csd) + 1) << field(49, 47, csd) + 2 << field(83, 80, csd)) // 512


def sectors_in(made, part):
    """None where it isn't known (MMC 7.4: SEC_COUNT, BOOT_SIZE_MULT, GP_SIZE_MULT)."""
    ext = made.ext_csd
    if part == 0 and not (made.kind == MMC and has_sector_addresses(made)):
        return None if made.csd is None else csd_sectors(made.kind, made.csd)
    if ext is None:
        return None
    if part == 0:
        return int.from_bytes(ext[212:216], "little")
    if part in (1, 2):
        return ext[226] * 256
    if part == 3 or not ext[155] & 1:
        return 0
    at = 143 + 3 * (part - 4)
    size = int.from_bytes(ext[at:at + 3], "little") * ext[221] * ext[224] * 1024
    return size if size <= (1 << 32 if has_sector_addresses(made) else 1 << 23) else 0


# The bytes that are read of an EXT_CSD (docs/STANDARD.md, "EXT_CSD"); all others are open.
IS_READ = {*range(143, 156), 175, 179, 181, 185, 192, 196, *range(212, 216), 221, 224, 226, 231}


def powered_on(made, block_length):
    return Card(state=IDLE, rca=0 if made.kind == SD else 1, part=0, width=1, timing="default", erase_group_def=0,
                block_length=block_length, count=0, app=False, erase=(), command_errors=0, command_may=0, may=0, must=False,
                switch_error=False, accepted_cmd8=False, inquiries=0, is_busy=False, polled=0, lags=False, source=None, place=0,
                left=None, is_single=False, is_switching=False)


def first_card(made):
    """After power on the block length is 512 on an SD card, and the named one on an eMMC device (SD table 4-25)."""
    return powered_on(made, 512 if made.kind == SD else named_block_length(made))


def resets(made, card):
    """As after CMD0. The block length stays or is the named one."""
    return {powered_on(made, length) for length in (card.block_length, named_block_length(made))}


def tidied(card):
    """What the state doesn't read is cleared, so that cards which can't be told apart are one."""
    changes = {}
    if card.state != DATA and card.state != RCV:
        changes.update(source=None, place=0, left=None, is_single=False)
    if card.state != IDLE:
        changes.update(inquiries=0, accepted_cmd8=False)
    if not card.is_busy and not card.lags:
        changes.update(polled=0)
    if card.state != PRG:
        changes.update(is_switching=False)
    return card._replace(**changes)


# Error bits: raised, shown and cleared.

def done(card):
    return card._replace(app=False, count=0, command_errors=0, command_may=0, lags=False)


def shown(card):
    return done(card)._replace(may=0, must=False, switch_error=False)


def raised(card):
    """With error bits of execution to show, one at least."""
    return card._replace(may=card.may | EXECUTION, must=True)


def maybe_raised(card):
    return card._replace(may=card.may | EXECUTION)


def refused(card):
    return card._replace(command_errors=card.command_errors | ILLEGAL_COMMAND, app=False, count=0)


def garbled(card):
    return {card._replace(command_errors=card.command_errors | COM_CRC_ERROR, count=count) for count in (card.count, 0)}


def busied(card):
    return card._replace(is_busy=True, polled=0)


def waited(card):
    return card._replace(polled=min(card.polled + 1, PATIENCE))


def programmed(card):
    return card._replace(state=TRAN, is_busy=False, lags=True)


def rested(card):
    return programmed(card) if card.state == PRG else card._replace(is_busy=False)


def fallen_short(card):
    """An earlier block of the write isn't programmed: it goes on, or ignores further blocks until CMD12 (SD 4.3.4)."""
    new = raised(card._replace(is_busy=False, polled=0))
    return {new, new._replace(left=0)}
