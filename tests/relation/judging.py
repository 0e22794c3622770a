"""Reads traces and card files, and judges traces by the card relation."""
from collections import namedtuple
from itertools import product
import re

from card import LOCKED, MMC, SD, SWITCH_ERROR, TRAN, UNKNOWN, Made, field, first_card
from card import sound_argument, sound_command, sound_ocr, sound_register
from relation import Relation

# cmd: its frame and what came; in: the length; lines: width and timing. `number` is None where it is no exchange.
Exchange = namedtuple("Exchange", "what frame came block number line")
# The fewest faults, or None where the trace isn't explained from exchange `number` on, with the cards before it.
Verdict = namedtuple("Verdict", "exchanges faults number line reader last")

FORMS = (r"(cmd) ([0-9a-f]+) rsp ([0-9a-f]+|none|bad)", r"(in) (\d+) (good|bad|nothing)( [0-9a-f]+)?", r"(in|out) ()(some)",
         r"(out) ()(accepted|rejected|nothing)", r"(busy) ()(yes|no)", r"(lines) ([148]) (default|high)")


class NoTrace(Exception):
    pass


def read_line(line, number):
    for form in FORMS:
        found = re.fullmatch(form, line)
        if found:
            what, frame, came, block = (found.groups() + (None,))[:4]
            if what == "cmd":
                frame = bytes.fromhex(frame)
                came = None if came == "none" else b"" if came == "bad" else bytes.fromhex(came)
            if what in ("in", "lines") and frame:
                frame = int(frame)
            is_exchange = what != "lines" and came != "some"
            return Exchange(what, frame, came, bytes.fromhex(block) if block else None, number if is_exchange else None, line)
    raise NoTrace("this isn't a line of a trace: " + line)


def read_trace(text):
    """The exchanges of a printed trace; other lines, and comments after an exchange, are left out."""
    exchanges, number = [], 0
    for line in text.splitlines():
        line = line.split("#")[0].strip()
        if line.split(" ")[0] in ("cmd", "in", "out", "busy", "lines"):
            exchanges.append(read_line(line, number))
            number += exchanges[-1].number is not None
    if not number:
        raise NoTrace("there is no exchange")
    return exchanges


def read_card(text):
    """The facts of a card file (docs/FORMATS.md, "Card file"), by the names of `Made`."""
    keys, ext_csd = {}, bytearray(512)
    for line in text.splitlines():
        words = line.split(" ")
        if words[0] == "ext":
            ext_csd[int(words[1])] = int(words[2], 16)
        elif len(words) == 2:
            keys[words[0]] = words[1]
    facts = {"kind": keys["kind"], "ocr": int(keys["ocr"], 16), "cid": int(keys["cid"], 16), "csd": int(keys["csd"], 16),
             "is_locked": keys.get("locked") == "yes", "is_nameless": False}
    if facts["kind"] == MMC:
        return facts | {"ext_csd": bytes(ext_csd)}
    return facts | {"scr": bytes.fromhex(keys["scr"]), "answers_cmd8": keys.get("cmd8") == "yes",
                    "is_nameless": keys.get("rca") == "0000", "has_high_speed": keys.get("highspeed", "no") != "no"}


def told_by_command(index, argument, came):
    """What a sound response tells of what its card is made with."""
    if index in (1, 41) and sound_ocr(came) is not None:
        yield "kind", MMC if index == 1 else SD
        yield "ocr" if sound_ocr(came) >> 31 else "early_ocr", sound_ocr(came) & 0x7FFFFFFF
    if index in (2, 9) and sound_register(came):
        yield "cid" if index == 2 else "csd", int.from_bytes(sound_register(came), "big")
    if index == 3 and argument == 0 and sound_argument(came, 3) is not None:
        yield "is_nameless", sound_argument(came, 3) >> 16 == 0
    if index == 8 and argument and sound_argument(came, 8) is not None:
        yield "answers_cmd8", True
    if index in (7, 13) and sound_argument(came, index) is not None:
        yield "is_locked", bool(sound_argument(came, index) & LOCKED)


def told_by_block(index, block):
    if (index, len(block)) == (51, 8):
        yield "scr", block
    if (index, len(block)) == (8, 512):
        yield "ext_csd", block
    if (index, len(block)) == (6, 64):
        yield "has_high_speed", bool(block[13] & 2)


def told_by(exchanges):
    """What a trace tells of its card; what it says first counts."""
    facts, last = {}, None
    for exchange in exchanges:
        told = []
        if exchange.what == "cmd":
            last = sound_command(exchange.frame)
            if last and exchange.came:
                told = told_by_command(*last, exchange.came)
        elif exchange.block and last:
            told = told_by_block(last[0], exchange.block)
        for name, value in told:
            facts.setdefault(name, value)
    return facts


def said_by_registers(facts):
    """What the registers say of commands and speed, where they are known (docs/STANDARD.md, "CSD", "SCR" and "EXT_CSD")."""
    csd, scr, ext_csd = facts.get("csd"), facts.get("scr"), facts.get("ext_csd")
    if facts["kind"] == MMC:
        return {"answers_cmd8": False, "has_cmd6": False, "has_cmd23": True} | (
            {"has_high_speed": bool(ext_csd[196] & 2)} if ext_csd else {})
    said = {"has_cmd23": bool(scr[3] & 2)} if scr else {}
    if csd is not None and field(95, 84, csd) and not field(94, 94, csd):
        said["has_cmd6"] = False
    elif csd is not None and scr:
        said["has_cmd6"] = bool(scr[0] & 15)
    return said


def all_made(facts, exchanges):
    """Each card that is made so; what nobody knows stays open, and both is tried."""
    sent = {command[0] for command in (sound_command(e.frame) for e in exchanges if e.what == "cmd") if command}
    early = facts.get("early_ocr", 0x00FF8000) & ~(3 << 29)
    unknown = {"kind": [SD, MMC] if 1 in sent else [SD], "ocr": [early, early | 1 << 30], "cid": [None], "csd": [None],
               "scr": [None], "ext_csd": [None], "is_nameless": [False], "is_locked": [False]}
    for name, index in ("answers_cmd8", 8), ("has_cmd6", 6), ("has_cmd23", 23), ("has_high_speed", 6):
        unknown[name] = [True, False] if index in sent else [False]
    for kind in [facts["kind"]] if "kind" in facts else unknown["kind"]:
        known = facts | {"kind": kind} | said_by_registers(facts | {"kind": kind})
        choices = ([known[name]] if name in known else unknown[name] for name in Made._fields)
        yield from (Made(*choice) for choice in product(*choices))


def judged_as(reader, exchanges, most, more):
    """The verdict on one card; followed are cards with `more` faults than the best at most."""
    cards = {first_card(reader.made): 0}
    if any(exchange.what == "lines" for exchange in exchanges):
        reader.lines = (1, "default")
    number = 0
    for exchange in exchanges:
        if exchange.what == "lines":
            reader.lines = (exchange.frame, exchange.came)
            continue
        new = reader.after(cards, exchange, min(most, min(cards.values()) + more + 2))
        if not new:
            return Verdict(number, None, number, exchange.line, reader, (cards, exchange))
        best = min(new.values())
        cards = {card: faults for card, faults in new.items() if faults <= best + more}
        number += exchange.number is not None
    return Verdict(number, min(cards.values()), None, None, reader, None)


def judged(text, card_text=None, most=None, relation=Relation):
    """The best verdict over all that is open. Followed are cards with `most` faults, or with three more than the best."""
    exchanges = read_trace(text)
    facts = told_by(exchanges) | (read_card(card_text) if card_text else {})
    bound, more = (10 ** 9, 3) if most is None else (most, most)
    verdicts = [judged_as(relation(made), exchanges, bound, more) for made in all_made(facts, exchanges)]
    explained = [verdict for verdict in verdicts if verdict.faults is not None]
    if explained:
        return min(explained, key=lambda verdict: verdict.faults)
    worst = max(verdicts, key=lambda verdict: verdict.number)
    return worst._replace(exchanges=sum(exchange.number is not None for exchange in exchanges))


def words(verdict):
    if verdict.faults is not None:
        return "%d exchanges, explained with %d fault%s" % (verdict.exchanges, verdict.faults, "s" * (verdict.faults != 1))
    return "%d exchanges, not explained from exchange %d on: %s" % (verdict.exchanges, verdict.number, verdict.line[:80])


def answer_words(answer, reader):
    """An answer that is allowed."""
    if answer is None:
        return "no response"
    if answer.name != "status":
        return {"rca": "an RCA", "if_cond": "voltage and pattern %03x" % answer.errors, "early_ocr": "an OCR that isn't ready",
                "ocr": "the OCR %08x" % (reader.made.ocr | 1 << 31)}.get(answer.name, "the " + answer.name.upper())
    card, states = answer.card, ("idle", "ready", "ident", "stby", "tran", "data", "rcv", "prg")
    state = "on its way to tran" if card.state == UNKNOWN else states[card.state]
    errors = answer.errors | card.command_errors | (SWITCH_ERROR if card.switch_error else 0)
    return "an R1: %s%s, errors %08x%s" % (state, " and busy" if card.is_busy and card.state == TRAN else "", errors,
                                           ", and any of %08x" % card.may if card.may else "")


def allowed(verdict):
    """What the cards with the fewest faults might have answered without another one, where a trace isn't explained."""
    if verdict.faults is not None:
        return []
    (cards, exchange), reader = verdict.last, verdict.reader
    best = [card for card, faults in cards.items() if faults == min(cards.values())]
    if exchange.what == "cmd":
        command = sound_command(exchange.frame)
        met = [new for card in best for new, before in reader.passes(card) if command and not before]
        return sorted({answer_words(answer, reader) for card in met
                       for new, answer, faults in reader.answered(card, *command) if not faults})
    others = {"busy": ("yes", "no"), "out": ("accepted", "nothing"), "in": ("good", "nothing")}[exchange.what]
    free = [came for came in others if any(faults == 0 for card in best for new, faults in
                                           reader.steps(card, exchange._replace(came=came, block=None)))]
    return [came + ", with other bytes" if came == exchange.came else came for came in free]
