"""The card relation as a program: which cards may stand behind the exchanges of a trace, and with how many faults at least.

An independent reader of docs/STANDARD.md, "The card". It follows a set of cards, each with the fewest faults that lead to it:
time passes, then an exchange is a faithful step or one with a fault. The contents of sectors are left out: which values of an
unfinished write have landed, and what a good block holds.
"""
from card import COMMAND_ERRORS, DATA, ERRORS, EXECUTION, IS_READ, LOCKED, MMC, OUT_OF_RANGE, PATIENCE, PRG, RCV, READY_FOR_DATA
from card import STBY, SWITCH_ERROR, TRAN, UNKNOWN
from card import busied, fallen_short, field, garbled, maybe_raised, programmed, raised, resets, rested, tidied, waited
from card import sound_argument, sound_command, sound_ocr, sound_register
from rows import Rows

# The bit of the CSD that may come on by itself (SD 5.3.2, MMC 7.3).
TMP_WRITE_PROTECT = 12


class Relation(Rows):
    """The steps of a card. `lines` are those of the host, or None where the trace doesn't tell them."""

    lines = None

    # What of a response is judged.

    def shows(self, answer, told, is_cmd13):
        card, made = answer.card, self.made
        errors = told & ERRORS
        if answer.errors & ~errors or errors & ~(answer.errors | card.may) or card.must and not errors & EXECUTION:
            return False
        of_command = told & COMMAND_ERRORS
        if card.command_errors & ~of_command or of_command & ~(card.command_errors | card.command_may):
            return False
        if bool(told & LOCKED) != made.is_locked or made.kind == MMC and bool(told & SWITCH_ERROR) != card.switch_error:
            return False
        if not is_cmd13:
            return True
        state, is_ready = field(12, 9, told), bool(told & READY_FOR_DATA)
        if card.state == UNKNOWN:
            return state in (STBY, DATA, RCV, PRG) or state == TRAN and not is_ready
        return state == card.state and (state != TRAN or is_ready != card.is_busy)

    def read_by(self, answer, reply, index):
        """What the reader of such an answer takes of a response, or None where it refuses it."""
        if answer.name in ("ocr", "early_ocr"):
            return sound_ocr(reply)
        return sound_register(reply) if answer.name in ("cid", "csd") else sound_argument(reply, index)

    def says(self, answer, told, index):
        made = self.made
        if answer.name == "status":
            return self.shows(answer, told, index == 13)
        if answer.name == "ocr":
            return told == made.ocr | 1 << 31
        if answer.name == "early_ocr":
            return told >> 31 == 0 and (told & 0xFFFFFF == 0 or field(21, 20, told) == field(21, 20, made.ocr))
        if answer.name == "rca":
            return (told >> 16 == 0) == made.is_nameless
        if answer.name == "if_cond":
            return field(11, 0, told) == answer.errors
        number = int.from_bytes(told, "big")
        if answer.name == "csd":
            return number >> 8 in (made.csd >> 8, made.csd >> 8 | 1 << TMP_WRITE_PROTECT - 8)
        return number == getattr(made, answer.name)

    # Exchanges: pairs of a card and the faults that it took.

    def passes(self, card):
        """A card leaves prg by itself, and data once its last block is sent (SD 4.3, MMC 6.6)."""
        yield card, 0
        if card.is_busy:
            yield rested(card), 0
        for new in self.run_past(card):
            yield new, 0
        if card.state == PRG and not card.is_switching:
            yield raised(programmed(card)), 1
        if card.state == RCV and card.is_busy:
            for new in fallen_short(card):
                yield new, 1

    def run_past(self, card):
        """Blocks of a read that were sent and nobody took, one or more."""
        if card.state != DATA:
            return
        if card.source:
            yield from self.sent(card)
            return
        if card.left is None and not self.exists(card, card.place):
            return
        if card.left is None:
            yield card._replace(place=self.sizes[card.part] or UNKNOWN, may=card.may | OUT_OF_RANGE)
        else:
            yield card._replace(state=TRAN)
        if card.left != 1:
            yield card._replace(place=UNKNOWN, left=card.left and UNKNOWN)

    def lost_replies(self, met, index, outcomes):
        """Nothing came: the card didn't see the command, or one that is none; or it answered; or its power failed."""
        yield met, 1
        for new in garbled(met):
            yield new, 1
        for card in [met] + [new for new, answer, fault in outcomes if not fault]:
            for new in resets(self.made, card):
                yield new, 1
        for new, answer, fault in outcomes:
            if answer is None and index == 0:
                yield new._replace(may=ERRORS), 1
            elif answer is None:
                yield new._replace(command_may=COMMAND_ERRORS), 1

    def meets_command(self, met, frame, reply):
        command = sound_command(frame)
        if command is None:
            outcomes, index = [(new, None, 0) for new in garbled(met)], 63
        else:
            outcomes, index = list(self.answered(met, *command)), command[0]
        if reply is None:
            yield from self.lost_replies(met, index, outcomes)
        for new, answer, fault in outcomes:
            if answer is None:
                if reply is None:
                    yield new, fault
                continue
            told = None if reply is None else self.read_by(answer, reply, index)
            if told is None:
                yield new, 1
            elif self.says(answer, told, index):
                yield new._replace(rca=told >> 16) if answer.name == "rca" else new, fault
        if command is not None and reply is not None:
            yield from self.shown_besides(met, command, reply)

    def shown_besides(self, met, command, reply):
        """Errors that the command found before it was carried out, or an error left over of one before it."""
        told = sound_argument(reply, command[0])
        if told is None:
            return
        cards = [raised(met)] if told & EXECUTION else []
        cards += [met._replace(command_may=COMMAND_ERRORS)] if told & COMMAND_ERRORS else []
        for card in cards:
            for new, answer, fault in self.answered(card, *command):
                if answer and answer.name == "status" and not fault and self.shows(answer, told, command[0] == 13):
                    yield new, 1

    def command(self, card, frame, reply):
        for met, before in self.passes(card):
            for new, faults in self.meets_command(met, frame, reply):
                yield new, before + faults

    def poll(self, card, is_busy):
        is_writing = card.state == PRG and not card.is_switching
        if is_busy:
            if card.is_busy:
                yield waited(card), 1 if card.polled >= PATIENCE else 0
            if is_writing:
                yield raised(card), 1
            return
        yield rested(card), 0
        if is_writing:
            yield raised(programmed(card)), 1
        if card.state == RCV and card.is_busy:
            for new in fallen_short(card):
                yield new, 1
        for new in resets(self.made, card):
            yield new, 1

    def fit_lines(self, card):
        return self.lines is None or self.lines == (card.width, card.timing)

    # Blocks that are written (SD 4.3.4, MMC 6.6.8).

    def can_accept(self, card):
        awaits = card.state == RCV and not card.is_busy and card.left != 0
        return awaits and self.fit_lines(card) and self.exists(card, card.place)

    def accepted(self, card):
        new = busied(card)._replace(place=card.place if card.place == UNKNOWN else card.place + 1)
        if card.left in (1, UNKNOWN):
            yield new._replace(state=PRG)
        if card.left != 1:
            yield new._replace(left=card.left - 1 if card.left and card.left != UNKNOWN else card.left)

    def rejected(self, card):
        yield card._replace(left=0)
        if card.is_single:
            yield card._replace(state=TRAN)
            yield busied(card)._replace(state=PRG)
        else:
            yield card

    def meets_block(self, card, came):
        accepts = self.can_accept(card)
        if came == "accepted" and accepts:
            for new in self.accepted(card):
                yield new, 0
                yield raised(new), 1
                yield raised(new)._replace(left=0), 1
        if came == "rejected" and accepts:
            for new in self.rejected(card):
                yield maybe_raised(new), 1
        if came == "nothing":
            if accepts:
                for new in [card, *self.accepted(card), *self.rejected(card)]:
                    yield maybe_raised(new), 1
            else:
                yield card, 0
            for new in resets(self.made, card):
                yield new, 1

    def written(self, card, came):
        for met, before in self.passes(card):
            for new, faults in self.meets_block(met, came):
                yield new, before + faults

    def some_moved(self, card):
        """Any number of blocks of one transfer, before one that failed; of a write the card has rested after each."""
        yield card, 0
        if card.source is None and card.left not in (0, 1):
            new = card._replace(is_busy=card.is_busy and card.state == DATA, place=UNKNOWN, left=card.left and UNKNOWN)
            if card.state in (DATA, RCV):
                yield new, 0
            if card.state == RCV:
                for after in fallen_short(new):
                    yield after, 1

    # Blocks that are read (SD 4.3.3, MMC 6.6.7).

    def can_send(self, card, size):
        has_one = size == card.source[1] if card.source else size == 512 and self.exists(card, card.place)
        return card.state == DATA and self.fit_lines(card) and has_one

    def sent(self, card):
        if card.source:
            yield card._replace(state=TRAN, timing=card.source[2])
            return
        place = card.place if card.place == UNKNOWN else card.place + 1
        if card.left is None and place in (UNKNOWN, self.sizes[card.part]):
            yield card._replace(place=place, may=card.may | OUT_OF_RANGE)
        elif card.left is None:
            yield card._replace(place=place)
        if card.left in (1, UNKNOWN):
            yield card._replace(state=TRAN)
        if card.left is not None and card.left != 1:
            yield card._replace(place=place, left=card.left if card.left == UNKNOWN else card.left - 1)

    def holds(self, card, block):
        """What is judged of a block that is no sector."""
        if block is None or not card.source or card.source[0] == "other":
            return True
        name, made = card.source[0], self.made
        if name == "scr":
            return made.scr is None or block == made.scr
        if name in ("switch", "refusal"):
            selected = (15, 0) if name == "refusal" else (1,) if made.has_high_speed else (15,)
            return bool(block[13] & 2) == made.has_high_speed and block[16] & 15 in selected
        now = bytearray(made.ext_csd or block)
        now[175], now[179] = card.erase_group_def, now[179] & ~7 | card.part
        now[185] = 1 if card.timing == "high" else 0
        return all(block[at] == now[at] for at in IS_READ)

    def received(self, card, size, came, block):
        can_send = self.can_send(card, size)
        if came == "good" and can_send and self.holds(card, block):
            for new in self.sent(card):
                yield new, 0
        if came == "nothing" and (card.is_busy or not can_send or card.place == UNKNOWN):
            yield card, 0
        if came != "good" and can_send:
            for new in [card, *self.sent(card)]:
                yield maybe_raised(new), 1
        if came == "nothing":
            for new in [card, *self.sent(card)] if can_send else [card]:
                for after in resets(self.made, new):
                    yield after, 1

    def steps(self, card, exchange):
        """What may come of a card in this exchange. `some` are blocks of one transfer that went before one that failed."""
        what = exchange.what
        if what == "cmd":
            return self.command(card, exchange.frame, exchange.came)
        if what == "busy":
            return self.poll(card, exchange.came == "yes")
        if exchange.came == "some":
            return self.some_moved(card)
        if what == "out":
            return self.written(card, exchange.came)
        return self.received(card, exchange.frame, exchange.came, exchange.block)

    def after(self, cards, exchange, most):
        """The cards after an exchange, each with its fewest faults, as far as they are `most` at most."""
        new = {}
        for card, before in cards.items():
            for after, faults in self.steps(card, exchange):
                after, faults = tidied(after), before + faults
                if faults <= most and new.get(after, most + 1) > faults:
                    new[after] = faults
        return new
