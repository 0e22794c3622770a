"""What a card does with a command, and its answer (docs/STANDARD.md, "What a card answers").

Besides the relation's own rows, for hosts other than this repository's: ACMD13, ACMD22 and ACMD42 that are answered are passed
over with their blocks, and so are switches of bytes of the EXT_CSD that the relation doesn't name.
"""
from card import ADDRESS_ERROR, BLOCK_LEN_ERROR, ERASE_PARAM, ERASE_RESET, ERASE_SEQ_ERROR, OUT_OF_RANGE, WP_VIOLATION
from card import DATA, IDENT, IDLE, PATIENCE, PRG, RCV, READY, SD, STBY, TRAN, UNKNOWN, MMC, Answer
from card import busied, done, field, has_sector_addresses, raised, refused, resets, sectors_in, shown, waited

# The commands that may find an error, so that they aren't carried out and say why: all with an R1 but CMD7, CMD12 and CMD13.
MAY_FIND = ("set_relative_addr", "send_ext_csd", "set_blocklen", "read", "set_block_count", "write", "erase_start", "erase_end", "erase",
            "switch", "switch_func", "set_bus_width", "send_scr", "app_cmd")


class Rows:
    """Of a card that is made so. A row yields a card after the command, its answer, and whether that is a fault by itself."""

    def __init__(self, made):
        self.made = made
        self.sizes = [sectors_in(made, part) for part in range(8)]

    def sector_at(self, address):
        return address if has_sector_addresses(self.made) else address // 512

    def exists(self, card, sector):
        size = self.sizes[card.part]
        return sector == UNKNOWN or size is None or sector < size

    def command_of(self, app, index):
        if self.made.kind == SD:
            after_app = {6: "set_bus_width", 41: "inquire", 51: "send_scr"} | dict.fromkeys((13, 22, 42), "pass_over")
            own = {3: "send_relative_addr", 6: "switch_func", 8: "send_if_cond", 32: "erase_start", 33: "erase_end"}
        else:
            after_app = {}
            own = {1: "inquire", 3: "set_relative_addr", 6: "switch", 8: "send_ext_csd", 35: "erase_start", 36: "erase_end"}
        both = {0: "go_idle_state", 2: "all_send_cid", 7: "select_card", 9: "send_csd", 12: "stop", 13: "send_status",
                16: "set_blocklen", 17: "read", 18: "read", 23: "set_block_count", 24: "write", 25: "write", 38: "erase",
                55: "app_cmd"}
        return app and after_app.get(index) or own.get(index) or both.get(index)

    def is_legal(self, name, card):
        made, identified = self.made, card.state in (STBY, TRAN, DATA, RCV, PRG)
        return {"go_idle_state": True, "inquire": card.state == IDLE, "all_send_cid": card.state == READY,
                "send_relative_addr": card.state in (IDENT, STBY), "set_relative_addr": card.state == IDENT,
                "select_card": card.state == STBY, "send_if_cond": card.state == IDLE and made.answers_cmd8,
                "send_csd": card.state == STBY, "stop": card.state in (TRAN, DATA, RCV), "send_status": identified,
                "set_block_count": card.state == TRAN and made.has_cmd23,
                "switch_func": card.state == TRAN and made.has_cmd6,
                "app_cmd": made.kind == SD and (card.state == IDLE or identified), None: False}.get(name, card.state == TRAN)

    def answered(self, card, index, argument):
        """A sound command. One that names another card (SD 4.9, MMC 6.10) changes nothing."""
        name = self.command_of(card.app, index)
        if name in ("select_card", "send_csd", "send_status", "app_cmd"):
            named = argument >> 16
            if card.rca != named:
                yield card, None, 0
            if card.rca == UNKNOWN and named:
                card = card._replace(rca=named)
            if card.rca != named:
                return
        if name not in ("send_status", "erase_start", "erase_end", "erase") and card.erase:
            # Any other command drops the addresses, with ERASE_RESET or without (SD 4.3.5).
            card = card._replace(erase=(), may=card.may | ERASE_RESET)
        if self.is_legal(name, card):
            yield from getattr(self, name)(card, index, argument)
            if name in MAY_FIND:
                yield self.status(shown(card), raised(card), 0, 1)
        if name == "pass_over" or not self.is_legal(name, card):
            yield refused(card), None, 0

    def status(self, after, card, errors=0, fault=0):
        return after, Answer("status", card, errors), fault

    def go_idle_state(self, card, index, argument):
        for new in resets(self.made, card):
            yield new, None, 0

    def inquire(self, card, index, argument):
        """CMD1 and ACMD41. With CCS 1 a card is ready for HCS alone, after an accepted CMD8 (SD 4.2.3)."""
        ready = self.made.kind == MMC or not field(30, 30, self.made.ocr) or argument >> 30 & 1 and card.accepted_cmd8
        new = done(card)._replace(inquiries=min(card.inquiries + 1, PATIENCE))
        yield new, Answer("early_ocr"), 1 if ready and card.inquiries >= PATIENCE else 0
        if ready:
            yield new._replace(state=READY), Answer("ocr"), 0

    def all_send_cid(self, card, index, argument):
        yield done(card)._replace(state=IDENT), Answer("cid"), 0

    def send_relative_addr(self, card, index, argument):
        yield shown(card)._replace(state=STBY, rca=0 if self.made.is_nameless else UNKNOWN), Answer("rca"), 0

    def set_relative_addr(self, card, index, argument):
        yield self.status(shown(card)._replace(state=STBY, rca=argument >> 16), card)

    def select_card(self, card, index, argument):
        yield self.status(busied(shown(card))._replace(state=TRAN, lags=True), card)

    def send_if_cond(self, card, index, argument):
        accepts = field(11, 8, argument) == 1
        yield (done(card)._replace(accepted_cmd8=accepts or card.accepted_cmd8),
               Answer("if_cond", None, field(11, 0, argument)) if accepts else None, 0)

    def send_csd(self, card, index, argument):
        yield done(card), Answer("csd"), 0

    def send_status(self, card, index, argument):
        """CMD13. On its way to tran a card's status may lag behind it, and its errors may show later still."""
        if card.app:
            yield refused(card), None, 0
            return
        yield self.status(shown(card), card)
        if card.state == TRAN and card.lags:
            new, behind = waited(shown(card))._replace(lags=True), card._replace(state=UNKNOWN)
            fault = 1 if card.polled >= PATIENCE else 0
            yield self.status(new, behind, 0, fault)
            if card.may or card.switch_error:
                keeps = new._replace(may=card.may, must=card.must, switch_error=card.switch_error)
                yield self.status(keeps, behind._replace(may=0, must=False, switch_error=False), 0, fault)

    def app_cmd(self, card, index, argument):
        yield self.status(shown(card)._replace(app=True), card)

    def stop(self, card, index, argument):
        """CMD12. In tran, where there is nothing to stop, it may be illegal (SD table 4-35, MMC table 60)."""
        if card.state == TRAN:
            yield refused(card), None, 0
        if card.state == RCV:
            yield self.status(busied(shown(card))._replace(state=PRG), card)
            return
        ended = shown(card)._replace(state=TRAN, polled=0, lags=True)
        yield self.status(ended, card)
        yield self.status(busied(ended), card)

    def set_blocklen(self, card, index, argument):
        if argument == 512:
            yield self.status(shown(card)._replace(block_length=512), card)
        else:
            yield self.status(shown(card), card, BLOCK_LEN_ERROR)

    def set_block_count(self, card, index, argument):
        yield self.status(shown(card)._replace(count=argument if self.made.kind == SD else field(15, 0, argument)), card)

    def transfer_errors(self, card, argument, is_write):
        made = self.made
        protected = is_write and made.csd is not None and field(13, 12, made.csd)
        return (0 if self.exists(card, self.sector_at(argument)) else OUT_OF_RANGE) | (
            ADDRESS_ERROR if not has_sector_addresses(made) and argument % 512 else 0) | (
            BLOCK_LEN_ERROR if card.block_length != 512 else 0) | (WP_VIOLATION if protected else 0)

    def begun(self, card, argument, state, is_single):
        """CMD17, CMD18, CMD24 and CMD25."""
        errors = self.transfer_errors(card, argument, state == RCV)
        left = 1 if is_single else card.count or None
        begun = shown(card)._replace(state=state, source=None, place=self.sector_at(argument), left=left, is_single=is_single)
        yield self.status(shown(card) if errors else begun, card, errors)

    def read(self, card, index, argument):
        return self.begun(card, argument, DATA, index == 17)

    def write(self, card, index, argument):
        return self.begun(card, argument, RCV, index == 24)

    def sends(self, card, name, length, timing):
        return self.status(shown(card)._replace(state=DATA, source=(name, length, timing)), card)

    def send_scr(self, card, index, argument):
        yield self.sends(card, "scr", 8, card.timing)

    def send_ext_csd(self, card, index, argument):
        yield self.sends(card, "ext_csd", 512, card.timing)

    def pass_over(self, card, index, argument):
        if index == 42:
            yield self.status(shown(card), card)
        else:
            yield self.sends(card, "other", 64 if index == 13 else 4, card.timing)

    def set_bus_width(self, card, index, argument):
        yield self.status(shown(card)._replace(width={0: 1, 2: 4}.get(argument & 3, card.width)), card)

    def switch_func(self, card, index, argument):
        """CMD6 of SD: with bit 31 to high speed, which the card may leave unselected (SD 4.3.10)."""
        name = "switch" if argument & 15 == 1 else "other"
        if argument >> 31 and self.made.has_high_speed:
            yield self.sends(card, name, 64, "high")
            yield self.sends(card, "refusal", 64, card.timing)
        else:
            yield self.sends(card, name, 64, card.timing)

    def switched(self, card, argument):
        """The card with a byte of its EXT_CSD written, or None where no byte changes (MMC 6.6.1): all that may be."""
        access, place, value = field(25, 24, argument), field(23, 16, argument), field(15, 8, argument)
        ext = self.made.ext_csd
        if access != 3 or place not in (175, 179, 183, 185):
            return [card, None]
        if place == 179:
            size = self.sizes[value & 7]
            known = ext is None or value >> 3 == ext[179] >> 3 and size != 0
            return [card._replace(part=value & 7)] + [None] * (size is None) if known else [None]
        if place == 175:
            return [card._replace(erase_group_def=1) if value == 1 else None]
        if place == 183:
            return [card._replace(width={2: 8, 1: 4}[value]) if value in (1, 2) else None]
        return [card._replace(timing="high") if value == 1 and self.made.has_high_speed else None]

    def switch(self, card, index, argument):
        """CMD6 of eMMC. SWITCH_ERROR shows in its R1, or in the first status after it."""
        def programs(after):
            return busied(shown(after))._replace(state=PRG, is_switching=True)
        for after in self.switched(card, argument):
            if after is not None:
                yield self.status(programs(after), card)
            fault = 0 if after is None else 1
            yield self.status(programs(card), card._replace(switch_error=True), 0, fault)
            yield self.status(programs(card)._replace(switch_error=True), card, 0, fault)

    def erase_start(self, card, index, argument):
        yield self.held(card, argument, 0)

    def erase_end(self, card, index, argument):
        yield self.held(card, argument, 1)

    def held(self, card, argument, before):
        """CMD32 and CMD33, CMD35 and CMD36; out of order ERASE_SEQ_ERROR, and no address is held (SD 4.3.5)."""
        if len(card.erase) != before:
            return self.status(shown(card)._replace(erase=()), card, ERASE_SEQ_ERROR)
        return self.status(shown(card)._replace(erase=card.erase + (argument,)), card)

    def erase(self, card, index, argument):
        after = shown(card)._replace(erase=())
        if len(card.erase) != 2:
            yield self.status(after, card, ERASE_SEQ_ERROR)
            return
        first, last = map(self.sector_at, card.erase)
        if card.part in (1, 2) or last < first or not self.exists(card, last):
            yield self.status(after, card, ERASE_PARAM)
        else:
            yield self.status(busied(after)._replace(state=PRG), card)
