"""Random requests by libnbd, sixteen of them in flight, against a copy in memory; then the saved image against the copy."""
import random
import time
from pathlib import Path

import cards
from trial import CLIENT_LIMIT, Broken, Served

NEEDS = {"python:nbd": "python3-libnbd"}
IN_FLIGHT = 16


class Copy:
    """What each sector may hold: its bytes, or the erased byte where it was trimmed and nothing has shown yet which."""

    def __init__(self, data, erased):
        self.data, self.erased, self.trimmed = bytearray(data), bytes([erased]) * 512, set()

    def write(self, start, data):
        self.data[512 * start:512 * start + len(data)] = data
        self.trimmed.difference_update(range(start, start + len(data) // 512))

    def trim(self, start, count):
        self.trimmed.update(range(start, start + count))

    def differing(self, start, found):
        """The sectors of what was read that hold what they may not. A trimmed one that was seen erased stays so."""
        if bytes(found) == self.data[512 * start:512 * start + len(found)] and self.trimmed.isdisjoint(range(start, start + len(found) // 512)):
            return []
        sectors = []
        for number in range(start, start + len(found) // 512):
            sector = bytes(found[512 * (number - start):512 * (number - start + 1)])
            if number in self.trimmed and sector == self.erased:
                self.write(number, sector)
            elif sector != self.data[512 * number:512 * number + 512]:
                sectors.append(number)
            self.trimmed.discard(number)
        return sectors


class Client:
    def __init__(self, handle, copy, seed, largest, kinds):
        self.handle, self.copy, self.largest, self.kinds = handle, copy, largest, kinds
        self.random = random.Random(seed)
        self.sectors = len(copy.data) // 512
        self.under_way = {}
        self.wrong = []
        self.next = 0

    def is_free(self, start, count):
        return all(start + count <= other or other + length <= start for _, other, length, _ in self.under_way.values())

    def place(self):
        """A range that meets none under way, in every second case right behind the one before: neighbours may be served together."""
        while True:
            count = self.random.randint(1, self.random.choice([1, 8, self.largest]))
            start = self.next if self.random.random() < 0.5 else self.random.randrange(self.sectors)
            count = min(count, self.sectors - start)
            if count > 0 and self.is_free(start, count):
                self.next = start + count
                return start, count
            self.next = self.random.randrange(self.sectors)

    def begin(self):
        import nbd
        kind = self.random.choice(self.kinds)
        if kind == "flush":
            self.under_way[self.handle.aio_flush()] = (kind, 0, 0, None)
            return
        start, count = self.place()
        if kind == "trim":
            cookie, data = self.handle.aio_trim(512 * count, 512 * start), None
        elif kind == "read":
            data = nbd.Buffer(512 * count)
            cookie = self.handle.aio_pread(data, 512 * start)
        else:
            data = nbd.Buffer.from_bytearray(bytearray(self.random.randbytes(512 * count)))
            cookie = self.handle.aio_pwrite(data, 512 * start, flags=self.random.choice([0, 0, nbd.CMD_FLAG_FUA]))
        self.under_way[cookie] = (kind, start, count, data)

    def conclude(self, cookie):
        import nbd
        is_first = next(iter(self.under_way)) == cookie
        kind, start, count, data = self.under_way.pop(cookie)
        if kind == "flush" and not is_first:
            self.wrong.append("a flush is answered before an earlier request")
        try:
            self.handle.aio_command_completed(cookie)
        except nbd.Error as error:
            self.wrong.append(f"{kind} of {count} at {start}: {error.string}")
            return
        if kind == "read":
            self.wrong += [f"read of {count} at {start}: sector {number}" for number in self.copy.differing(start, data.to_bytearray())]
        elif kind == "write":
            self.copy.write(start, bytes(data.to_bytearray()))
        elif kind == "trim":
            self.copy.trim(start, count)

    def run(self, requests):
        until = time.monotonic() + CLIENT_LIMIT
        while requests or self.under_way:
            while requests and len(self.under_way) < IN_FLIGHT:
                self.begin()
                requests -= 1
            self.handle.poll(1000)
            while self.under_way and (cookie := self.handle.aio_peek_command_completed()) > 0:
                self.conclude(cookie)
            if time.monotonic() > until:
                raise Broken(f"{len(self.under_way)} requests have no answer within {CLIENT_LIMIT} seconds")


def session(trial, label, text, name, sectors, erased, seed, requests, largest, kinds):
    """One session on an image of random bytes; at its end the copy is compared with the image that is saved."""
    import nbd
    counts = list(sectors.values())
    image = random.Random(seed).randbytes(512 * sum(counts))
    begin = 512 * sum(counts[:list(sectors).index(name)])
    end = begin + 512 * sectors[name]
    saved = trial.path("saved")
    served = Served(trial, trial.file("card", text), "--image", trial.file("image", image), "--save", saved)
    handle = nbd.NBD()
    client = Client(handle, Copy(image[begin:end], erased), seed, largest, kinds)
    try:
        handle.set_export_name(name)
        handle.connect_command(served.words)
        client.run(requests)
        handle.shutdown()
    except nbd.Error as error:
        client.wrong.append(error.string)
    del client.handle, handle
    trial.want(f"{label}: requests that went wrong", client.wrong, [])
    trial.want(f"{label}: the end", served.ended(), (0, ""))
    found = Path(saved).read_bytes() if Path(saved).exists() else b""
    trial.want(f"{label}: sectors that are saved otherwise", client.copy.differing(0, found[begin:end]) if found else "none saved", [])
    trial.want(f"{label}: the rest of the image", (found[:begin], found[end:]) == (image[:begin], image[end:]), True)


def without_faults(trial):
    """Requests of up to 1,500 sectors: the longest are cut."""
    kinds = ["read", "read", "write", "write", "write", "trim", "flush"]
    session(trial, "SD", trial.new("--kind", "sd", "--sectors", "8192"), "user", {"user": 8192}, 0, 1, 1200, 1500, kinds)
    session(trial, "user of seven", cards.SEVEN, "user", cards.SEVEN_SECTORS, 255, 2, 800, 700, kinds)
    session(trial, "gp4 of seven", cards.SEVEN, "gp4", cards.SEVEN_SECTORS, 255, 3, 800, 700, kinds)
    session(trial, "units of an eMMC device", cards.WITHOUT_TRIM, "user", cards.EMMC_SECTORS, 255, 4, 400, 1500, kinds)
    session(trial, "boot2 of seven", cards.SEVEN, "boot2", cards.SEVEN_SECTORS, 255, 5, 800, 100, [kind for kind in kinds if kind != "trim"])


def with_faults(trial):
    """A fault at every hundredth exchange, or lost power at random ones. A request of up to 16 sectors takes less than 50 exchanges, so
    one of its four attempts has no fault. All faults have fallen before these many requests are answered."""
    kinds = ["read", "write", "write", "write", "trim", "flush"]
    for seed, (plan, faults) in enumerate([("every hundredth", cards.every_hundredth), ("lost power", cards.lost_power)] * 2):
        for label, text, name, sectors, erased in [
                ("SD", cards.SD, "user", {"user": cards.SD_SECTORS}, 0), ("user", cards.EMMC, "user", cards.EMMC_SECTORS, 255),
                ("gp4", cards.SEVEN, "gp4", cards.SEVEN_SECTORS, 255)]:
            session(trial, f"{label} {plan} {seed}", text + faults(seed), name, sectors, erased, seed, 3000, 16, kinds)
        boot = cards.EMMC + faults(seed)
        session(trial, f"boot1 {plan} {seed}", boot, "boot1", cards.EMMC_SECTORS, 255, seed, 3000, 16, ["read", "write", "flush"])


def try_all(trial):
    trial.attempt(without_faults)
    trial.attempt(with_faults)
