"""One fault at each command in turn, or faults by chance, below the library and below U-Boot's own stack: what became of the card, by a
model of its sectors."""
import re
import struct
from collections import Counter

from images import SECTOR, in_pieces
from machine import FAST, Lost, Machine

# As in faults.c.
NOTES, READ_TO, BACK_TO = 0x42000000, 0x44000000, 0x44200000
END = (1 << 64) - 1
LENGTH_WRITTEN = 0x8000
WRITTEN = bytes((i * 7 + i // 251 + i // 512) & 255 for i in range(LENGTH_WRITTEN))
LONGEST = 400

STACKS = {"kelifandro": "the library", "mmc": "U-Boot"}
FAULTS = {1: "command lost", 2: "response lost", 3: "response with a wrong check", 4: "all done, a timeout told",
          5: "all done, a wrong check of the data told", 6: "block damaged or rejected", 7: "no block comes",
          8: "write not programmed, an error in the next status", 9: "the same, and that status is lost", 10: "card reset",
          11: "card reset in the middle of data", 12: "busy to the end of the wait", 13: "error bits left over"}
OUTCOMES = ["right", "refused", "dead until rescan", "dead", "wrong, said good"]
LINE = re.compile(r"@ (\w+) (\d+) (\d+) fallen (\d) index (\d+) phase (\d) steps (\d) next (\d) again (\d) seen (\d+) ms (\d+)")


class Run:
    def __init__(self, line):
        self.stack = line.group(1)
        self.kind, self.at, self.fallen, self.index, self.phase, self.steps, self.next, self.again, self.seen, self.ms = (
            int(word) for word in line.groups()[1:])


class Model:
    """What each sector holds, and what else it may hold since a write of it failed."""

    def __init__(self, pristine):
        self.now = bytearray(pristine)
        self.maybe = {}
        self.wrong = 0
        self.calls = self.done = self.failed = 0

    def sector(self, n):
        return bytes(self.now[n * SECTOR:(n + 1) * SECTOR])

    def may_be(self, n, content):
        return content == self.sector(n) or content in self.maybe.get(n, ())

    def take_write(self, start, done, contents):
        for i, content in enumerate(contents):
            if i < done:
                self.now[(start + i) * SECTOR:(start + i + 1) * SECTOR] = content
                self.maybe.pop(start + i, None)
            else:
                self.maybe.setdefault(start + i, set()).add(content)

    def take(self, kind, start, count, done, content):
        is_write, is_after = kind & 1, kind >> 1
        contents = [content[i:i + SECTOR] for i in range(0, len(content), SECTOR)]
        self.failed += done != count
        self.calls += not is_after
        self.done += not is_after and done == count
        if is_write:
            self.take_write(start, min(done, count), contents)
        else:
            self.wrong += sum(not self.may_be(start + i, one) for i, one in enumerate(contents[:min(done, count)]))

    def compare(self, image):
        """Counts the sectors that hold what they may not."""
        if image != self.now:
            self.wrong += sum(not self.may_be(n, image[n * SECTOR:(n + 1) * SECTOR]) for n in range(len(image) // SECTOR))


def notes_of(machine):
    at = NOTES
    while True:
        kind, start, count, done = struct.unpack("<4Q", machine.bytes_at(at, 32))
        if kind == END:
            return
        yield kind, start, count, done, machine.bytes_at(at + 32, count * SECTOR)
        at += 32 + count * SECTOR


def files_are_right(machine, run, read):
    """Whether what was read of files is theirs, as far as the steps went well."""
    return ((run.steps < 2 or machine.bytes_at(READ_TO, len(read)) == read) and
            (run.steps < 4 or machine.bytes_at(BACK_TO, LENGTH_WRITTEN) == WRITTEN))


def followed(machine, pristine, image):
    """The model after all that was asked for."""
    model = Model(pristine)
    for note in notes_of(machine):
        model.take(*note)
    model.compare(image)
    return model


def judge(machine, run, model, read):
    if model.wrong or (model.failed == 0 and not files_are_right(machine, run, read)):
        return "wrong, said good"
    if run.steps == 4:
        return "right" if files_are_right(machine, run, read) else "refused"
    if run.next:
        return "refused"
    return "dead until rescan" if run.again else "dead"


class Sweep:
    """Of a stack and a kind of fault, at each `step`th command from `first` on."""

    def __init__(self, program, folder, stack, kind, first=0, step=1, last=LONGEST):
        self.program, self.folder, self.stack, self.kind = program, folder, stack, kind
        self.first, self.step, self.last = first, step, last
        self.image = folder / ("faults-%s-%d.img" % (stack, kind))
        self.read = in_pieces(folder, self.image)
        self.pristine = self.image.read_bytes()
        self.outcomes, self.where, self.longest = Counter(), {}, 0

    def put_back(self, image):
        with open(self.image, "r+b") as card:
            for at in range(0, len(image), 1 << 16):
                if image[at:at + (1 << 16)] != self.pristine[at:at + (1 << 16)]:
                    card.seek(at)
                    card.write(self.pristine[at:at + (1 << 16)])

    def take(self, machine, run):
        image = self.image.read_bytes()
        if run.fallen:
            outcome = judge(machine, run, followed(machine, self.pristine, image), self.read)
            self.outcomes[outcome] += 1
            self.where.setdefault(outcome, []).append((run.at, run.index, run.phase))
            self.longest = max(self.longest, run.ms)
        self.put_back(image)

    def words(self, first):
        return "kelifandro_faults %s %d %d %d %d" % (self.stack, self.kind, first, self.last, self.step)

    def follow(self, machine, first):
        """Takes the runs that this machine makes. Answers where to go on with another one, or nothing."""
        machine.say("kelifandro open mmc")
        machine.type(self.words(first) + "\r")
        while True:
            try:
                machine.until("\n@ ".encode(), 120)
                line = "@ " + machine.until(b"\n", 10)
            except Lost as lost:
                raise RuntimeError("%s, fault %d: %s" % (self.stack, self.kind, lost)) from None
            if line.startswith("@ end"):
                return None
            run = Run(LINE.match(line))
            self.take(machine, run)
            if not run.next and not run.again:
                return run.at + self.step
            machine.type("n")

    def make(self):
        first = self.first
        while first is not None and first < self.last:
            with Machine(self.program, self.image, str(self.folder), FAST) as machine:
                first = self.follow(machine, first)
        return self


class Chances(Sweep):
    """So many runs of a stack, a kind of fault and a chance in thousands: each command meets the fault with it, until the files are
    written and read, or a step has failed."""

    def __init__(self, program, folder, stack, kind, chance, runs):
        super().__init__(program, folder, stack, kind, last=runs)
        self.chance, self.opened, self.calls, self.done = chance, 0, 0, 0

    def words(self, first):
        return super().words(first) + " %d" % self.chance

    def take(self, machine, run):
        image = self.image.read_bytes()
        model = followed(machine, self.pristine, image)
        self.outcomes[judge(machine, run, model, self.read)] += 1
        self.opened += run.steps > 0
        self.calls += model.calls
        self.done += model.done
        self.put_back(image)


def table_of_chances(made):
    """For each kind and stack, by chance: how many runs opened the card, how many of their requests were done, how many runs were right."""
    chances = sorted({one.chance for one in made})
    heads = ["%s: %d %%" % (what, chance // 10) if chance == chances[0] else "%d %%" % (chance // 10)
             for what in ("opened", "requests done", "right") for chance in chances]
    lines = ["| Fault | Stack | %s | **wrong, said good** |" % " | ".join(heads), "|---|---|%s---|" % ("---|" * len(heads))]
    for kind, name in FAULTS.items():
        for stack, of in STACKS.items():
            row = sorted((one for one in made if (one.kind, one.stack) == (kind, stack)), key=lambda one: one.chance)
            cells = ["%d / %d" % (one.opened, sum(one.outcomes.values())) for one in row]
            cells += ["%d / %d" % (one.done, one.calls) for one in row]
            cells += ["%d / %d" % (one.outcomes["right"], sum(one.outcomes.values())) for one in row]
            if row:
                lines.append("| %s | %s | %s | %d |" % (name, of, " | ".join(cells), sum(one.outcomes["wrong, said good"] for one in row)))
    return "\n".join(lines)


def table(sweeps):
    """The outcomes as Markdown."""
    by = {(sweep.stack, sweep.kind): sweep.outcomes for sweep in sweeps}
    total = {stack: sum((by[key] for key in by if key[0] == stack), Counter()) for stack in STACKS}
    lines = ["| Fault | Library right / runs | U-Boot right / runs | refused | dead until `mmc rescan` | **wrong, said good** |",
             "|---|---|---|---|---|---|"]
    for kind, name in [*FAULTS.items(), (None, "sum")]:
        own, other = (total[stack] if kind is None else by.get((stack, kind), Counter()) for stack in STACKS)
        if kind is not None and not own and not other:
            continue
        mark = "**" if kind is None else ""
        lines.append("| {} | {m}{:,} / {:,}{m} | {:,} / {:,} | {:,} | {:,} | {m}{:,}{m} |".format(
            name, own["right"], sum(own.values()), other["right"], sum(other.values()), other["refused"],
            other["dead until rescan"] + other["dead"], other["wrong, said good"], m=mark))
    return "\n".join(lines)
