"""Which local arrays may share room: those that are never in use at the same time.

An array is in use from the first access to it until the last one, by any way through the function; the IR's marks of its life end that
earlier. Where its address is kept somewhere, every later access may be one to it: then the marks alone count."""

# Places begin at multiples of it, as the rooms do that they share (KELIFANDRO_ROOM).
STEP = 8


class Addresses:
    """Which places each address of a function may lead to, and which of them are kept."""

    def __init__(self, function, keeps):
        self.function, self.keeps = function, keeps
        self.places = {made.name: made.more for made in function.instructions() if made.op == 'alloca'}
        self.leads = {name: frozenset([name]) for name in self.places}
        self.begin_parameters()
        while self.follow():
            pass
        self.kept = frozenset().union(*[self.kept_by(made) for made in function.instructions()])

    def begin_parameters(self):
        """A parameter stands for what it leads to."""
        for parameter in self.function.parameters:
            if parameter.type == 'ptr':
                self.leads[parameter.what] = frozenset(['parameter ' + str(parameter.what)])

    def of(self, value):
        return self.leads.get(value.what, frozenset()) if value.kind == '%' else frozenset()

    def of_all(self, values):
        return frozenset().union(*map(self.of, values))

    def follow(self):
        """Addresses that are made of others. Answers whether anything was new."""
        is_new = False
        for made in self.function.instructions():
            if made.type == 'ptr' and made.op in ('getelementptr', 'phi', 'select', 'freeze'):
                found = self.of_all(made.values) | self.leads.get(made.name, frozenset())
                is_new = is_new or found != self.leads.get(made.name)
                self.leads[made.name] = found
        return is_new

    def kept_by(self, made):
        """What this instruction keeps the address of, or compares, so that it has to be its own."""
        if made.op == 'store':
            return self.of(made.values[0])
        if made.op in ('ret', 'insertvalue'):
            return self.of_all(made.values)
        if made.op == 'icmp' and all(value.kind == '%' for value in made.values):
            return self.of_all(made.values)
        if made.op != 'call' or made.intrinsic() is not None:
            return frozenset()
        return self.of_all(value for n, value in enumerate(made.values) if self.keeps(made.more, n))

    def used_by(self, made):
        """The places that it may access."""
        if made.op in ('load', 'store'):
            return self.of(made.values[-1])
        return self.of_all(made.values) if made.op == 'call' and not made.is_lifetime() else frozenset()


def keepers(functions, given):
    """Answers whether a function may keep the address that it is given as its nth argument. Those of C that are `given` don't."""
    kept = set()
    known = {function.name for function in functions} | set(given)

    def keeps(name, n):
        return name not in known or (name, n) in kept

    is_new = True
    while is_new:
        is_new = False
        for function in functions:
            addresses = Addresses(function, keeps)
            for n, parameter in enumerate(function.parameters):
                if 'parameter ' + str(parameter.what) in addresses.kept and (function.name, n) not in kept:
                    kept.add((function.name, n))
                    is_new = True
    return keeps


class Places:
    """The places of a function, and the rooms that they share."""

    def __init__(self, function, layout, keeps):
        self.layout, self.blocks = layout, function.blocks
        self.addresses = Addresses(function, keeps)
        self.size = self.addresses.places
        self.kept = self.addresses.kept & frozenset(self.size)
        begun = {made.values[-1].what for made in function.instructions() if self.mark(made) == 'start'}
        self.always = self.kept - begun
        self.conflicts = {place: set() for place in self.size}
        self.find_conflicts()
        self.rooms = self.shared()

    @staticmethod
    def mark(made):
        return made.more.split('.')[2] if made.is_lifetime() else None

    def used_by(self, made):
        return self.addresses.used_by(made) & frozenset(self.size)

    def after(self, made, used):
        """Which places were in use before, and after this one."""
        mark = self.mark(made)
        if mark is None:
            return used | self.used_by(made)
        place = frozenset([made.values[-1].what])
        return used | place & self.kept if mark == 'start' else used - place

    def before(self, made, wanted):
        """Which places are still to be used before this one, where these are after it."""
        if self.mark(made) == 'start':
            return wanted - frozenset([made.values[-1].what])
        return wanted | self.used_by(made)

    def flowed(self, step, order, nexts, start):
        """What holds at each block's one end, by all ways to it: `step` goes through a block."""
        found = {name: start for name in self.layout.order}
        work = list(order)
        while work:
            name = work.pop()
            through = found[name]
            for made in self.blocks[name] if step == self.after else reversed(self.blocks[name]):
                through = step(made, through)
            for other in nexts(name):
                if not through <= found[other]:
                    found[other] |= through
                    work.append(other)
        return found

    def find_conflicts(self):
        order = self.layout.order
        used = self.flowed(self.after, order, self.layout.targets, self.always)
        wanted = self.flowed(self.before, order[::-1], lambda name: self.layout.ways_in[name], self.kept)
        for name in order:
            self.find_in_block(name, used[name], wanted[name])

    def find_in_block(self, name, used, wanted):
        block = self.blocks[name]
        later = [wanted]
        for made in reversed(block):
            later.append(self.before(made, later[-1]) | self.kept)
        later.reverse()
        for n, made in enumerate(block):
            after = self.after(made, used)
            self.conflict(self.used_by(made) | later[n + 1] & used | later[n + 1] & after)
            used = after

    def conflict(self, places):
        for place in places:
            self.conflicts[place] |= places - {place}

    def offsets(self):
        """Where each place would begin in one array: the largest first, as low as its conflicts allow."""
        found = {}
        for place in sorted(self.size, key=lambda place: -self.size[place]):
            begin = 0
            for other in sorted(self.conflicts[place] & set(found), key=found.get):
                if found[other] < begin + self.size[place] and begin < found[other] + self.size[other]:
                    begin = (found[other] + self.size[other] + STEP - 1) // STEP * STEP
            found[place] = begin
        return found

    def shared(self):
        """Rooms: a size, and places with where they begin in it. What doesn't overlap with anything has its own."""
        begins, rooms, end = self.offsets(), [], 0
        for place in sorted(self.size, key=begins.get):
            if not rooms or begins[place] >= end:
                rooms.append([])
                start, end = begins[place], begins[place]
            rooms[-1].append((place, begins[place] - start))
            end = max(end, begins[place] + self.size[place])
        return rooms
