"""What a function's values are used for, where each is written, and in which order its blocks stand."""

# So many operations are written as one expression at most, and so deep braces are nested at most.
LONGEST, DEEPEST = 9, 10


class Uses:
    """Which instructions use each value, without those that make nothing that is used."""

    def __init__(self, function):
        self.function = function
        self.made, self.users = {}, {}
        self.drop_unused()
        for name, block in function.blocks.items():
            for index, made in enumerate(block):
                made.block, made.index = name, index
                if made.name is not None:
                    self.made[made.name] = made
        for user in function.instructions():
            for n, value in enumerate(user.values):
                if value.kind == '%':
                    block = user.more[n] if user.op == 'phi' else user.block
                    self.users.setdefault(value.what, []).append((user, block))

    def drop_unused(self):
        """Values that are used by nothing, or only by one another, go, and so do calls that say something to the optimizer alone."""
        makers = {made.name: made for made in self.function.instructions() if made.name is not None}
        work = [made for made in self.function.instructions() if not made.is_pure() and made.op not in ('phi', 'alloca', 'insertvalue')]
        work = [made for made in work if not made.is_silent() and not made.is_lifetime()]
        wanted = set(map(id, work))
        while work:
            for value in work.pop().values:
                maker = makers.get(value.what) if value.kind == '%' else None
                if maker is not None and id(maker) not in wanted:
                    wanted.add(id(maker))
                    work.append(maker)
        for name, block in self.function.blocks.items():
            self.function.blocks[name] = [made for made in block if id(made) in wanted or is_mark_of(made, makers, wanted)]

    def is_used(self, made):
        return bool(made.name is not None and self.users.get(made.name))


def is_mark_of(made, makers, wanted):
    """Whether it marks where the life of a place that is used begins or ends."""
    if not made.is_lifetime():
        return False
    place = makers.get(made.values[-1].what)
    return place is not None and id(place) in wanted


class Folding:
    """Which values are written where they are used: those with one use in their own block, and fixed steps from an address. A load
    isn't moved past anything that writes."""

    def __init__(self, function, uses):
        self.function, self.uses = function, uses
        self.folded = {made.name for made in function.instructions() if made.is_fixed_step()}
        for block in function.blocks.values():
            self.fold(block)
        for block in function.blocks.values():
            self.shorten(block)

    def only_user(self, made):
        """The one that uses it, in the same block and in an expression."""
        users = self.uses.users.get(made.name, [])
        if len(users) != 1 or users[0][1] != made.block:
            return None
        user = users[0][0]
        return None if user.op == 'insertvalue' or user.is_fixed_step() or user.is_lifetime() or user.is_wide_switch() else user

    def fold(self, block):
        place = {}
        for made in reversed(block):
            place[id(made)] = made.index
            if made.name is None or made.name in self.folded or not made.is_pure():
                continue
            user = self.only_user(made)
            if user is None:
                continue
            where = len(block) if user.op == 'phi' else place[id(user)]
            if made.op == 'load' and any(other.writes() for other in block[made.index + 1:where]):
                continue
            self.folded.add(made.name)
            place[id(made)] = where

    def shorten(self, block):
        weight = {}
        for made in block:
            if made.name not in self.folded or made.is_fixed_step():
                continue
            weight[made.name] = 1 + sum(weight.get(value.what, 0) for value in made.values if value.kind == '%')
            if weight[made.name] > LONGEST:
                self.folded.discard(made.name)
                weight[made.name] = 0


class Layout:
    """The order of the blocks. A block with one way in stands where that way is; the others, the roots, stand one after the other."""

    def __init__(self, function):
        self.blocks = function.blocks
        self.entry = next(iter(function.blocks))
        self.order = self.reverse_postorder()
        self.ways_in = {name: set() for name in self.order}
        for name in self.order:
            for target in self.targets(name):
                self.ways_in[target].add(name)
        self.roots = {name for name in self.order if name == self.entry or len(self.ways_in[name]) != 1}
        self.size = {}
        for name in reversed(self.order):
            self.size[name] = len(self.blocks[name]) + sum(self.size.get(t, 0) for t in self.targets(name) if t not in self.roots)
        for root in [name for name in self.order if name in self.roots]:
            self.limit_depth(root)
        self.root = {}
        for name in self.order:
            self.root[name] = name if name in self.roots else self.root[next(iter(self.ways_in[name]))]

    def targets(self, name):
        return self.blocks[name][-1].targets()

    def reverse_postorder(self):
        """From the first block on; a block that nothing leads to has no place."""
        order, seen = [], {self.entry}
        stack = [(self.entry, iter(self.targets(self.entry)))]
        while stack:
            name, targets = stack[-1]
            target = next((t for t in targets if t not in seen), None)
            if target is None:
                order.append(name)
                stack.pop()
            else:
                seen.add(target)
                stack.append((target, iter(self.targets(target))))
        return order[::-1]

    def limit_depth(self, root):
        """Makes roots of blocks that would stand too deep."""
        work = [(root, 1)]
        while work:
            name, depth = work.pop()
            nested, rest = self.shape(name)
            for target in nested:
                if target not in self.roots and depth >= DEEPEST:
                    self.roots.add(target)
                    work.append((target, 1))
                elif target not in self.roots:
                    work.append((target, depth + 1))
            if rest is not None and rest not in self.roots:
                work.append((rest, depth))

    def shape(self, name):
        """The targets that are written within an `if` or a `switch`, and the one that goes on after it."""
        last = self.blocks[name][-1]
        if last.op == 'switch':
            return last.targets(), None
        if last.op != 'br':
            return [], None
        if len(last.more) == 1:
            return [], last.more[0]
        then, otherwise = last.more
        is_then_inside = then in self.roots or (otherwise not in self.roots and self.size[then] <= self.size[otherwise])
        return ([then], otherwise) if is_then_inside else ([otherwise], then)
