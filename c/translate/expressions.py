"""C expressions for pure instructions. Each has a value of its type's range; nothing in it is undefined."""
from .reading import Refused, bits
from .types import type_of, width

# Helpers that take their operands as they are, by the intrinsic's name.
BY_HELPER = {'umin': 'umin', 'umax': 'umax', 'smin': 'smin', 'smax': 'smax', 'usub.sat': 'usub_sat', 'uadd.sat': 'uadd_sat',
             'bswap': 'bswap', 'ctlz': 'ctlz', 'cttz': 'cttz', 'ctpop': 'ctpop'}
ARITHMETIC = {'add': '+', 'sub': '-', 'mul': '*', 'udiv': '/', 'urem': '%', 'and': '&', 'or': '|', 'xor': '^'}
ON_BITS = {'add': '!=', 'sub': '!=', 'xor': '!=', 'mul': '&&', 'and': '&&', 'or': '||'}
COMPARED = {'eq': '==', 'ne': '!=', 'lt': '<', 'le': '<=', 'gt': '>', 'ge': '>='}


class Expression:
    """A text, whether it may stand without brackets, and the variables that it reads."""

    __slots__ = ('text', 'is_atom', 'reads')

    def __init__(self, text, is_atom=True, of=(), reads=()):
        self.text, self.is_atom = text, is_atom
        self.reads = frozenset(reads).union(*[part.reads for part in of])

    def bracketed(self):
        return self.text if self.is_atom else '(%s)' % self.text


def number_text(n, wide):
    """A literal that is at least as wide as it has to be by C's rules: a small one takes the other operand's width."""
    if n < 1 << 16:
        return '%du' % n
    return 'UINT%d_C(%#x)' % (32 if wide <= 32 else 64, n)


def number(n, kind):
    size = bits(kind)
    if size == 1:
        return Expression('true' if n else 'false')
    if width(size) == 128:
        return Expression('u128_of(%s, %s)' % (number_text(n >> 64, 64), number_text(n & (1 << 64) - 1, 64)))
    return Expression(number_text(n, size))


def cast(kind, value):
    return Expression('(%s)%s' % (type_of(kind), value.bracketed()), True, [value])


def fitted(value, kind):
    """A value that may have more bits, cut to its type."""
    size = bits(kind)
    if size == 1:
        return Expression('(%s & 1u) != 0' % value.bracketed(), False, [value])
    if size != width(size):
        value = Expression('%s & %s' % (value.bracketed(), number_text((1 << size) - 1, size)), False, [value])
    return cast(kind, value) if size <= 16 else value


def called(name, values):
    return Expression('%s(%s)' % (name, ', '.join(value.text for value in values)), True, values)


def infix(first, sign, second, is_atom=False):
    return Expression('%s %s %s' % (first.bracketed(), sign, second.bracketed()), is_atom, [first, second])


class Expressions:
    """Builds expressions; `operand` gives that of a value, `helpers` notes which helpers are needed."""

    def __init__(self, operand, helpers):
        self.operand, self.helpers = operand, helpers

    def helper(self, name, *values):
        self.helpers.add(name)
        return called(name, values)

    def of(self, made):
        """The expression of an instruction; what is refused names its line."""
        try:
            return self.built(made)
        except Refused as refused:
            raise refused if ', line ' in str(refused) else made.refused(str(refused))

    def built(self, made):
        if made.op == 'call':
            return self.intrinsic(made)
        if made.op in ON_BITS and made.type == 'i1':
            first, second = map(self.operand, made.values)
            return infix(first, ON_BITS[made.op], second)
        if made.op in ARITHMETIC:
            return self.arithmetic(made)
        if made.op in ('shl', 'lshr', 'ashr'):
            return self.shift(made)
        if made.op in ('sdiv', 'srem'):
            return self.signed_division(made)
        return getattr(self, made.op)(made)

    def arithmetic(self, made):
        first, second = map(self.operand, made.values)
        size = bits(made.type)
        if width(size) == 128:
            if made.op not in ('add', 'sub', 'and', 'or', 'xor'):
                raise Refused('%s of 128 bits' % made.op)
            return self.cut128(self.helper('u128_' + made.op, first, second), size)
        if size == 1:
            raise Refused('%s of one bit' % made.op)
        if made.op == 'mul' and width(size) == 16:
            first = Expression('(uint32_t)' + first.bracketed(), True, [first])
        if first.text.endswith('u') and second.text.endswith('u'):
            first = cast(made.type, first)
        value = infix(first, ARITHMETIC[made.op], second)
        if made.op in ('add', 'sub', 'mul'):
            return fitted(value, made.type)
        return cast(made.type, value) if size <= 16 else value

    def cut128(self, value, size):
        if size == 128:
            return value
        mask = number((1 << size) - 1, 'i%d' % size)
        return self.helper('u128_and', value, mask)

    def shift_count(self, value, kind):
        """A count is less than the width; where it isn't the IR has no value, and C mustn't go astray."""
        size = bits(kind)
        if value.kind == '#':
            if value.what >= size:
                raise Refused('a shift by as many bits as there are')
            return Expression('%du' % value.what)
        count = self.operand(value)
        if width(size) == 128:
            count = Expression('%s.lo' % count.bracketed(), True, [count])
            return Expression('(unsigned)(%s & 127u)' % count.text, True, [count])
        return Expression('(%s & %du)' % (count.bracketed(), width(size) - 1), True, [count])

    def shift(self, made):
        value, count = self.operand(made.values[0]), self.shift_count(made.values[1], made.type)
        size = bits(made.type)
        if size == 1:
            raise Refused('a shift of one bit')
        if width(size) == 128:
            if made.op == 'ashr':
                raise Refused('ashr of 128 bits')
            return self.cut128(self.helper('u128_' + made.op, value, count), size)
        if made.op == 'ashr':
            return self.arithmetic_shift(made, value, count)
        wide = 'i%d' % max(32, width(size))
        if size <= 16 or made.values[0].kind == '#':
            value = cast(wide, value)
        shifted = infix(value, '<<' if made.op == 'shl' else '>>', count)
        if made.op == 'shl':
            return fitted(shifted, made.type)
        return cast(made.type, shifted) if size <= 16 else shifted

    def arithmetic_shift(self, made, value, count):
        """With the top bit flipped a number is as much greater as the top bit alone is."""
        size = bits(made.type)
        top = '(uint%d_t)%s' % (max(32, width(size)), number_text(1 << size - 1, size))
        text = '((%s ^ %s) >> %s) - (%s >> %s)' % (value.bracketed(), top, count.text, top, count.text)
        return fitted(Expression(text, False, [value, count]), made.type)

    def signed_division(self, made):
        size = bits(made.type)
        if size not in (8, 16, 32, 64):
            raise Refused('%s of %d bits' % (made.op, size))
        return self.helper('%s%d' % (made.op, size), *map(self.operand, made.values))

    def flipped(self, value, size):
        """The top bit flipped, so that the order without signs is the one with signs."""
        if value.kind == '#':
            return number(value.what ^ 1 << size - 1, 'i%d' % size) if size > 1 else Expression('%du' % (1 - value.what))
        operand = self.operand(value)
        return Expression('(%s ^ %s)' % (operand.bracketed(), number_text(1 << size - 1, size)), True, [operand])

    def icmp(self, made):
        kind, predicate = made.values[0].type, made.more
        if kind == 'ptr':
            if predicate not in ('eq', 'ne'):
                raise Refused('an order of addresses')
            first, second = map(self.operand, made.values)
            return infix(first, COMPARED[predicate], second)
        size = bits(kind)
        if width(size) == 128:
            return self.compared128(made, size)
        if predicate[0] == 's':
            first, second = (self.flipped(value, size) for value in made.values)
        else:
            first, second = map(self.operand, made.values)
        if first.text.endswith('u') and second.text.endswith('u'):
            first = cast(kind if size > 1 else 'i8', first)
        return infix(first, COMPARED[predicate.lstrip('us') if predicate != 'eq' else 'eq'], second)

    def compared128(self, made, size):
        predicate = made.more
        first, second = map(self.operand, made.values)
        if predicate[0] == 's':
            top = number(1 << size - 1, 'i%d' % size)
            first, second = self.helper('u128_xor', first, top), self.helper('u128_xor', second, top)
            predicate = 'u' + predicate[1:]
        if predicate in ('ugt', 'ule'):
            first, second = second, first
        value = self.helper('u128_eq' if predicate in ('eq', 'ne') else 'u128_lt', first, second)
        if predicate in ('ne', 'uge', 'ule'):
            return Expression('!' + value.text, True, [value])
        return value

    def trunc(self, made):
        value, target = self.operand(made.values[0]), bits(made.type)
        source = bits(made.values[0].type)
        if width(source) == 128 and width(target) == 128:
            return self.cut128(value, target)
        if width(source) == 128:
            value = Expression(value.bracketed() + '.lo', True, [value])
        if target == 1:
            return fitted(value, made.type)
        if target != width(target):
            value = Expression('%s & %s' % (value.bracketed(), number_text((1 << target) - 1, target)), False, [value])
        return cast(made.type, value)

    def zext(self, made):
        value, target = self.operand(made.values[0]), bits(made.type)
        if width(target) != 128:
            return cast(made.type, value)
        if width(bits(made.values[0].type)) == 128:
            return value
        return Expression('u128_of(0u, %s)' % value.text, True, [value])

    def sext(self, made):
        value, source, target = self.operand(made.values[0]), bits(made.values[0].type), bits(made.type)
        if width(target) == 128:
            raise Refused('sext to 128 bits')
        if source == 1:
            text = '%s ? %s : 0u' % (value.bracketed(), number_text((1 << target) - 1, target))
            value = Expression(text, False, [value])
            return cast(made.type, value)
        top = number_text(1 << source - 1, source)
        wide = max(32, width(target))
        value = Expression('((uint%d_t)%s ^ %s) - %s' % (wide, value.bracketed(), top, top), False, [value])
        return fitted(value, made.type)

    def freeze(self, made):
        return self.operand(made.values[0])

    def select(self, made):
        if made.values[0].type != 'i1':
            raise Refused('a choice by more than one bit')
        condition, then, otherwise = map(self.operand, made.values)
        if made.type == 'i1' and otherwise.text == 'false':
            return infix(condition, '&&', then)
        if made.type == 'i1' and then.text == 'true':
            return infix(condition, '||', otherwise)
        text = '%s ? %s : %s' % (condition.bracketed(), then.bracketed(), otherwise.bracketed())
        value = Expression(text, False, [condition, then, otherwise])
        is_narrow = isinstance(made.type, str) and made.type[0] == 'i' and 1 < bits(made.type) <= 16
        return cast(made.type, value) if is_narrow else value

    def extractvalue(self, made):
        value = self.operand(made.values[0])
        return Expression('%s.f%d' % (value.bracketed(), made.more), True, [value])

    def getelementptr(self, made):
        base, index = map(self.operand, made.values)
        step = index if made.more == 1 else Expression('%s * %du' % (index.bracketed(), made.more), False, [index])
        return self.helper('at', base, step)

    def load(self, made):
        address = self.operand(made.values[0])
        if made.type == 'ptr':
            return self.helper('load_pointer' + made.suffix(64), address)
        size = bits(made.type)
        if size == 8:
            return Expression(at_address(address), True, [address])
        return self.helper('load%d%s' % (size, made.suffix(size)), address)

    def intrinsic(self, made):
        name, size = made.intrinsic(), bits(made.type)
        values = [self.operand(value) for value in made.values]
        if width(size) == 128 and name == 'bswap' and size == 128:
            return self.helper('u128_bswap', values[0])
        if name in ('fshl', 'fshr', 'abs') or size not in (8, 16, 32, 64):
            raise Refused('%s of %d bits' % (name, size))
        if name in ('ctlz', 'cttz'):
            values = values[:1]
        return self.helper('%s%d' % (BY_HELPER[name], size), *values)


def at_address(address):
    """The byte at an address: in square brackets where it's so far from a variable."""
    base, plus, step = address.text.partition(' + ')
    if plus and base.isidentifier() and step.isdigit():
        return '%s[%s]' % (base, step)
    return '*' + address.bracketed()
