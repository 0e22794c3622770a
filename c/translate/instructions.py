"""The instructions that are known. Each reader takes one line; what it doesn't know it refuses."""
from .reading import Refused, Value, bits, without_quotes

BINARY = set('add sub mul udiv urem sdiv srem and or xor shl lshr ashr'.split())
CASTS = set('trunc zext sext'.split())
PREDICATES = set('eq ne ult ule ugt uge slt sle sgt sge'.split())
# Promises: where one is broken the IR has no value, and any value is right.
FLAGS = set('nuw nsw exact disjoint nneg samesign inbounds nusw'.split())
PURE_CALLS = tuple('umin umax smin smax usub.sat uadd.sat bswap ctlz cttz ctpop fshl fshr abs'.split())
# Calls that say something to the optimizer alone.
# A trap stands before an end that is unreachable, which is written as one.
SILENT_CALLS = ('llvm.assume', 'llvm.experimental.noalias.scope.decl', 'llvm.trap')
LIFETIMES = ('llvm.lifetime.start', 'llvm.lifetime.end')


class Instruction:
    """One instruction: what it makes, of which values, and what else its kind needs to know (`more`)."""

    __slots__ = ('op', 'name', 'type', 'values', 'more', 'line', 'block', 'index')

    def __init__(self, op, name, type, values, line, more=None):
        self.op, self.name, self.type, self.values, self.line, self.more = op, name, type, values, line, more

    def refused(self, why):
        return self.line.refused(why)

    def intrinsic(self):
        """The name of an intrinsic without its widths, or nothing."""
        if self.op != 'call' or not self.more.startswith('llvm.'):
            return None
        words = self.more.split('.')[1:]
        while words and (words[-1][0] in 'ip' and words[-1][1:].isdigit()):
            words.pop()
        return '.'.join(words)

    def suffix(self, size):
        """That of a helper for a number of so many bits in memory that begins at a multiple of its size, as far as rooms do."""
        return '_aligned' if size in (16, 32, 64, 128) and self.line.alignment * 8 >= min(size, 64) else ''

    def is_silent(self):
        return self.op == 'call' and self.more.startswith(SILENT_CALLS)

    def is_lifetime(self):
        return self.op == 'call' and self.more.startswith(LIFETIMES)

    def is_pure(self):
        """Whether it does nothing but make its value. A load does so, but not before or after a store."""
        if self.op == 'call':
            return self.intrinsic() in PURE_CALLS
        return self.op in BINARY or self.op in CASTS or self.op in (
            'icmp', 'select', 'freeze', 'extractvalue', 'getelementptr', 'load')

    def writes(self):
        """Whether memory may be other after it."""
        return self.op == 'store' or self.op == 'call' and not self.is_pure()

    def is_fixed_step(self):
        """An address with a known distance from another one."""
        return self.op == 'getelementptr' and self.values[1].kind == '#'

    def is_wide_switch(self):
        """A switch over more bits than one of C takes."""
        return self.op == 'switch' and bits(self.values[0].type) > 64

    def targets(self):
        """The blocks that it leads to, each once."""
        if self.op == 'br':
            return list(self.more)
        if self.op == 'switch':
            return list(dict.fromkeys([self.more[0]] + [target for _, target in self.more[1]]))
        return []


def binary(line, op, name):
    kind = line.type()
    bits(kind)
    first = line.value(kind)
    line.need(',')
    return Instruction(op, name, kind, [first, line.value(kind)], line)


def icmp(line, op, name):
    predicate = line.next()
    if predicate not in PREDICATES:
        raise line.refused('a predicate that is unknown')
    kind = line.type()
    first = line.value(kind)
    line.need(',')
    return Instruction(op, name, 'i1', [first, line.value(kind)], line, predicate)


def cast(line, op, name):
    value = line.typed()
    line.need('to')
    kind = line.type()
    bits(kind), bits(value.type)
    return Instruction(op, name, kind, [value], line)


def freeze(line, op, name):
    value = line.typed()
    return Instruction(op, name, value.type, [value], line)


def select(line, op, name):
    condition = line.typed()
    line.need(',')
    first = line.typed()
    line.need(',')
    return Instruction(op, name, first.type, [condition, first, line.typed()], line)


def phi(line, op, name):
    kind, values, blocks = line.type(), [], []
    while line.take('['):
        values.append(line.value(kind))
        line.need(',')
        blocks.append(line.local())
        line.need(']')
        if not line.take(','):
            break
    return Instruction(op, name, kind, values, line, blocks)


def alloca(line, op, name):
    """A place is an array of bytes, or a number of whole bytes: its size is the same on every processor."""
    kind = line.type()
    if kind[0] == 'array' and kind[2] == 'i8':
        return Instruction(op, name, 'ptr', [], line, kind[1])
    if not isinstance(kind, str) or kind[0] != 'i' or bits(kind) % 8:
        raise line.refused('a place that is no array of bytes')
    return Instruction(op, name, 'ptr', [], line, bits(kind) // 8)


def in_memory(line, kind):
    """A type that is loaded and stored: whole bytes, or a pointer."""
    if kind != 'ptr' and bits(kind) % 8:
        raise line.refused('a width in memory that is no bytes')
    return kind


def load(line, op, name):
    kind = in_memory(line, line.type())
    line.need(',')
    return Instruction(op, name, kind, [line.typed()], line)


def store(line, op, name):
    value = line.typed()
    in_memory(line, value.type)
    line.need(',')
    return Instruction(op, None, 'void', [value, line.typed()], line)


def getelementptr(line, op, name):
    kind = line.type()
    if not isinstance(kind, str) or kind == 'ptr' or bits(kind) % 8:
        raise line.refused('an address by a type that is no integer')
    line.need(',')
    base = line.typed()
    line.need(',')
    index = line.typed()
    if line.peek() == ',' and not line.peek(1).startswith('!'):
        raise line.refused('an address by two indices')
    if base.type != 'ptr' or index.type != 'i64':
        raise line.refused('an address by an index that has not 64 bits')
    return Instruction(op, name, 'ptr', [base, index], line, bits(kind) // 8)


def one_field(line):
    n = line.number_word()
    if line.peek() == ',' and not line.peek(1).startswith('!'):
        raise line.refused('a field of a field')
    return n


def extractvalue(line, op, name):
    value = line.typed()
    line.need(',')
    n = one_field(line)
    return Instruction(op, name, value.type[1 + n], [value], line, n)


def insertvalue(line, op, name):
    whole = line.typed()
    line.need(',')
    value = line.typed()
    line.need(',')
    return Instruction(op, name, whole.type, [whole, value], line, one_field(line))


def call(line, op, name):
    line.promises()
    kind = line.type()
    callee = line.next()
    if not callee.startswith('@'):
        raise line.refused('a call by a pointer')
    callee = without_quotes(callee[1:])
    if callee.startswith(SILENT_CALLS):
        line.at = len(line.words)
        return Instruction(op, None, kind, [], line, callee)
    line.need('(')
    values = []
    while not line.take(')'):
        values.append(line.typed())
        line.take(',')
    return Instruction(op, name, kind, values, line, callee)


def branch(line, op, name):
    if line.peek() == 'label':
        return Instruction('br', None, 'void', [], line, [line.label()])
    condition = line.typed()
    line.need(',')
    then = line.label()
    line.need(',')
    otherwise = line.label()
    if then == otherwise:
        return Instruction('br', None, 'void', [], line, [then])
    return Instruction('br', None, 'void', [condition], line, [then, otherwise])


def switch(line, op, name):
    value = line.typed()
    line.need(',')
    otherwise = line.label()
    line.need('[')
    cases = []
    while not line.take(']'):
        number = line.typed()
        line.need(',')
        cases.append((number.what, line.label()))
    return Instruction(op, None, 'void', [value], line, (otherwise, cases))


def ret(line, op, name):
    values = [] if line.take('void') else [line.typed()]
    return Instruction(op, None, 'void', values, line)


def unreachable(line, op, name):
    return Instruction(op, None, 'void', [], line)


READERS = {
    'icmp': icmp, 'freeze': freeze, 'select': select, 'phi': phi, 'alloca': alloca, 'load': load, 'store': store,
    'getelementptr': getelementptr, 'extractvalue': extractvalue, 'insertvalue': insertvalue, 'call': call, 'br': branch,
    'switch': switch, 'ret': ret, 'unreachable': unreachable,
}
READERS.update({op: binary for op in BINARY})
READERS.update({op: cast for op in CASTS})


def instruction(line):
    """Reads a whole line."""
    name = None
    if line.peek(1) == '=':
        name = line.local()
        line.next()
    if line.peek() in ('tail', 'notail'):
        line.next()
    op = line.next()
    while line.peek() in FLAGS:
        line.next()
    reader = READERS.get(op)
    if not reader:
        raise line.refused('an instruction that is unknown')
    try:
        made = reader(line, op, name)
    except Refused as refused:
        raise refused if 'line' in str(refused) else line.refused(str(refused))
    line.end()
    return made
