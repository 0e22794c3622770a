"""A module of LLVM IR: its functions and its tables of bytes."""
import re

from .instructions import instruction
from .reading import Line, Refused, bits, without_quotes

# Lines beside functions that say nothing for C.
HEADS = ('source_filename', 'target ', 'declare ', '!', ';', '^')
BAD_ATTRIBUTES = re.compile(r'\b(naked|returns_twice|strictfp|presplitcoroutine)\b')


class Function:
    """A function with its blocks, by their names, in their order."""

    def __init__(self, name, type, parameters, is_exported, line):
        self.name, self.type, self.parameters, self.is_exported, self.line = name, type, parameters, is_exported, line
        self.blocks = {}
        self.is_apart = False  # never taken in where it is called

    def instructions(self):
        for block in self.blocks.values():
            yield from block


def function_head(line):
    line.need('define')
    is_exported = 'internal' not in line.words and 'private' not in line.words
    line.promises()
    kind = line.type()
    name = without_quotes(line.next()[1:])
    line.need('(')
    parameters = []
    while not line.take(')'):
        parameters.append(line.typed())
        line.take(',')
    if 'personality' in line.words:
        raise line.refused('a function that unwinds')
    return Function(name, kind, parameters, is_exported, line)


def bytes_of_text(word):
    """The bytes of c"..."."""
    found = []
    for part in re.finditer(r'\\([0-9A-Fa-f]{2})|\\(\\)|([^\\])', word[2:-1]):
        found.append(int(part.group(1), 16) if part.group(1) else ord(part.group(2) or part.group(3)))
    return found


def numbers_of_list(line, n, size):
    line.need('[')
    found = []
    for _ in range(n):
        found += list(line.typed().what.to_bytes(size, 'little'))
        line.take(',')
    line.need(']')
    return found


def table(line):
    """A constant of integers: its name and its bytes, the lowest of a number first."""
    name = without_quotes(line.next()[1:])
    line.need('=')
    line.promises()
    if not line.take('constant'):
        raise line.refused('a place of the whole module')
    kind = line.type()
    if kind[0] != 'array' or kind[2] == 'ptr' or bits(kind[2]) % 8:
        raise line.refused('a table that is not of integers')
    size = bits(kind[2]) // 8
    if line.peek().startswith('c"'):
        found = bytes_of_text(line.next())
    elif line.take('zeroinitializer'):
        found = [0] * (kind[1] * size)
    else:
        found = numbers_of_list(line, kind[1], size)
    if len(found) != kind[1] * size:
        raise line.refused('a table of another length')
    line.end()
    return name, found


def whole_lines(text):
    """The lines with their numbers; those of a switch's cases are joined to it."""
    lines = text.split('\n')
    number = 0
    while number < len(lines):
        first = number + 1
        line = lines[number]
        while re.match(r'\s+switch ', line) and not line.rstrip().endswith(']') and number + 1 < len(lines):
            number += 1
            line += ' ' + lines[number].strip()
        yield first, line
        number += 1


class Module:
    """All functions and tables of a text."""

    def __init__(self, text):
        self.functions, self.tables, self.function, self.block = [], {}, None, None
        self.apart = set(re.findall(r'^attributes (#\d+) = \{.*\bnoinline\b', text, re.M))
        for number, line in whole_lines(text):
            if line.strip() and not line.startswith(HEADS):
                self.read(line, number)
        self.require_ends()

    def read(self, text, number):
        if text.startswith('attributes '):
            if BAD_ATTRIBUTES.search(text):
                raise Refused('an attribute that is unknown, line %d: %s' % (number, text.strip()))
        elif text.startswith('@'):
            name, found = table(Line(text, number))
            self.tables[name] = found
        elif text.startswith('define'):
            self.function, self.block = function_head(Line(text, number)), None
            self.function.is_apart = not self.apart.isdisjoint(re.findall(r'#\d+', text))
            self.functions.append(self.function)
        elif text.startswith('}'):
            self.function = None
        elif self.function and not text.startswith(' '):
            self.begin_block(re.match(r'("[^"]*"|[-\w$.]+):', text), text, number)
        elif self.function and not text.strip().startswith(';'):
            self.add(instruction(Line(text, number)))
        elif not self.function:
            raise Refused('what is unknown, line %d: %s' % (number, text.strip()))

    def begin_block(self, match, text, number):
        if not match:
            raise Refused('what is unknown, line %d: %s' % (number, text.strip()))
        self.block = self.function.blocks.setdefault(without_quotes(match.group(1)), [])

    def add(self, made):
        """An instruction of the block that was begun. A first block without a name has the number behind the parameters'."""
        if self.block is None:
            self.begin_first()
        self.block.append(made)

    def begin_first(self):
        unnamed = sum(str(parameter.what).isdigit() for parameter in self.function.parameters)
        self.block = self.function.blocks.setdefault(str(unnamed), [])

    def require_ends(self):
        for function in self.functions:
            for name, block in function.blocks.items():
                if not block or block[-1].op not in ('br', 'switch', 'ret', 'unreachable'):
                    raise function.line.refused('a block without an end, %s' % name)
