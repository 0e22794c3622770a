"""Lines of LLVM IR: their words, types and values."""
import re
from typing import NamedTuple

WORD = re.compile(
    r'''\s*(c"[^"]*"|[%@]"[^"]*"|[%@][-\w$.]+|![\w.]*|\#\d+|-?\d+|[A-Za-z_][\w.]*|"[^"]*"|[()\[\]{},=<>*:|]|\.\.\.)'''
)
SIMPLE = re.compile(r'i\d+|ptr|void')
# What may stand at an argument, a result or a call without a meaning of its own for C: promises to the optimizer, and how it is linked.
PROMISES = set(
    '''align captures dead_on_unwind dereferenceable dereferenceable_or_null dso_local fastcc ccc coldcc hidden immarg initializes
    internal local_unnamed_addr nocapture noalias nofree nonnull noundef private protected range readnone readonly returned
    signext sret unnamed_addr writable writeonly zeroext dead_on_return nofpclass'''.split()
)
ZEROS, NOTHINGS = ('zeroinitializer', 'false', 'null'), ('poison', 'undef')


class Refused(Exception):
    """Something in the IR that isn't translated, with the line that it stands in."""


class Nothing(int):
    """A number that may be any: zero where one is wanted."""


class Value(NamedTuple):
    """A `%` of a function, an `@` of the module, or a `#` number, with its type."""

    kind: str
    what: object
    type: object


def bits(kind):
    """How many bits an integer type has."""
    if isinstance(kind, str) and kind[0] == 'i':
        return int(kind[1:])
    raise Refused('no integer: %s' % (kind,))


def without_quotes(name):
    return name[1:-1] if name.startswith('"') else name


class Line:
    """A line of IR, read word by word."""

    def __init__(self, text, number):
        self.text, self.number, self.at = text.strip(), number, 0
        self.alignment = 1
        self.words = self.split(text.rstrip())

    def refused(self, why):
        return Refused('%s, line %d: %s' % (why, self.number, self.text))

    def split(self, text):
        words, at = [], 0
        while at < len(text) and not text[at:].lstrip().startswith(';'):
            match = WORD.match(text, at)
            if not match:
                raise self.refused('not a word of IR')
            words.append(match.group(1))
            at = match.end()
        return words

    def peek(self, ahead=0):
        return self.words[self.at + ahead] if self.at + ahead < len(self.words) else ''

    def next(self):
        word = self.peek()
        self.at += 1
        return word

    def take(self, word):
        if self.peek() != word:
            return False
        self.at += 1
        return True

    def need(self, word):
        if not self.take(word):
            raise self.refused('%s is wanted' % word)

    def local(self):
        """The name of a value or a block of the function."""
        word = self.next()
        if not word.startswith('%'):
            raise self.refused('a name is wanted')
        return without_quotes(word[1:])

    def label(self):
        self.need('label')
        return self.local()

    def number_word(self):
        word = self.next()
        if not re.fullmatch(r'-?\d+', word):
            raise self.refused('a number is wanted')
        return int(word)

    def has_type(self):
        return bool(SIMPLE.fullmatch(self.peek())) or self.peek() in ('[', '{')

    def type(self):
        """A type: `iN`, `ptr` and `void` by their names, others as ('array', n, type) and ('struct', type..)."""
        word = self.next()
        if SIMPLE.fullmatch(word) and self.peek() != 'addrspace':
            return word
        if word == '[':
            n = self.number_word()
            self.need('x')
            of = self.type()
            self.need(']')
            return ('array', n, of)
        if word == '{':
            fields = []
            while not self.take('}'):
                fields.append(self.type())
                self.take(',')
            return ('struct',) + tuple(fields)
        raise self.refused('a type that is unknown')

    def in_brackets(self):
        """Passes what stands in round brackets, if anything does."""
        depth = 0
        while self.peek() == '(' or depth:
            word = self.next()
            if not word:
                raise self.refused(') is wanted')
            depth += (word == '(') - (word == ')')

    def promises(self):
        """Passes attributes without a meaning for C."""
        while self.peek() in PROMISES:
            word = self.next()
            if word == 'align' and self.peek().isdigit():
                self.next()
            self.in_brackets()

    def value(self, kind):
        word = self.next()
        if word[:1] in ('%', '@'):
            return Value(word[0], without_quotes(word[1:]), kind)
        if word in ZEROS:
            return Value('#', 0, kind)
        if word in NOTHINGS:
            return Value('#', Nothing(0), kind)
        if word == 'true' and kind == 'i1':
            return Value('#', 1, kind)
        if re.fullmatch(r'-?\d+', word) and kind != 'ptr':
            return Value('#', int(word) % (1 << bits(kind)), kind)
        if word == '{' and kind[0] == 'struct':
            return Value('#', self.fields(), kind)
        raise self.refused('a value that is unknown')

    def fields(self):
        """The fields of a struct that is constant."""
        values = []
        while not self.take('}'):
            values.append(self.typed())
            if values[-1].kind != '#':
                raise self.refused('a struct that is no constant')
            self.take(',')
        return tuple(values)

    def typed(self):
        kind = self.type()
        self.promises()
        return self.value(kind)

    def end(self):
        """What may follow an instruction: an alignment, metadata and attributes."""
        while self.peek():
            if self.peek().startswith('#'):
                self.next()
                continue
            self.need(',')
            word = self.next()
            if word == 'align':
                self.alignment = self.number_word()
            elif word.startswith('!') and self.peek().startswith('!'):
                self.next()
            else:
                raise self.refused('what follows is unknown')
