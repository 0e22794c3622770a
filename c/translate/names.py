"""Names for C."""
import re

TAKEN = set(
    '''auto break case char const continue default do double else enum extern float for goto if inline int long register restrict
    return short signed sizeof static struct switch typedef union unsigned void volatile while bool true false main memcpy memset
    memmove u128 at trap size_t ptrdiff_t asm fortran index'''.split()
)


class Names:
    """Names that are different from one another and from those of `outer`."""

    def __init__(self, outer=None):
        self.used, self.outer = set(), outer

    def is_taken(self, name):
        return name in self.used or name in TAKEN or bool(self.outer and self.outer.is_taken(name))

    def take(self, name):
        self.used.add(name)
        return name

    def fresh(self, name, prefix):
        """A name like this one, in letters, digits and underscores."""
        name = re.sub(r'\.(sroa|copyload|i)(?=\.|\d|$)', '.', name)
        name = re.sub(r'[\W_]+', '_', name).strip('_')
        if not re.match('[A-Za-z]', name):
            name = prefix + name
        made, n = name, 1
        while self.is_taken(made):
            n += 1
            made = '%s_%d' % (name, n)
        return self.take(made)


def of_path(path):
    """A function's name of its path in Rattle: the last two words, without what it is made for."""
    plain = path
    while re.search(r'<[^<>]*>', plain):
        plain = re.sub(r'<[^<>]*>', '', plain)
    words = [word for word in re.split(r'\W+', plain) if word]
    return '_'.join(words[-2:]) or 'function'
