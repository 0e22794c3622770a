"""C's types for those of the IR: integers of the next standard width, bool for one bit, addresses of bytes."""
from .reading import Refused, bits

WIDTHS = (8, 16, 32, 64, 128)


def width(n):
    """The standard width that holds n bits."""
    for wide in WIDTHS:
        if n <= wide:
            return wide
    raise Refused('an integer of %d bits' % n)


def struct_name(kind):
    for field in kind[1:]:
        if not isinstance(field, str) or field == 'void':
            raise Refused('a struct that holds no numbers and addresses alone')
    return 'struct of_' + '_'.join(kind[1:])


def type_of(kind):
    if kind in ('void', 'ptr', 'i1'):
        return {'void': 'void', 'ptr': 'uint8_t *', 'i1': 'bool'}[kind]
    if kind[0] == 'struct':
        return struct_name(kind)
    wide = width(bits(kind))
    return 'u128' if wide == 128 else 'uint%d_t' % wide


def declared(kind, name):
    text = type_of(kind)
    return text + name if text.endswith('*') else text + ' ' + name
