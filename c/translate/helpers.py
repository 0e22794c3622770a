"""The functions that the C calls for what C has no operator for. Only those that are used are written."""
import re

from .expressions import number_text
from .reading import Refused
from .types import width

TRAP = '''void trap(void)
{
    KELIFANDRO_TRAP();
}'''
AT = '''uint8_t *at(uint8_t *bytes, uint64_t offset)
{
    return bytes + (ptrdiff_t)offset;
}'''
LOAD_POINTER = '''uint8_t *load_pointer(const uint8_t *bytes)
{
    uint8_t *pointer;
    memcpy(&pointer, bytes, sizeof pointer);
    return pointer;
}'''
STORE_POINTER = '''void store_pointer(uint8_t *bytes, uint8_t *pointer)
{
    memcpy(bytes, &pointer, sizeof pointer);
}'''
MOVE = '''void move(uint8_t *to, const uint8_t *from, size_t n)
{
    if ((uintptr_t)to <= (uintptr_t)from)
        for (size_t i = 0; i < n; i++)
            to[i] = from[i];
    else
        while (n-- > 0)
            to[n] = from[n];
}'''
OF_128 = '''u128 u128_of(uint64_t high, uint64_t low)
{
    u128 made;
    made.lo = low;
    made.hi = high;
    return made;
}'''
ADD_128 = '''u128 u128_add(u128 a, u128 b)
{
    uint64_t low = a.lo + b.lo;
    return u128_of(a.hi + b.hi + (low < a.lo), low);
}'''
SUB_128 = '''u128 u128_sub(u128 a, u128 b)
{
    return u128_of(a.hi - b.hi - (a.lo < b.lo), a.lo - b.lo);
}'''
EQ_128 = '''bool u128_eq(u128 a, u128 b)
{
    return a.hi == b.hi && a.lo == b.lo;
}'''
LT_128 = '''bool u128_lt(u128 a, u128 b)
{
    return a.hi < b.hi || (a.hi == b.hi && a.lo < b.lo);
}'''
LSHR_128 = '''u128 u128_lshr(u128 a, unsigned n)
{
    if (n >= 64)
        return u128_of(0u, a.hi >> (n - 64));
    return n ? u128_of(a.hi >> n, a.lo >> n | a.hi << (64 - n)) : a;
}'''
SHL_128 = '''u128 u128_shl(u128 a, unsigned n)
{
    if (n >= 64)
        return u128_of(a.lo << (n - 64), 0u);
    return n ? u128_of(a.hi << n | a.lo >> (64 - n), a.lo << n) : a;
}'''
BSWAP_128 = '''u128 u128_bswap(u128 a)
{
    return u128_of(bswap64(a.lo), bswap64(a.hi));
}'''
LOAD_POINTER_ALIGNED = '''uint8_t *load_pointer_aligned(const uint8_t *bytes)
{
#if KELIFANDRO_AT_ONCE
    return *(uint8_t *const __attribute__((__may_alias__)) *)(const void *)bytes;
#else
    return load_pointer(bytes);
#endif
}'''
STORE_POINTER_ALIGNED = '''void store_pointer_aligned(uint8_t *bytes, uint8_t *pointer)
{
#if KELIFANDRO_AT_ONCE
    *(uint8_t *__attribute__((__may_alias__)) *)(void *)bytes = pointer;
#else
    store_pointer(bytes, pointer);
#endif
}'''
LOAD_128_ALIGNED = '''u128 load128_aligned(const uint8_t *bytes)
{
    return u128_of(load64_aligned(bytes + 8), load64_aligned(bytes));
}'''
STORE_128_ALIGNED = '''void store128_aligned(uint8_t *bytes, u128 value)
{
    store64_aligned(bytes, value.lo);
    store64_aligned(bytes + 8, value.hi);
}'''
LOAD_128 = '''u128 load128(const uint8_t *bytes)
{
    return u128_of(load64(bytes + 8), load64(bytes));
}'''
STORE_128 = '''void store128(uint8_t *bytes, u128 value)
{
    store64(bytes, value.lo);
    store64(bytes + 8, value.hi);
}'''

# Smaller on every processor where it stands once.
APART = {'uadd_sat64'}
# What a helper calls itself.
NEEDS = {'u128_bswap': ['bswap64'], 'load128': ['load64'], 'store128': ['store64'], 'load128_aligned': ['load64_aligned'],
         'store128_aligned': ['store64_aligned'], 'load_pointer_aligned': ['load_pointer'], 'store_pointer_aligned': ['store_pointer']}
NEEDS.update({'%s%d_aligned' % (op, n): ['%s%d' % (op, n)] for op in ('load', 'store') for n in (16, 32, 64)})
NEEDS.update({'%s%d' % (op, n): ['negative%d' % n] for op in ('sdiv', 'srem') for n in (8, 16, 32, 64)})


def unsigned(n):
    return 'uint%d_t' % width(n)


def load_and_store(n):
    """A number in memory, the lowest byte first, by its bytes or by a copy where the processor keeps it so."""
    kind, wide, count = unsigned(n), unsigned(max(32, width(n))), n // 8
    parts = ' | '.join('(%s)bytes[%d]%s' % (wide, k, ' << %d' % (8 * k) if k else '') for k in range(count))
    parts = '(%s)(%s)' % (kind, parts) if n == 16 else parts
    puts = '\n'.join('    bytes[%d] = (uint8_t)%s;' % (k, '(value >> %d)' % (8 * k) if k else 'value') for k in range(count))
    load = '''%s load%d(const uint8_t *bytes)
{
#if KELIFANDRO_BY_BYTES
    return %s;
#else
    %s value = 0;
    memcpy(&value, bytes, %d);
    return value;
#endif
}''' % (kind, n, parts, kind, count)
    store = '''void store%d(uint8_t *bytes, %s value)
{
#if KELIFANDRO_BY_BYTES
%s
#else
    memcpy(bytes, &value, %d);
#endif
}''' % (n, kind, puts, count)
    return {'load%d' % n: load, 'store%d' % n: store}


def aligned(n):
    """The same of a number that begins at a multiple of its size."""
    kind = unsigned(n)
    load = '''%s load%d_aligned(const uint8_t *bytes)
{
#if KELIFANDRO_AT_ONCE
    return *(const any%d *)(const void *)bytes;
#else
    return load%d(bytes);
#endif
}''' % (kind, n, n, n)
    store = '''void store%d_aligned(uint8_t *bytes, %s value)
{
#if KELIFANDRO_AT_ONCE
    *(any%d *)(void *)bytes = value;
#else
    store%d(bytes, value);
#endif
}''' % (n, kind, n, n)
    return {'load%d_aligned' % n: load, 'store%d_aligned' % n: store}


def lesser_and_greater(n):
    kind, top, most = unsigned(n), number_text(1 << n - 1, n), number_text((1 << n) - 1, n)
    head = '%s %%s%d(%s a, %s b)\n{\n    return %%s;\n}' % (kind, n, kind, kind)
    with_signs = '(a ^ %s) %%s (b ^ %s) ? a : b' % (top, top)
    bodies = {'umin': 'a < b ? a : b', 'umax': 'a > b ? a : b', 'smin': with_signs % '<', 'smax': with_signs % '>',
              'usub_sat': 'a < b ? (%s)0u : (%s)(a - b)' % (kind, kind), 'uadd_sat': 'b > %s - a ? (%s)%s : (%s)(a + b)' % (most, kind, most, kind)}
    return {'%s%d' % (name, n): head % (name, body) for name, body in bodies.items()}


def of_bits(n):
    """Zeros at the top and at the bottom, ones, and the bytes in the other order."""
    kind, wide = unsigned(n), unsigned(max(32, n))
    head = '%s %%s%d(%s a)\n{\n%%s\n}' % (kind, n, kind)
    count = '    %s n = 0;\n    while (n < %d && !((%s)a >> %s & 1u))\n        n++;\n    return n;'
    ones = '    %s n = 0;\n    for (int i = 0; i < %d; i++)\n        n = (%s)(n + ((%s)a >> i & 1u));\n    return n;' % (kind, n, kind, wide)
    turned = ' | '.join('((%s)a >> %d & 255u) << %d' % (wide, 8 * k, n - 8 - 8 * k) for k in range(n // 8))
    bodies = {'ctlz': count % (kind, n, wide, '(%d - n)' % (n - 1)), 'cttz': count % (kind, n, wide, 'n'), 'ctpop': ones,
              'bswap': '    return (%s)(%s);' % (kind, turned)}
    return {'%s%d' % (name, n): head % (name, body) for name, body in bodies.items()}


def with_signs(n):
    """Numbers with signs as C has them, and their division by what they are without."""
    kind, top, signed = unsigned(n), number_text(1 << n - 1, n), 'int%d_t' % n
    negative = '%s negative%d(%s a)\n{\n    return (%s)(0u - a);\n}' % (kind, n, kind, kind)
    made = 'int%d_t signed%d(%s a)\n{\n    return (%s)(a < %s ? (%s)a : -(%s)(%s)~a - 1);\n}'
    made %= (n, n, kind, signed, top, signed, signed, kind)
    size = '%s x = a < %s ? a : negative%d(a);\n    %s y = b < %s ? b : negative%d(b);' % (kind, top, n, kind, top, n)
    head = '%s %%s%d(%s a, %s b)\n{\n    %s\n    %%s\n}' % (kind, n, kind, kind, size)
    quotient = '%s q = (%s)(x / y);\n    return (a ^ b) < %s ? q : negative%d(q);' % (kind, kind, top, n)
    rest = '%s r = (%s)(x %% y);\n    return a < %s ? r : negative%d(r);' % (kind, kind, top, n)
    return {'negative%d' % n: negative, 'signed%d' % n: made, 'sdiv%d' % n: head % ('sdiv', quotient),
            'srem%d' % n: head % ('srem', rest)}


def all_helpers():
    """Every helper, one after those that it calls."""
    found = {'trap': TRAP, 'at': AT, 'load_pointer': LOAD_POINTER, 'store_pointer': STORE_POINTER, 'move': MOVE, 'u128_of': OF_128}
    for n in (16, 24, 32, 40, 48, 56, 64):
        found.update(load_and_store(n))
    for n in (16, 32, 64):
        found.update(aligned(n))
    found.update({'load_pointer_aligned': LOAD_POINTER_ALIGNED, 'store_pointer_aligned': STORE_POINTER_ALIGNED})
    for n in (8, 16, 32, 64):
        for made in (lesser_and_greater(n), of_bits(n), with_signs(n)):
            found.update(made)
    for name, sign in (('and', '&'), ('or', '|'), ('xor', '^')):
        head = 'u128 u128_%s(u128 a, u128 b)' % name
        found['u128_' + name] = head + '\n{\n    return u128_of(a.hi %s b.hi, a.lo %s b.lo);\n}' % (sign, sign)
    found.update({'u128_add': ADD_128, 'u128_sub': SUB_128, 'u128_eq': EQ_128, 'u128_lt': LT_128, 'u128_lshr': LSHR_128,
                  'u128_shl': SHL_128, 'u128_bswap': BSWAP_128, 'load128': LOAD_128, 'store128': STORE_128,
                  'load128_aligned': LOAD_128_ALIGNED, 'store128_aligned': STORE_128_ALIGNED})
    return found


def texts_of(wanted, uses_128):
    """The helpers that are wanted, with those that they call."""
    found, work = all_helpers(), list(wanted)
    needed = {'u128_of'} if uses_128 else set()
    while work:
        name = work.pop()
        if name not in found:
            raise Refused('no helper %s' % name)
        needed.add(name)
        work += NEEDS.get(name, [])
    return ['static %s %s' % ('KELIFANDRO_APART' if name in APART else 'inline', text) for name, text in found.items() if name in needed]
