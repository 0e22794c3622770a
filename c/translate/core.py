"""Puts the C file together."""
import re
from typing import NamedTuple

from .function import FunctionWriter
from .helpers import texts_of
from .module import Module
from .names import Names, of_path
from .places import keepers
from .reading import Refused
from .types import declared, struct_name, type_of

HEAD = '''/* Made by c/generate of the proved library: not for editing. C99, freestanding; it needs memcpy and memset, and the functions
   kelifandro_put and kelifandro_get of kelifandro.c. Each function's name in Rattle stands above it. What is
   marked as any is of no weight: it may be any number. */
#include "kelifandro_core.h"
#include <stdbool.h>
#include <stddef.h>
#include <stdint.h>

void *memcpy(void *to, const void *from, size_t n);
void *memset(void *to, int byte, size_t n);

/* Numbers in memory have their lowest byte first on every processor. Byte by byte is right everywhere, and the smaller code; a copy is
   faster, and right where the processor keeps them so too. Which of them it is, 1 or 0, may be given. */
#ifndef KELIFANDRO_BY_BYTES
#if defined __OPTIMIZE_SIZE__ || !defined __BYTE_ORDER__ || !defined __ORDER_LITTLE_ENDIAN__
#define KELIFANDRO_BY_BYTES 1
#else
#define KELIFANDRO_BY_BYTES (__BYTE_ORDER__ != __ORDER_LITTLE_ENDIAN__)
#endif
#endif

/* Bytes that mean nothing, of a variant that isn't there, are copied with those that do, and may never have been written. */
#if defined __GNUC__ && !defined __clang__
#pragma GCC diagnostic ignored "-Wmaybe-uninitialized"
#endif

/* What is done where the proof says that nothing comes. */
#ifndef KELIFANDRO_TRAP
#ifdef __GNUC__
#define KELIFANDRO_TRAP() __builtin_trap()
#else
#define KELIFANDRO_TRAP() for (;;)
#endif
#endif

/* Where accesses go by bytes a number that begins at a multiple of its size, as those in rooms do, is still had at once. */
#if KELIFANDRO_BY_BYTES && defined __GNUC__ && defined __BYTE_ORDER__ && __BYTE_ORDER__ == __ORDER_LITTLE_ENDIAN__
#define KELIFANDRO_AT_ONCE 1
#define KELIFANDRO_ROOM __attribute__((__aligned__(8)))
typedef uint16_t __attribute__((__may_alias__)) any16;
typedef uint32_t __attribute__((__may_alias__)) any32;
typedef uint64_t __attribute__((__may_alias__)) any64;
#else
#define KELIFANDRO_AT_ONCE 0
#define KELIFANDRO_ROOM
#endif

/* What is smaller where it is called than where it is taken in. */
#ifdef __GNUC__
#define KELIFANDRO_APART __attribute__((__noinline__))
#else
#define KELIFANDRO_APART
#endif
'''
TYPE_128 = '''typedef struct {
    uint64_t lo, hi;
} u128;
'''
IN_A_ROW = 24


class Prototype(NamedTuple):
    """A function that C and the library call of each other, as the inner header has it."""

    name: str
    result: str
    types: list
    names: list


def prototypes(header):
    """Those of the inner header, by their names."""
    found = {}
    for result, name, parameters in re.findall(r'^(\w+) (\w+)\(([^)]*)\);', header, re.M):
        pairs = [re.fullmatch(r'(.*?)(\w+)', parameter.strip()).groups() for parameter in parameters.split(',')]
        found[name] = Prototype(name, result, [kind.strip() for kind, _ in pairs], [name for _, name in pairs])
    return found


class Core:
    """The C text of a module. `header` is the inner header's text, `given` the names in the module of what C gives."""

    def __init__(self, text, header, given):
        self.module = Module(text)
        self.prototypes = prototypes(header)
        self.given = {name: self.prototypes[called] for name, called in given.items() if called in self.prototypes}
        self.names, self.helpers = Names(), set()
        for name in self.prototypes:
            self.names.take(name)
        self.reserve_helpers()
        self.keeps = keepers(self.module.functions, self.given)
        self.tables = {name: self.names.fresh('bytes_' + of_path(name), 'bytes_') for name in self.module.tables}
        self.functions = {f.name: self.name_for(f) for f in self.module.functions}

    def reserve_helpers(self):
        for word in ('load', 'store', 'umin', 'umax', 'smin', 'smax', 'ctlz', 'cttz', 'ctpop', 'bswap', 'signed', 'negative', 'sdiv',
                     'srem', 'usub_sat', 'uadd_sat'):
            for n in (8, 16, 24, 32, 40, 48, 56, 64, 128):
                self.names.take('%s%d' % (word, n))
        for n in (16, 32, 64, 128):
            for word in ('load%d_aligned', 'store%d_aligned', 'any%d'):
                self.names.take(word % n)
        for word in ('move', 'load_pointer', 'store_pointer', 'load_pointer_aligned', 'store_pointer_aligned', 'moved'):
            self.names.take(word)

    def name_for(self, function):
        if not function.is_exported:
            return self.names.fresh(of_path(function.name), 'f_')
        if self.prototype_of(function) is None:
            raise function.line.refused('a function that the inner header lacks')
        if any(kind.startswith('int') for kind in self.prototype_of(function).types):
            raise function.line.refused('a signed number comes in: here they are unsigned')
        return function.name

    def prototype_of(self, function):
        return self.prototypes.get(function.name) if function.is_exported else None

    def foreign(self, name):
        return self.given.get(name)

    def function_name(self, name):
        if name not in self.functions:
            raise Refused('a call of what is nowhere')
        return self.functions[name]

    def signature(self, function, names):
        prototype = self.prototype_of(function)
        if prototype is None:
            given = ', '.join(declared(p.type, name) for p, name in zip(function.parameters, names)) or 'void'
            apart = 'KELIFANDRO_APART ' if function.is_apart else ''
            return 'static %s%s(%s)' % (apart, declared(function.type, self.functions[function.name]), given)
        given = ', '.join(kind + ('' if kind.endswith('*') else ' ') + name for kind, name in zip(prototype.types, names))
        return '%s %s(%s)' % (prototype.result, prototype.name, given)

    def function_text(self, function):
        lines = FunctionWriter(function, self).write()
        return '/* %s */\n%s\n' % (function.name.replace('*/', '* /'), '\n'.join(lines))

    def declaration(self, function):
        names = ['a%d' % n for n in range(len(function.parameters))]
        return self.signature(function, names) + ';'

    def table_text(self, name):
        values = self.module.tables[name]
        rows = [', '.join(map(str, values[k:k + IN_A_ROW])) for k in range(0, len(values), IN_A_ROW)]
        return 'static const KELIFANDRO_ROOM uint8_t %s[%d] = {\n    %s,\n};\n' % (self.tables[name], len(values), ',\n    '.join(rows))

    def struct_texts(self):
        """The structs that the functions hand over."""
        found = {}
        for function in self.module.functions:
            for kind in [function.type] + [made.type for made in function.instructions()]:
                if isinstance(kind, tuple) and kind[0] == 'struct':
                    found[struct_name(kind)] = kind
        for name, kind in sorted(found.items()):
            fields = '\n'.join('    %s;' % declared(field, 'f%d' % n) for n, field in enumerate(kind[1:]))
            yield '%s {\n%s\n};\n' % (name, fields)

    def text(self):
        """The whole file."""
        bodies = [self.function_text(function) for function in self.module.functions]
        all_text = '\n'.join(bodies)
        uses_128 = bool(re.search(r'\bu128', all_text)) or any('128' in name for name in self.helpers)
        parts = [HEAD] + ([TYPE_128] if uses_128 else []) + list(self.struct_texts())
        parts += [text + '\n' for text in texts_of(self.helpers, uses_128)]
        parts += [self.table_text(name) for name in self.module.tables if re.search(r'\b%s\b' % self.tables[name], all_text)]
        parts.append('\n'.join(self.declaration(f) for f in self.module.functions if not f.is_exported) + '\n')
        return '\n'.join(parts + bodies)
