"""Writes one function in C."""
from .expressions import Expression, Expressions, at_address, cast, number
from .flow import Folding, Layout, Uses
from .names import Names
from .places import Places
from .reading import Nothing, Refused, bits
from .types import declared, type_of

# Moves of so many bytes at most go by a place of their own; others by a loop.
SHORT_MOVE = 32


def has_nothing(value):
    """A number in it may be any."""
    return isinstance(value.what, Nothing) or isinstance(value.what, tuple) and any(map(has_nothing, value.what))


class FunctionWriter:
    """A function's text, by what the core knows of names, tables, helpers and calls."""

    def __init__(self, function, core):
        self.function, self.core = function, core
        self.uses = Uses(function)
        self.folded = Folding(function, self.uses).folded
        self.layout = Layout(function)
        self.names, self.labels = Names(core.names), Names()
        self.variables, self.label_of, self.declared = {}, {}, set()
        self.expressions = Expressions(self.operand, core.helpers)
        self.lines, self.root, self.next_root = [], None, None

    # values

    def line(self, depth, text):
        self.lines.append('    ' * depth + text)

    def variable(self, name):
        if name not in self.variables:
            self.variables[name] = self.names.fresh(name, 'v')
        return self.variables[name]

    def operand(self, value):
        if value.kind == '#':
            return self.constant(value)
        if value.kind == '@':
            if value.what not in self.core.tables:
                raise Refused('an address of what is no table')
            return Expression('(uint8_t *)' + self.core.tables[value.what])
        made = self.uses.made.get(value.what)
        if made is not None and value.what in self.folded:
            return self.fixed_step(made) if made.is_fixed_step() else self.expressions.of(made)
        name = self.variable(value.what)
        return Expression(name, True, (), [name])

    def constant(self, value):
        if value.type == 'ptr':
            return Expression('(uint8_t *)0')
        if isinstance(value.what, tuple):
            return Expression('(%s){%s}' % (type_of(value.type), ', '.join(self.constant(field).text for field in value.what)))
        if isinstance(value.type, tuple):
            raise Refused('a struct that is constant')
        return number(value.what, value.type)

    def fixed_step(self, made):
        """An address by its whole distance from one that isn't such a step itself."""
        distance = 0
        while True:
            distance += made.values[1].what * made.more
            base = made.values[0]
            below = self.uses.made.get(base.what) if base.kind == '%' else None
            if below is None or not below.is_fixed_step():
                break
            made = below
        distance %= 1 << 64
        start = self.operand(base)
        if distance == 0:
            return start
        sign, step = ('+', distance) if distance < 1 << 63 else ('-', (1 << 64) - distance)
        return Expression('%s %s %d' % (start.bracketed(), sign, step), False, [start])

    # the whole

    def write(self):
        """The function's lines, its head first."""
        places = Places(self.function, self.layout, self.core.keeps)
        roots = [name for name in self.layout.order if name in self.layout.roots]
        parameters = self.parameters()
        for name in self.layout.order:
            self.choose_top(name)
        for number_of, root in enumerate(roots):
            self.root = root
            self.next_root = roots[number_of + 1] if number_of + 1 < len(roots) else None
            self.write_root(root)
        body, self.lines = self.lines, []
        self.line(0, self.core.signature(self.function, parameters))
        self.line(0, '{')
        self.write_declarations(places)
        self.lines += body
        self.line(0, '}')
        return self.lines

    def parameters(self):
        """The names of the parameters. Addresses that C gives as `void *` are read as addresses of bytes."""
        prototype = self.core.prototype_of(self.function)
        names, self.given, self.unused = [], [], []
        for n, parameter in enumerate(self.function.parameters):
            name = self.variable(parameter.what) if prototype is None else self.names.take(prototype.names[n])
            names.append(name)
            if parameter.what not in self.uses.users:
                self.unused.append(name)
            elif prototype is None:
                continue
            elif parameter.type == 'ptr':
                self.given.append((self.variables.setdefault(parameter.what, self.names.fresh(name + '_bytes', 'v')), name))
            else:
                self.variables[parameter.what] = name
        return names

    def choose_top(self, name):
        """A variable that more than one root uses is declared at the function's top, others where they are made."""
        for made in self.layout.blocks[name]:
            if made.name is None or made.op == 'alloca' or made.name in self.folded:
                continue
            roots = {self.layout.root.get(block) for _, block in self.uses.users.get(made.name, [])}
            if made.op != 'phi' and roots <= {self.layout.root[name]}:
                continue
            self.declared.add(made.name)

    def write_declarations(self, places):
        for room in places.rooms:
            self.write_room(room, places.size)
        tops = [made for name in self.layout.order for made in self.layout.blocks[name] if made.name in self.declared]
        for made in tops:
            if made.name in self.variables:
                self.line(1, declared(made.type, self.variables[made.name]) + ';')
        for name, given in self.given:
            self.line(1, 'uint8_t *%s = (uint8_t *)%s;' % (name, given))
        for name in self.unused:
            self.line(1, '(void)%s;' % name)

    def write_room(self, room, sizes):
        """An array of its own, or one that places share, with a name for each."""
        shown = [(place, begin) for place, begin in room if place in self.variables]
        if not shown:
            return
        if len(shown) == 1:
            self.line(1, 'KELIFANDRO_ROOM uint8_t %s[%d];' % (self.variables[shown[0][0]], max(1, sizes[shown[0][0]])))
            return
        name = self.names.fresh('room', 'room')
        self.line(1, 'KELIFANDRO_ROOM uint8_t %s[%d];' % (name, max(begin + sizes[place] for place, begin in shown)))
        for place, begin in shown:
            self.line(1, 'uint8_t *const %s = %s;' % (self.variables[place], '%s + %d' % (name, begin) if begin else name))

    def write_root(self, root):
        if root != self.layout.entry:
            self.line(0, '%s: {' % self.label(root))
            self.write_block(root, 1)
            self.line(0, '}')
        else:
            self.write_block(root, 1)

    def label(self, root):
        if root not in self.label_of:
            self.label_of[root] = self.labels.fresh(root, 'b')
        return self.label_of[root]

    # blocks

    def write_block(self, name, depth):
        """A block and what follows it at the same depth."""
        while name is not None:
            block = self.layout.blocks[name]
            for made in block[:-1]:
                if made.op not in ('phi', 'alloca') and made.name not in self.folded and not made.is_lifetime():
                    self.guarded(self.write_statement, made, depth)
            name = self.guarded(self.write_end, block[-1], name, depth)

    def guarded(self, write, made, *rest):
        """Names the line of what is refused."""
        try:
            return write(made, *rest)
        except Refused as refused:
            raise refused if ', line ' in str(refused) else made.refused(str(refused))

    def write_end(self, last, name, depth):
        """The end of a block. Answers the block that goes on at the same depth, if one does."""
        if last.op == 'ret':
            return self.write_return(last, depth)
        if last.op == 'unreachable':
            return self.write_trap(depth)
        nested, rest = self.layout.shape(name)
        if last.op == 'switch':
            return self.write_switch(last, name, nested, depth)
        if nested:
            self.line(depth, 'if (%s) {' % self.condition(last, nested[0] == last.more[0]))
            self.write_edge(name, nested[0], depth + 1)
            self.line(depth, '}')
        if rest not in self.layout.roots:
            self.write_copies(name, rest, depth)
            return rest
        self.write_edge(name, rest, depth, is_last=depth == 1)
        return None

    def condition(self, last, is_so):
        condition = self.operand(last.values[0])
        if is_so:
            return condition.text
        text = condition.text
        for sign, other in ((' == ', ' != '), (' != ', ' == ')):
            parts = text.split(sign)
            if len(parts) == 2 and not any(c in text for c in '?&|') and text.count('(') == text.count(')') \
                    and all(part.count('(') == part.count(')') for part in parts):
                return other.join(parts)
        return '!' + condition.bracketed()

    def write_return(self, last, depth):
        if not last.values:
            self.line(depth, 'return;')
            return
        value = self.operand(last.values[0])
        prototype = self.core.prototype_of(self.function)
        if prototype is not None and prototype.result.startswith('int'):
            value = self.expressions.helper('signed%d' % bits(self.function.type), value)
        self.line(depth, 'return %s;' % value.text)

    def write_trap(self, depth):
        """Where the proof says that nothing comes."""
        self.core.helpers.add('trap')
        self.line(depth, 'trap();')
        kind = self.function.type
        if kind == 'void':
            self.line(depth, 'return;')
        elif isinstance(kind, tuple):
            self.line(depth, 'return (%s){0};' % type_of(kind))
        else:
            self.line(depth, 'return %s;' % ('u128_of(0u, 0u)' if type_of(kind) == 'u128' else '0'))

    def write_wide_switch(self, last, name, nested, depth):
        """Of over 64 bits, which no `switch` of C takes: each number is compared."""
        otherwise, cases = last.more
        kind = last.values[0].type
        value = self.operand(last.values[0])
        head = 'if'
        for target in sorted(nested, key=lambda target: target == otherwise):
            same = ' || '.join(self.expressions.helper('u128_eq', value, number(n, kind)).text for n, to in cases if to == target)
            self.line(depth, '%s (%s) {' % (head, same) if target != otherwise else 'else {' if head != 'if' else '{')
            self.write_edge(name, target, depth + 1)
            self.line(depth, '}')
            head = 'else if'

    def write_switch(self, last, name, nested, depth):
        otherwise, cases = last.more
        if last.is_wide_switch():
            return self.write_wide_switch(last, name, nested, depth)
        value = self.operand(last.values[0])
        text = '(unsigned)' + value.bracketed() if last.values[0].type == 'i1' else value.text
        self.line(depth, 'switch (%s) {' % text)
        for target in nested:
            numbers = [n for n, to in cases if to == target]
            heads = ['case %s:' % number(n, 'i64').text for n in numbers] if target != otherwise else ['default:']
            for head in heads[:-1]:
                self.line(depth, head)
            self.line(depth, heads[-1] + ' {')
            self.write_edge(name, target, depth + 1)
            self.line(depth, '}')
        self.line(depth, '}')

    def write_edge(self, name, target, depth, is_last=False):
        self.write_copies(name, target, depth)
        if target not in self.layout.roots:
            self.write_block(target, depth)
        elif not (is_last and target == self.next_root):
            self.line(depth, 'goto %s;' % self.label(target))

    def write_copies(self, name, target, depth):
        """Sets the variables of a block's phis, all at once: one that another one reads is set after it, those of a circle by
        variables between."""
        copies = []
        for made in self.layout.blocks[target]:
            if made.op != 'phi':
                break
            given = made.values[made.more.index(name)]
            value = self.guarded(lambda made: self.operand(given), made)
            if value.text != self.variable(made.name):
                copies.append((made.type, self.variable(made.name), value, ' /* any */' * has_nothing(given)))
        while copies:
            free = next((copy for copy in copies if not any(copy[1] in other[2].reads for other in copies if other is not copy)), None)
            if free is None:
                return self.write_circle(copies, depth)
            self.line(depth, '%s = %s;%s' % (free[1], free[2].text, free[3]))
            copies.remove(free)

    def write_circle(self, copies, depth):
        self.line(depth, '{')
        for n, (kind, _, value, any_number) in enumerate(copies):
            self.line(depth + 1, '%s = %s;%s' % (declared(kind, 'next_%d' % n), value.text, any_number))
        for n, (_, name, _, _) in enumerate(copies):
            self.line(depth + 1, '%s = next_%d;' % (name, n))
        self.line(depth, '}')

    # statements

    def define(self, made, text, depth):
        name = self.variable(made.name)
        self.line(depth, '%s = %s;' % (name if made.name in self.declared else declared(made.type, name), text))

    def write_statement(self, made, depth):
        if made.is_pure():
            self.define(made, self.expressions.of(made).text, depth)
        elif made.op == 'store':
            self.write_store(made, depth)
        elif made.op == 'insertvalue':
            self.write_insert(made, depth)
        else:
            self.write_call(made, depth)

    def write_store(self, made, depth):
        value, address = map(self.operand, made.values)
        kind = made.values[0].type
        if kind == 'i8':
            self.line(depth, '%s = %s;' % (at_address(address), value.text))
            return
        name = 'store_pointer' + made.suffix(64) if kind == 'ptr' else 'store%d%s' % (bits(kind), made.suffix(bits(kind)))
        self.line(depth, self.expressions.helper(name, address, value).text + ';')

    def write_insert(self, made, depth):
        """A struct with one field changed; fields without a value are zero."""
        whole, value = made.values
        if whole.kind == '#':
            fields = ['u128_of(0u, 0u)' if type_of(kind) == 'u128' else '0' for kind in made.type[1:]]
        else:
            base = self.operand(whole)
            fields = ['%s.f%d' % (base.bracketed(), n) for n in range(len(made.type) - 1)]
        fields[made.more] = self.operand(value).text
        self.define(made, '(%s){%s}' % (type_of(made.type), ', '.join(fields)), depth)

    def write_call(self, made, depth):
        name = made.intrinsic()
        if name is None:
            return self.write_function_call(made, depth)
        if name == 'trap':
            self.core.helpers.add('trap')
            self.line(depth, 'trap();')
        elif name in ('memcpy', 'memset', 'memmove'):
            self.write_bytes(made, name, depth)
        else:
            raise Refused('an intrinsic that is unknown')

    def write_bytes(self, made, name, depth):
        to, what, count, is_volatile = made.values
        if is_volatile != is_volatile._replace(kind='#', what=0):
            raise Refused('memory that is volatile')
        count_text = '%d' % count.what if count.kind == '#' else '(size_t)' + self.operand(count).bracketed()
        texts = [self.operand(to).text, self.operand(what).text, count_text]
        if name != 'memmove':
            self.line(depth, '%s(%s);' % (name, ', '.join(texts)))
        elif count.kind == '#' and count.what <= SHORT_MOVE:
            self.write_short_move(texts, depth)
        else:
            self.core.helpers.add('move')
            self.line(depth, 'move(%s);' % ', '.join(texts))

    def write_short_move(self, texts, depth):
        to, what, count = texts
        self.line(depth, '{')
        self.line(depth + 1, 'uint8_t moved[%s];' % count)
        self.line(depth + 1, 'memcpy(moved, %s, %s);' % (what, count))
        self.line(depth + 1, 'memcpy(%s, moved, %s);' % (to, count))
        self.line(depth, '}')

    def write_function_call(self, made, depth):
        prototype = self.core.foreign(made.more)
        values = [self.operand(value) for value in made.values]
        if prototype is None:
            text = '%s(%s)' % (self.core.function_name(made.more), ', '.join(value.text for value in values))
        else:
            text = self.foreign_call(made, prototype, values)
        if self.uses.is_used(made):
            self.define(made, text, depth)
        else:
            self.line(depth, text + ';')

    def foreign_call(self, made, prototype, values):
        """A call of what C gives, whose numbers have signs."""
        texts = []
        for kind, value, given in zip(prototype.types, values, made.values):
            if kind.startswith('int') and given.kind != '#':
                value = self.expressions.helper('signed%d' % bits(given.type), value)
            texts.append(value.text if given.kind != '#' else signed_text(given, kind))
        text = '%s(%s)' % (prototype.name, ', '.join(texts))
        return cast(made.type, Expression(text)).text if self.uses.is_used(made) else text


def signed_text(given, kind):
    """A number as a literal of a type of C that may have a sign."""
    size = bits(given.type)
    is_negative = kind.startswith('int') and given.what >> size - 1
    return '%d' % (given.what - (1 << size) if is_negative else given.what)
