"""Small functions of IR, one or more for each instruction, width and predicate that c/translate takes, and a C program that calls each one
twice, as C and as the toolchain's own back end has it, on values at the edges and some between.

    instructions.py FOLDER    writes c.ll, ir.ll, functions.h and functions.inc there

Each function takes two numbers and 64 bytes of memory and answers a number; numbers and memory have to be the same after it."""
import sys
from pathlib import Path

WIDTHS = (8, 16, 32, 64, 128, 7, 24, 33, 56, 1)
BINARY = 'add sub mul udiv urem sdiv srem and or xor shl lshr ashr'.split()
PREDICATES = 'eq ne ult ule ugt uge slt sle sgt sge'.split()
LEFT_OUT = {128: set('mul udiv urem sdiv srem ashr'.split()), 1: set('udiv urem sdiv srem shl lshr ashr'.split())}
LEFT_OUT.update({n: {'sdiv', 'srem'} for n in (7, 24, 33, 56)})
HEAD = 'define i64 @PRE_%s(i64 noundef %%a, i64 noundef %%b, ptr noundef %%m) {'
functions = []


def function(name, lines, before=''):
    """A function of these lines; what stands before it are tables and functions of its own."""
    body = '\n'.join('  ' + line if not line.endswith(':') else line for line in lines)
    functions.append((name, before.replace('NAME', name), HEAD % name + '\n' + body.replace('NAME', name) + '\n}\n'))


def narrowed(n, value, name):
    """A number of so many bits of one of the two."""
    if n == 64:
        return ['%%%s = add i64 %%%s, 0' % (name, value)]
    if n < 64:
        return ['%%%s = trunc i64 %%%s to i%d' % (name, value, n)]
    other = 'b' if value == 'a' else 'a'
    return ['%%%sh = zext i64 %%%s to i128' % (name, value), '%%%ss = shl i128 %%%sh, 64' % (name, name),
            '%%%sl = zext i64 %%%s to i128' % (name, other), '%%%s = or disjoint i128 %%%ss, %%%sl' % (name, name, name)]


def widened(n, name='r', high=False):
    """Answers a number of so many bits, or of one of 128 the high half."""
    if n == 64:
        return ['ret i64 %%%s' % name]
    if n < 64:
        return ['%%out = zext i%d %%%s to i64' % (n, name), 'ret i64 %out']
    lines = ['%%sh = lshr i128 %%%s, 64' % name] if high else []
    return lines + ['%%out = trunc i128 %%%s to i64' % ('sh' if high else name), 'ret i64 %out']


def signed(n, value):
    """A number as IR writes it."""
    if n == 1:
        return 'true' if value & 1 else 'false'
    value %= 1 << n
    return str(value - (1 << n) if value >> n - 1 else value)


def constants(n):
    return sorted({signed(n, value) for value in (0, 1, 3, 2 ** (n - 1) - 1, 2 ** (n - 1), 2 ** n - 1, 0x1234567 % 2 ** n)})


def allowed(op, n):
    """Lines that make an operand of y with which the operation has a value."""
    if op in ('shl', 'lshr', 'ashr'):
        return ['%%z = urem i%d %%y, %d' % (n, n) if n != 128 else '%%z = and i%d %%y, 127' % n]
    if op in ('udiv', 'urem', 'sdiv', 'srem'):
        return ['%%y0 = icmp eq i%d %%y, 0' % n, '%%y1 = select i1 %%y0, i%d 3, i%d %%y' % (n, n), '%%y2 = icmp eq i%d %%y1, -1' % n,
                '%%z = select i1 %%y2, i%d 5, i%d %%y1' % (n, n)]
    return []


def is_allowed(op, n, value):
    """Whether the operation has a value with this one as the second."""
    if op in ('shl', 'lshr', 'ashr'):
        return value not in ('true', 'false') and 0 <= int(value) < n
    if op in ('udiv', 'urem', 'sdiv', 'srem'):
        return value not in ('0', '-1')
    return True


def binary(op, n):
    halves = (False, True) if n == 128 else (False,)
    for high in halves:
        lines = narrowed(n, 'a', 'x') + narrowed(n, 'b', 'y') + allowed(op, n)
        name, second = '%s_%d%s' % (op, n, '_high' * high), 'z' if allowed(op, n) else 'y'
        function(name, lines + ['%%r = %s i%d %%x, %%%s' % (op, n, second)] + widened(n, high=high))
        for k, value in enumerate(constants(n)):
            if is_allowed(op, n, value):
                function('%s_by_%d' % (name, k), narrowed(n, 'a', 'x') + ['%%r = %s i%d %%x, %s' % (op, n, value)] + widened(n, high=high))
            function('%s_of_%d' % (name, k), narrowed(n, 'b', 'y') + allowed(op, n)
                     + ['%%r = %s i%d %s, %%%s' % (op, n, value, second)] + widened(n, high=high))
    if op in ('shl', 'lshr', 'ashr'):
        for count in sorted({1, n // 2, n - 1}):
            function('%s_%d_so_far_%d' % (op, n, count),
                     narrowed(n, 'a', 'x') + ['%%r = %s i%d %%x, %d' % (op, n, count)] + widened(n))


def comparison(predicate, n):
    function('%s_%d' % (predicate, n), narrowed(n, 'a', 'x') + narrowed(n, 'b', 'y')
             + ['%%r = icmp %s i%d %%x, %%y' % (predicate, n)] + widened(1))
    for k, value in enumerate(constants(n)):
        function('%s_%d_with_%d' % (predicate, n, k), narrowed(n, 'a', 'x') + ['%%r = icmp %s i%d %%x, %s' % (predicate, n, value)] + widened(1))
        function('%s_%d_of_%d' % (predicate, n, k), narrowed(n, 'a', 'x') + ['%%r = icmp %s i%d %s, %%x' % (predicate, n, value)] + widened(1))
    # as conditions of jumps, one way and the other
    function('%s_%d_jumps' % (predicate, n), narrowed(n, 'a', 'x') + narrowed(n, 'b', 'y')
             + ['%%c = icmp %s i%d %%x, %%y' % (predicate, n), 'br i1 %c, label %then, label %end', 'then:', 'store i8 1, ptr %m, align 1',
                'br label %end', 'end:', 'ret i64 0'])


def casts():
    for source in WIDTHS:
        for target in WIDTHS:
            if source < target:
                for op in ('zext', 'sext') if target != 128 else ('zext',):
                    for high in (False, True) if target == 128 else (False,):
                        function('%s_%d_to_%d%s' % (op, source, target, '_high' * high), narrowed(source, 'a', 'x')
                                 + ['%%r = %s i%d %%x to i%d' % (op, source, target)] + widened(target, high=high))
            elif source > target:
                function('trunc_%d_to_%d' % (source, target), narrowed(source, 'a', 'x')
                         + ['%%r = trunc i%d %%x to i%d' % (source, target)] + widened(target))


def choices(n):
    lines = narrowed(n, 'a', 'x') + narrowed(n, 'b', 'y')
    function('select_%d' % n, lines + ['%c = icmp ult i64 %a, %b', '%%r = select i1 %%c, i%d %%x, i%d %%y' % (n, n)] + widened(n))
    for k, value in enumerate(constants(n)):
        function('select_%d_or_%d' % (n, k), narrowed(n, 'a', 'x')
                 + ['%c = icmp ult i64 %a, %b', '%%r = select i1 %%c, i%d %%x, i%d %s' % (n, n, value)] + widened(n))
        function('select_%d_and_%d' % (n, k), narrowed(n, 'a', 'x')
                 + ['%c = icmp ult i64 %a, %b', '%%r = select i1 %%c, i%d %s, i%d %%x' % (n, value, n)] + widened(n))
    function('freeze_%d' % n, narrowed(n, 'a', 'x') + ['%%r = freeze i%d %%x' % n] + widened(n))


def intrinsics():
    for n in (8, 16, 32, 64):
        for op in ('umin', 'umax', 'smin', 'smax', 'usub.sat', 'uadd.sat'):
            function('%s_%d' % (op.replace('.', '_'), n), narrowed(n, 'a', 'x') + narrowed(n, 'b', 'y')
                     + ['%%r = call i%d @llvm.%s.i%d(i%d %%x, i%d %%y)' % (n, op, n, n, n)] + widened(n))
            function('%s_%d_with' % (op.replace('.', '_'), n), narrowed(n, 'a', 'x')
                     + ['%%r = call i%d @llvm.%s.i%d(i%d %%x, i%d 100)' % (n, op, n, n, n)] + widened(n))
        for op in ('ctlz', 'cttz'):
            function('%s_%d' % (op, n), narrowed(n, 'a', 'x')
                     + ['%%r = call i%d @llvm.%s.i%d(i%d %%x, i1 false)' % (n, op, n, n)] + widened(n))
        for op in ('ctpop', 'bswap') if n > 8 else ('ctpop',):
            function('%s_%d' % (op, n), narrowed(n, 'a', 'x') + ['%%r = call i%d @llvm.%s.i%d(i%d %%x)' % (n, op, n, n)] + widened(n))
    for high in (False, True):
        function('bswap_128' + '_high' * high, narrowed(128, 'a', 'x') + ['%r = call i128 @llvm.bswap.i128(i128 %x)'] + widened(128, high=high))


def memory():
    for n in (8, 16, 24, 32, 40, 48, 56, 64, 128):
        for place in (0, 1, 3, 5):
            at = '%%p = getelementptr inbounds i8, ptr %%m, i64 %d' % place
            function('load_%d_at_%d' % (n, place), [at, '%%r = load i%d, ptr %%p, align 1' % n] + widened(n, high=n == 128 and place == 1))
            function('store_%d_at_%d' % (n, place), narrowed(n, 'a', 'x') + [at, 'store i%d %%x, ptr %%p, align 1' % n, 'ret i64 0'])
        for k, value in enumerate(constants(n)):
            function('store_%d_of_%d' % (n, k), ['store i%d %s, ptr %%m, align 1' % (n, value), 'ret i64 0'])
    count = ['%n = and i64 %b, 15', '%i = and i64 %a, 15']
    for op in ('memcpy', 'memmove'):
        for size in ('%n', '1', '7', '8', '16', '24'):
            function('%s_%s' % (op, size.strip('%')), count + ['%to = getelementptr i8, ptr %m, i64 41', '%from = getelementptr i8, ptr %m, i64 %i',
                     'call void @llvm.%s.p0.p0.i64(ptr %%to, ptr %%from, i64 %s, i1 false)' % (op, size), 'ret i64 0'])
    for size in ('%n', '1', '8', '17', '32', '33', '40'):
        for to, start in (('%m', '%p'), ('%p', '%m')):
            function('move_%s_%s' % (size.strip('%'), 'up' if to == '%p' else 'down'), count + ['%p = getelementptr i8, ptr %m, i64 %i',
                     'call void @llvm.memmove.p0.p0.i64(ptr %s, ptr %s, i64 %s, i1 false)' % (to, start, size), 'ret i64 0'])
    for size in ('%n', '5', '64'):
        function('memset_%s' % size.strip('%'), count + ['%v = trunc i64 %a to i8',
                 'call void @llvm.memset.p0.i64(ptr %%m, i8 %%v, i64 %s, i1 false)' % size, 'ret i64 0'])


def addresses():
    index = ['%i = and i64 %a, 7', '%j = and i64 %b, 7', '%k = sub i64 0, %j', '%mid = getelementptr inbounds i8, ptr %m, i64 16']
    for n in (8, 16, 32, 64):
        function('step_%d' % n, index + ['%%p = getelementptr inbounds nuw i%d, ptr %%m, i64 %%i' % n, '%r = load i8, ptr %p, align 1'] + widened(8))
        function('step_%d_down' % n, index + ['%%q = getelementptr i%d, ptr %%m, i64 %d' % (n, 448 // n),
                 '%%p = getelementptr i%d, ptr %%q, i64 %%k' % n, '%r = load i8, ptr %p, align 1'] + widened(8))
    function('step_back', index + ['%q = getelementptr i8, ptr %mid, i64 -3', '%s = getelementptr i8, ptr %q, i64 -2',
             '%r = load i16, ptr %s, align 1'] + widened(16))
    function('address_same', index + ['%p = getelementptr i8, ptr %m, i64 %i', '%q = getelementptr i8, ptr %m, i64 %j',
             '%r = icmp eq ptr %p, %q'] + widened(1))
    function('address_other', ['%r = icmp ne ptr %m, null'] + widened(1))
    function('address_of_two', index + ['%c = icmp ult i64 %a, %b', '%p = select i1 %c, ptr %m, ptr %mid', '%r = load i32, ptr %p, align 1'] + widened(32))
    function('address_kept', ['%room = alloca [16 x i8], align 8', '%c = icmp ult i64 %a, %b', '%n = getelementptr i8, ptr %m, i64 9',
             '%p = select i1 %c, ptr %m, ptr %n', '%at = getelementptr i8, ptr %room, i64 8', 'store ptr %p, ptr %at, align 8',
             '%q = load ptr, ptr %at, align 8', '%r = load i32, ptr %q, align 1'] + widened(32))
    function('table_of_bytes', index + ['%p = getelementptr inbounds i8, ptr @PRE_NAME.t, i64 %i', '%r = load i8, ptr %p, align 1'] + widened(8),
             '@PRE_NAME.t = private unnamed_addr constant [8 x i8] c"a\\22\\\\z\\00\\FFb\\0A", align 1\n')
    for n in (16, 32, 64):
        numbers = ', '.join('i%d %s' % (n, signed(n, 0x123456789abcdef * k)) for k in range(8))
        function('table_of_%d' % n, index + ['%%p = getelementptr inbounds nuw i%d, ptr @PRE_NAME.t, i64 %%i' % n,
                 '%%r = load i%d, ptr %%p, align 4' % n] + widened(n), '@PRE_NAME.t = internal constant [8 x i%d] [%s], align 8\n' % (n, numbers))
    function('table_of_zeros', index + ['%p = getelementptr inbounds i8, ptr @PRE_NAME.t, i64 %i', '%r = load i8, ptr %p, align 1'] + widened(8),
             '@PRE_NAME.t = private constant [8 x i8] zeroinitializer\n')


def loops():
    start = ['%n = and i64 %b, 7', 'br label %loop', 'loop:']
    count = ['%i = phi i64 [ 0, %0 ], [ %j, %loop ]']
    end = ['%j = add i64 %i, 1', '%c = icmp ult i64 %j, %n', 'br i1 %c, label %loop, label %end', 'end:']
    function('phi_swapped', start + count + ['%x = phi i64 [ %a, %0 ], [ %y, %loop ]', '%y = phi i64 [ %b, %0 ], [ %x, %loop ]'] + end
             + ['%s = mul i64 %x, 3', '%r = add i64 %s, %y', 'ret i64 %r'])
    function('phi_of_three', start + count + ['%x = phi i64 [ %a, %0 ], [ %y, %loop ]', '%y = phi i64 [ %b, %0 ], [ %z, %loop ]',
             '%z = phi i64 [ 77, %0 ], [ %x, %loop ]'] + end + ['%s = mul i64 %x, 3', '%t = mul i64 %y, 5', '%u = add i64 %s, %t',
             '%r = add i64 %u, %z', 'ret i64 %r'])
    function('phi_in_a_row', start + count + ['%x = phi i64 [ %a, %0 ], [ %y, %loop ]', '%y = phi i64 [ %b, %0 ], [ %i, %loop ]'] + end
             + ['%s = mul i64 %x, 3', '%r = add i64 %s, %y', 'ret i64 %r'])
    function('phi_of_any', ['br label %loop', 'loop:', '%i = phi i64 [ 0, %0 ], [ 1, %loop ]', '%x = phi i64 [ %a, %0 ], [ undef, %loop ]',
             '%y = phi i64 [ %b, %0 ], [ %x, %loop ]', '%c = icmp eq i64 %i, 0', 'br i1 %c, label %loop, label %end', 'end:', 'ret i64 %y'])
    function('phi_used_after', start + count + ['%x = phi i64 [ %a, %0 ], [ %y, %loop ]', '%y = add i64 %x, %i'] + end
             + ['%old = phi i64 [ %x, %loop ]', '%r = sub i64 %y, %old', 'ret i64 %r'])
    function('phi_of_addresses', ['%n = and i64 %b, 7', 'br label %loop', 'loop:', '%p = phi ptr [ %m, %0 ], [ %q, %loop ]',
             '%o = phi ptr [ %m, %0 ], [ %s, %loop ]'] + count + ['%q = getelementptr i8, ptr %p, i64 3', '%s = getelementptr i8, ptr %p, i64 1',
             '%t = trunc i64 %i to i8', 'store i8 %t, ptr %o, align 1'] + end + ['%v = load i16, ptr %q, align 1'] + widened(16, 'v'))
    function('loop_in_loop', ['%n = and i64 %b, 7', 'br label %outer', 'outer:', '%i = phi i64 [ 0, %0 ], [ %i2, %next ]',
             '%s = phi i64 [ %a, %0 ], [ %s3, %next ]', 'br label %inner', 'inner:', '%j = phi i64 [ 0, %outer ], [ %j2, %inner ]',
             '%s2 = phi i64 [ %s, %outer ], [ %t, %inner ]', '%u = mul i64 %s2, 31', '%t = add i64 %u, %j', '%j2 = add i64 %j, 1',
             '%c = icmp ule i64 %j2, %i', 'br i1 %c, label %inner, label %next', 'next:', '%s3 = xor i64 %t, %i', '%i2 = add i64 %i, 1',
             '%d = icmp ult i64 %i2, %n', 'br i1 %d, label %outer, label %end', 'end:', 'ret i64 %s3'])


def switches():
    for n in (8, 16, 32, 64, 7, 128):
        cases = ' '.join('i%d %s, label %%%s' % (n, signed(n, value), block) for value, block in
                         ((0, 'one'), (1, 'two'), (2, 'end'), (2 ** n - 1, 'two'), (2 ** (n - 1), 'one')))
        function('switch_%d' % n, narrowed(n, 'a', 'x') + ['switch i%d %%x, label %%other [ %s ]' % (n, cases), 'one:', 'br label %end', 'two:',
                 'store i8 9, ptr %m, align 1', 'br label %end', 'other:', '%o = add i64 %b, 5', 'br label %end', 'end:',
                 '%r = phi i64 [ 1, %0 ], [ 2, %one ], [ 3, %two ], [ %o, %other ]', 'ret i64 %r'])
        function('switch_%d_to_its_other' % n, narrowed(n, 'a', 'x') + ['switch i%d %%x, label %%end [ %s ]' % (n, cases), 'one:', 'br label %end',
                 'two:', 'br label %end', 'end:', '%r = phi i64 [ 1, %0 ], [ 1, %0 ], [ 2, %one ], [ %b, %two ]', 'ret i64 %r'])
    deep = []
    for k in range(14):
        deep += ['%%c%d = icmp ugt i64 %%a, %d' % (k, 1 << k), 'br i1 %%c%d, label %%t%d, label %%o%d' % (k, k, k), 'o%d:' % k,
                 'store i8 %d, ptr %%m, align 1' % k, 'br label %end', 't%d:' % k, '%%s%d = add i64 %%b, %d' % (k, k)]
    ways = ', '.join('[ %s, %%o%d ]' % ('%%s%d' % (k - 1) if k else '7', k) for k in range(14))
    function('deep', deep + ['br label %end', 'end:', '%%r = phi i64 %s, [ %%s13, %%t13 ]' % ways, 'ret i64 %r'])
    function('same_way_twice', ['%c = icmp ult i64 %a, %b', 'br i1 %c, label %end, label %end', 'end:', 'ret i64 %a'])
    function('never', ['%c = icmp ult i64 %a, %a', 'br i1 %c, label %no, label %end', 'no:', 'unreachable', 'end:', 'ret i64 %b'])


def structs_and_calls():
    two = ('define internal fastcc { i64, i1 } @PRE_NAME.f(i64 %x, i64 %y) unnamed_addr {\n  %c = icmp slt i64 %x, %y\n'
           '  %s = insertvalue { i64, i1 } poison, i64 %x, 0\n  %t = insertvalue { i64, i1 } %s, i1 %c, 1\n  ret { i64, i1 } %t\n}\n')
    function('struct_of_two', ['%s = tail call fastcc { i64, i1 } @PRE_NAME.f(i64 %a, i64 %b)', '%x = extractvalue { i64, i1 } %s, 0',
             '%c = extractvalue { i64, i1 } %s, 1', '%r = select i1 %c, i64 %x, i64 99', 'ret i64 %r'], two)
    function('struct_changed', ['%s = call fastcc { i64, i1 } @PRE_NAME.f(i64 %a, i64 %b)', '%u = insertvalue { i64, i1 } %s, i64 %b, 0',
             '%x = extractvalue { i64, i1 } %u, 0', '%c = extractvalue { i64, i1 } %u, 1', '%r = select i1 %c, i64 %x, i64 99', 'ret i64 %r'], two)
    many = ('define internal { i8, i16, i32, ptr } @PRE_NAME.f(i128 %x, i8 %y, ptr %p) {\n  %l = trunc i128 %x to i16\n'
            '  %h = lshr i128 %x, 70\n  %k = trunc i128 %h to i32\n  %q = getelementptr i8, ptr %p, i64 4\n'
            '  %s = insertvalue { i8, i16, i32, ptr } poison, i8 %y, 0\n  %t = insertvalue { i8, i16, i32, ptr } %s, i16 %l, 1\n'
            '  %u = insertvalue { i8, i16, i32, ptr } %t, i32 %k, 2\n  %v = insertvalue { i8, i16, i32, ptr } %u, ptr %q, 3\n'
            '  ret { i8, i16, i32, ptr } %v\n}\n')
    function('struct_of_four', narrowed(128, 'a', 'x') + ['%y = trunc i64 %b to i8', '%s = call { i8, i16, i32, ptr } @PRE_NAME.f(i128 %x, i8 %y, ptr %m)',
             '%f0 = extractvalue { i8, i16, i32, ptr } %s, 0', '%f1 = extractvalue { i8, i16, i32, ptr } %s, 1',
             '%f2 = extractvalue { i8, i16, i32, ptr } %s, 2', '%f3 = extractvalue { i8, i16, i32, ptr } %s, 3', 'store i16 %f1, ptr %f3, align 1',
             '%z0 = zext i8 %f0 to i64', '%z2 = zext i32 %f2 to i64', '%h = shl i64 %z2, 8', '%r = or i64 %h, %z0', 'ret i64 %r'], many)
    function('calls_of_nothing', ['call void @PRE_NAME.f(ptr %m)', 'ret i64 %a'],
             'define internal void @PRE_NAME.f(ptr %p) {\n  store i8 -2, ptr %p, align 1\n  ret void\n}\n')
    function('unused_result', ['%s = call i64 @PRE_NAME.f(ptr %m)', 'ret i64 %a'],
             'define internal i64 @PRE_NAME.f(ptr %p) {\n  store i8 -3, ptr %p, align 1\n  ret i64 4\n}\n')
    function('puts', ['%s = trunc i64 %a to i32', '%n = and i64 %b, 31', '%r = call i64 @GIVEN_put(i32 %s, ptr %m, i64 %n)', 'ret i64 %r'])
    function('puts_to_one', ['%r = call i64 @GIVEN_put(i32 -7, ptr %m, i64 8)', '%c = icmp slt i64 %r, 0', '%v = select i1 %c, i64 1, i64 2', 'ret i64 %v'])
    function('gets', ['%s = trunc i64 %a to i32', '%n = and i64 %b, 31', '%r = call i64 @GIVEN_get(i32 %s, ptr %m, i64 %n)', 'ret i64 %r'])


def orders():
    """Loads and stores whose order is to be kept, and places that share room."""
    function('load_before_store', ['%x = load i32, ptr %m, align 1', 'store i32 7, ptr %m, align 1', '%r = add i32 %x, 1'] + widened(32))
    function('load_before_call', ['%x = load i64, ptr %m, align 1', 'call void @llvm.memset.p0.i64(ptr %m, i8 1, i64 8, i1 false)', 'ret i64 %x'])
    function('load_in_a_phi', ['%x = load i32, ptr %m, align 1', 'store i32 7, ptr %m, align 1', '%c = icmp ult i64 %a, %b',
             'br i1 %c, label %then, label %end', 'then:', 'br label %end', 'end:', '%r = phi i32 [ %x, %0 ], [ 3, %then ]'] + widened(32))
    function('long_expression', ['%x0 = add i64 %a, %b'] + ['%%x%d = %s i64 %%x%d, %s' % (k, op, k - 1, '%b' if k % 2 else '%a')
             for k, op in enumerate('xor add mul sub xor add mul sub xor add mul sub'.split(), 1)] + ['ret i64 %x12'])
    use = []
    for name, value in (('p', '%a'), ('q', '%b'), ('s', '%a')):
        use += ['call void @llvm.lifetime.start.p0(ptr %%%s)' % name, 'store i64 %s, ptr %%%s, align 1' % (value, name),
                '%%v%s = load i64, ptr %%%s, align 1' % (name, name), 'call void @llvm.lifetime.end.p0(ptr %%%s)' % name]
    function('rooms_one_after_the_other', ['%p = alloca [8 x i8], align 8', '%q = alloca [16 x i8], align 8', '%s = alloca [8 x i8], align 8']
             + use + ['%t = add i64 %vp, %vq', '%r = xor i64 %t, %vs', 'ret i64 %r'])
    function('rooms_side_by_side', ['%p = alloca [8 x i8], align 8', '%q = alloca [8 x i8], align 8', '%s = alloca [8 x i8], align 8',
             'call void @llvm.lifetime.start.p0(ptr %p)', 'store i64 %a, ptr %p, align 1', 'call void @llvm.lifetime.start.p0(ptr %q)',
             'store i64 %b, ptr %q, align 1', 'store i64 5, ptr %s, align 1', '%x = load i64, ptr %p, align 1', 'call void @llvm.lifetime.end.p0(ptr %p)',
             '%y = load i64, ptr %q, align 1', 'call void @llvm.lifetime.end.p0(ptr %q)', '%z = load i64, ptr %s, align 1',
             '%t = sub i64 %x, %y', '%r = xor i64 %t, %z', 'ret i64 %r'])
    function('rooms_of_two_ways', ['%p = alloca [8 x i8], align 8', '%q = alloca [8 x i8], align 8', 'call void @llvm.lifetime.start.p0(ptr %p)',
             'store i64 %a, ptr %p, align 1', '%c = icmp ult i64 %a, %b', 'br i1 %c, label %then, label %end', 'then:',
             'call void @llvm.lifetime.start.p0(ptr %q)', 'store i64 %b, ptr %q, align 1', '%y = load i64, ptr %q, align 1',
             'call void @llvm.lifetime.end.p0(ptr %q)', 'br label %end', 'end:', '%w = phi i64 [ 4, %0 ], [ %y, %then ]',
             '%x = load i64, ptr %p, align 1', 'call void @llvm.lifetime.end.p0(ptr %p)', '%r = xor i64 %x, %w', 'ret i64 %r'])


def main(folder):
    for n in WIDTHS:
        for op in BINARY:
            if op not in LEFT_OUT.get(n, ()):
                binary(op, n)
        for predicate in PREDICATES:
            comparison(predicate, n)
        choices(n)
    for make in (casts, intrinsics, memory, addresses, loops, switches, structs_and_calls, orders):
        make()
    text = '\n'.join(before + body for _, before, body in functions)
    folder = Path(folder)
    for name, put, get in (('c', 'write', 'read'), ('ir', 'kelifandro_put', 'kelifandro_get')):
        made = text.replace('PRE_', name + '_').replace('GIVEN_put', put).replace('GIVEN_get', get)
        made += 'declare i64 @%s(i32, ptr, i64)\ndeclare i64 @%s(i32, ptr, i64)\n' % (put, get)
        (folder / (name + '.ll')).write_text(made)
    heads = ['#include <stdint.h>', 'int64_t kelifandro_put(int32_t stream, const uint8_t *bytes, uint64_t n);',
             'int64_t kelifandro_get(int32_t stream, uint8_t *bytes, uint64_t n);']
    heads += ['uint64_t %s_%s(uint64_t a, uint64_t b, void *m);' % (pre, name) for name, _, _ in functions for pre in ('c', 'ir')]
    (folder / 'kelifandro_core.h').write_text('\n'.join(heads) + '\n')
    (folder / 'functions.inc').write_text('\n'.join('{"%s", c_%s, ir_%s},' % (name, name, name) for name, _, _ in functions) + '\n')


main(sys.argv[1])
