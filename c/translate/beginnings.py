"""What local arrays hold before anything is written to them.

The Rattle compiler begins each function by zeroing all of its arrays, a sixth of all code. In Rattle nothing is read before it was
written, so what they hold at first is of no weight: the zeroing goes. tests/generated fills them with other bytes instead and has to see
the same calls, records and cards."""
import re

PLACE = re.compile(r'  (%\S+) = alloca \[(\d+) x i8\]')
ZEROING = re.compile(r'  call void @llvm\.memset\.p0\.i64\(ptr (%\S+), i8 0, i64 (\d+), i1 false\)$')
NAME = re.compile(r'%[-\w$.]+')


def begun(lines, byte):
    """The lines of a module where each array is filled with this byte at first, or left as it is where there is none. A beginning is
    what names an array first, and zeroes the whole of it."""
    untouched = {}
    for line in lines:
        place, zeroing = PLACE.match(line), ZEROING.match(line)
        if place:
            untouched[place.group(1)] = place.group(2)
        elif zeroing and untouched.get(zeroing.group(1)) == zeroing.group(2):
            del untouched[zeroing.group(1)]
            if byte is None:
                continue
            line = line.replace('i8 0,', 'i8 %d,' % byte)
        else:
            for name in NAME.findall(line) if untouched else ():
                untouched.pop(name, None)
        if line == '}':
            untouched = {}
        yield line
