"""A session over two pipes, in which each message of the protocol is spelled by hand."""
import os
import queue
import random
import select
import struct
import subprocess
import tempfile
import threading
import time

from trial import Broken

# Seconds for each message. A busy machine is late, and a program that hangs never answers.
LIMIT = 30

EXPORT_NAME, ABORT, LIST, INFO, GO = 1, 2, 3, 6, 7
ACK, SERVER, INFORMATION = 1, 2, 3
ERROR_UNSUPPORTED, ERROR_INVALID, ERROR_UNKNOWN = 0x80000001, 0x80000003, 0x80000006
EXPORT, BLOCK_SIZE = 0, 3
FIXED_NEWSTYLE, NO_ZEROES = 1, 2

READ, WRITE, DISC, FLUSH, TRIM, WRITE_ZEROES = 0, 1, 2, 3, 4, 6
FUA, NO_HOLE = 1, 2
EPERM, EIO, EINVAL, ENOTSUP = 1, 5, 22, 95

HAS_FLAGS, READ_ONLY, SEND_FLUSH, SEND_FUA, SEND_TRIM, SEND_WRITE_ZEROES = 1, 2, 4, 8, 32, 64


def option_bytes(option, data=b""):
    return b"IHAVEOPT" + struct.pack(">II", option, len(data)) + data


def information_bytes(name, wanted=(BLOCK_SIZE,)):
    """The data of INFO and of GO."""
    return struct.pack(">I", len(name)) + name.encode() + struct.pack(f">H{len(wanted)}H", len(wanted), *wanted)


def request_bytes(kind, cookie, offset, length, data=b"", flags=0):
    return struct.pack(">IHHQQI", 0x25609513, flags, kind, cookie, offset, length) + data


class Session:
    def __init__(self, trial, card, *words, before=()):
        self.errors = tempfile.TemporaryFile()
        self.process = subprocess.Popen([*before, trial.program, "nbd", "--card", card, *words], stdin=subprocess.PIPE,
                                        stdout=subprocess.PIPE, stderr=self.errors, bufsize=0)
        self.output = self.process.stdout.fileno()
        self.pending = {}
        self.last = "the greeting"
        self.cookies = random.Random(20)
        self.outgoing = queue.Queue()
        threading.Thread(target=self.send_all, daemon=True).start()

    def __enter__(self):
        return self

    def __exit__(self, *_):
        """The test is over: what still runs is ended."""
        if self.process.poll() is None:
            self.process.kill()
        self.process.wait()
        self.outgoing.put(None)
        self.process.stdout.close()
        self.errors.close()

    def send_all(self):
        """Writes what is queued: the program may be slow to read while its replies wait to be read here."""
        try:
            while (data := self.outgoing.get()) is not None:
                while data:
                    data = data[os.write(self.process.stdin.fileno(), data):]
            self.process.stdin.close()
        except (OSError, ValueError):
            pass

    def send(self, data):
        self.outgoing.put(memoryview(data))

    def close_input(self):
        self.outgoing.put(None)

    def close_output(self):
        self.process.stdout.close()

    def receive_some(self, most):
        """Some bytes, or none at the end of the output."""
        if not select.select([self.output], [], [], LIMIT)[0]:
            raise Broken(f"nothing comes within {LIMIT} seconds behind {self.last}")
        return os.read(self.output, most)

    def receive(self, count):
        parts, missing = [], count
        while missing:
            part = self.receive_some(min(missing, 1 << 20))
            if not part:
                raise Broken(f"the output ends {missing} bytes too early behind {self.last}, with {self.lines()}")
            parts.append(part)
            missing -= len(part)
        return b"".join(parts)

    def lines(self):
        """Those of standard error."""
        self.errors.seek(0)
        return self.errors.read().decode("latin-1").splitlines()

    def ended(self):
        """What still came, the exit status, and the lines of standard error. Nothing of the input is closed here."""
        rest = b""
        if not self.process.stdout.closed:
            while part := self.receive_some(1 << 20):
                rest += part
        try:
            status = self.process.wait(LIMIT)
        except subprocess.TimeoutExpired:
            raise Broken(f"the program hasn't ended within {LIMIT} seconds") from None
        return rest, status, self.lines()

    def greet(self, flags=FIXED_NEWSTYLE | NO_ZEROES):
        greeting = self.receive(18)
        self.send(struct.pack(">I", flags))
        return greeting

    def send_option(self, option, data=b""):
        self.last = f"option {option} with {len(data)} bytes"
        self.send(option_bytes(option, data))

    def option_reply(self, option):
        magic, of, kind, length = struct.unpack(">QIII", self.receive(20))
        if (magic, of) != (0x3E889045565A9, option):
            raise Broken(f"a reply with magic {magic:x} to option {of}, where option {option} was sent")
        return kind, self.receive(length)

    def option_replies(self, option):
        """The replies to an option, up to an acknowledgement or an error."""
        replies = [self.option_reply(option)]
        while replies[-1][0] != ACK and replies[-1][0] < 1 << 31:
            replies.append(self.option_reply(option))
        return replies

    def exports(self):
        self.send_option(LIST)
        *servers, last = self.option_replies(LIST)
        names = [data[4:4 + int.from_bytes(data[:4], "big")].decode() for kind, data in servers if kind == SERVER]
        return names, last

    def information(self, option, name, wanted=(BLOCK_SIZE,)):
        """What INFO or GO tells of an export: by kind, and the last reply."""
        self.send_option(option, information_bytes(name, wanted))
        *told, last = self.option_replies(option)
        return {int.from_bytes(data[:2], "big"): data[2:] for kind, data in told if kind == INFORMATION}, last

    def go(self, name=""):
        """Comes to the requests by the shortest way."""
        self.greet()
        told, last = self.information(GO, name)
        if last != (ACK, b""):
            raise Broken(f"GO to {name!r} is answered {last}")
        return struct.unpack(">QH", told[EXPORT])

    def spell(self, kind, offset=0, length=0, data=b"", flags=0, cookie=None):
        """A request under a cookie of its own, whose reply is expected from now on."""
        cookie = self.cookies.getrandbits(64) if cookie is None else cookie
        self.pending[cookie] = length if kind == READ else 0
        self.last = f"request {kind} of {length} at {offset}"
        return cookie, request_bytes(kind, cookie, offset, length, data, flags)

    def reply(self):
        """The next reply, whose cookie has to be one that still waits: cookie, error, data."""
        magic, error, cookie = struct.unpack(">IIQ", self.receive(16))
        if magic != 0x67446698:
            raise Broken(f"a reply begins with {magic:08x} behind {self.last}")
        if cookie not in self.pending:
            raise Broken(f"a reply under cookie {cookie:016x}, under which no request waits, behind {self.last}")
        length = self.pending.pop(cookie)
        return cookie, error, self.receive(length) if error == 0 else b""

    def ask(self, kind, offset=0, length=0, data=b"", flags=0):
        """One request alone: its error and its data."""
        self.send(self.spell(kind, offset, length, data, flags)[1])
        return self.reply()[1:]

    def read(self, offset, length):
        return self.ask(READ, offset, length)

    def write(self, offset, data, flags=0):
        return self.ask(WRITE, offset, len(data), data, flags)[0]

    def disconnect(self):
        self.send(request_bytes(DISC, 0, 0, 0))
        return self.ended()


def ends_well(trial, name, session):
    """A client that leaves gets nothing more, and the program ends with status 0 and no word, though its input stays open."""
    trial.want(f"{name}: the end", session.disconnect(), (b"", 0, []))


def ends_badly(trial, name, session, said=1):
    """What breaks the session off is one line on standard error, or so many, and status 2."""
    rest, status, lines = session.ended()
    trial.want(f"{name}: status, lines, how they begin", (status, len(lines), [line[:10] for line in lines]), (2, said, ["cardtool: "] * said))
    return rest
