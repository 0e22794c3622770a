"""What every part uses: the program, a folder for files, and the count of what was compared."""
import os
import signal
import subprocess
import sys
from pathlib import Path

# Seconds. A busy machine is late, and a program that hangs never comes.
SESSION_LIMIT = 100
CLIENT_LIMIT = 150

# nbdinfo and nbdcopy start a command in brackets with a socket that listens, and not with input and output.
ACCEPT = Path(__file__).resolve().parent / "accept.py"

# A client starts the program by these words: how the session ended is kept in files, since no client tells.
KEEPING = 'note=$1; shift; timeout --foreground "$1" "${@:2}" 2>"$note.errors"; echo $? >"$note.status"'


class Broken(Exception):
    """The program, or a client of it, did what ends a test."""


def shown(value):
    text = repr(value)
    return text if len(text) <= 300 else f"{text[:200]} .. ({len(text)} characters)"


class Trial:
    def __init__(self, program, folder):
        self.program = str(Path(program).resolve())
        self.folder = Path(folder)
        self.tried = self.wrong = self.paths = 0

    def want(self, name, found, wanted):
        self.tried += 1
        if found != wanted:
            self.wrong += 1
            print(f"{name}: found {shown(found)}, wanted {shown(wanted)}", flush=True)

    def attempt(self, function, *words):
        """Makes one test. A program that answers otherwise may break it off at any line: that is one wrong comparison."""
        try:
            function(self, *words)
        except Exception as broken:
            name = " ".join([function.__name__.replace("_", " "), *(word for word in words if isinstance(word, str))])
            self.want(name, f"{type(broken).__name__}: {broken}", "the end of this test")

    def path(self, name):
        """A path for a file that isn't there yet."""
        self.paths += 1
        return str(self.folder / f"{self.paths}-{name}")

    def file(self, name, data):
        path = self.path(name)
        Path(path).write_bytes(data if isinstance(data, bytes) else data.encode())
        return path

    def new(self, *words):
        """The text of a card file that the program makes."""
        done = subprocess.run([self.program, "new", *words], capture_output=True, text=True)
        if done.returncode != 0:
            raise Broken(f"new {' '.join(words)}: status {done.returncode}, {done.stderr!r}")
        return done.stdout

    def client(self, *words):
        """Runs a client: its status, its output and its errors."""
        process = subprocess.Popen(words, stdin=subprocess.DEVNULL, stdout=subprocess.PIPE, stderr=subprocess.PIPE, text=True,
                                   start_new_session=True)
        try:
            output, errors = process.communicate(timeout=CLIENT_LIMIT)
        except subprocess.TimeoutExpired:
            os.killpg(process.pid, signal.SIGKILL)
            process.communicate()
            raise Broken(f"{words[0]} hasn't ended within {CLIENT_LIMIT} seconds") from None
        return process.returncode, output, errors


class Served:
    """The words by which a client starts the program, and how that session ended."""

    def __init__(self, trial, card, *words):
        self.note = trial.path("session")
        self.words = ["bash", "-c", KEEPING, "bash", self.note, str(SESSION_LIMIT), trial.program, "nbd", "--card", card, *words]
        self.bracketed = ["--", "[", sys.executable, str(ACCEPT), *self.words, "]"]

    def ended(self):
        """Exit status and standard error."""
        try:
            return int(Path(self.note + ".status").read_text()), Path(self.note + ".errors").read_text()
        except FileNotFoundError:
            return "no end", ""
