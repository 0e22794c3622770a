"""QEMU's virt board for aarch64 with U-Boot on it, an SD host controller on PCI and a card."""
import mmap
import os
import select
import shutil
import subprocess
import time

PROMPT = b"\n=> "
RAM = 0x40000000
RAM_SIZE = 256 << 20
# Capabilities of QEMU's controller with 64-bit addresses (bit 28), as U-Boot's own ADMA driver wants them on aarch64.
CAPABILITIES = "0x157834b4"
# Each instruction takes 2 to this power nanoseconds of virtual time, and waiting takes none: 10 lets timeouts pass quickly.
FAST = 10


class Lost(Exception):
    """U-Boot doesn't answer."""


class Machine:
    def __init__(self, program, image, folder, shift=None):
        self.ram = os.path.join(folder, "ram")
        with open(self.ram, "wb") as file:
            file.truncate(RAM_SIZE)
        words = ["qemu-system-aarch64", "-machine", "virt,memory-backend=ram", "-cpu", "cortex-a57", "-m", "256M",
                 "-object", "memory-backend-file,id=ram,size=256M,share=on,mem-path=" + self.ram,
                 "-display", "none", "-monitor", "none", "-nodefaults", "-serial", "stdio", "-no-reboot", "-bios", str(program),
                 "-global", "sdhci-pci.capareg=" + CAPABILITIES,
                 "-drive", "if=none,id=card,format=raw,file.locking=off,file=" + str(image),
                 "-device", "sdhci-pci", "-device", "sd-card,drive=card"]
        if shift is not None:
            words += ["-icount", "shift=%d,align=off,sleep=off" % shift]
        self.process = subprocess.Popen(words, stdin=subprocess.PIPE, stdout=subprocess.PIPE, stderr=subprocess.STDOUT, bufsize=0,
                                        env={**os.environ, "QEMU_AUDIO_DRV": "none"})
        self.rest = b""
        self.until(PROMPT, 60)
        with open(self.ram, "r+b") as file:
            self.memory = mmap.mmap(file.fileno(), RAM_SIZE)

    def __enter__(self):
        return self

    def __exit__(self, *what):
        self.process.kill()
        self.process.wait()

    def until(self, mark, seconds):
        """What is told up to this mark."""
        last = time.monotonic() + seconds
        while mark not in self.rest:
            if not select.select([self.process.stdout], [], [], max(0, last - time.monotonic()))[0]:
                raise Lost("no %r within %d seconds; the last was: %s" % (mark, seconds, self.rest[-400:].decode(errors="replace")))
            got = os.read(self.process.stdout.fileno(), 65536)
            if not got:
                raise Lost("QEMU ended: " + self.rest[-400:].decode(errors="replace"))
            self.rest += got
        told, self.rest = self.rest.split(mark, 1)
        return told.decode(errors="replace").replace("\r", "")

    def type(self, text):
        self.process.stdin.write(text.encode())

    def say(self, command, seconds=60):
        """Types a command; what it tells, without the command itself."""
        self.type(command + "\r")
        told = self.until(PROMPT, seconds)
        return told[told.find("\n") + 1:]

    def bytes_at(self, address, n):
        return self.memory[address - RAM:address - RAM + n]


def missing():
    """Debian's packages that are missing."""
    tools = {"qemu-system-aarch64": "qemu-system-arm", "mcopy": "mtools", "mkfs.vfat": "dosfstools", "mkfs.ext4": "e2fsprogs"}
    path = os.environ.get("PATH", "") + ":/usr/sbin:/sbin"
    return sorted({package for tool, package in tools.items() if shutil.which(tool, path=path) is None})
