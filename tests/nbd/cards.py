"""Card files: cards of the examples and of `new`, an eMMC device with each partition, and planned faults."""
import random
from pathlib import Path

EXAMPLES = Path(__file__).resolve().parents[2] / "examples"

# 1,024 sectors, erased bytes 00h, erase units of one sector.
SD = (EXAMPLES / "sdhc.card").read_text()
SD_SECTORS = 1024

# It trims, erased bytes FFh.
EMMC = (EXAMPLES / "emmc.card").read_text()
EMMC_SECTORS = {"user": 2048, "boot1": 256, "boot2": 256}

# Of two lines for a byte of the EXT_CSD the last one counts. General purpose partitions are multiples of 1,024 sectors here.
SEVEN = EMMC + "ext 213 18\next 226 02\next 155 01\next 143 01\next 146 02\next 149 03\next 152 05\n"
SEVEN = SEVEN.replace("sectors 2048", "sectors 6144")
SEVEN_SECTORS = {"user": 6144, "boot1": 512, "boot2": 512, "gp1": 1024, "gp2": 2048, "gp3": 3072, "gp4": 5120}

# Only the second general purpose partition is there.
GAP = EMMC + "ext 155 01\next 146 01\n"
GAP_SECTORS = {**EMMC_SECTORS, "gp2": 1024}

# It erases by units of 1,024 sectors, and doesn't trim.
WITHOUT_TRIM = EMMC + "ext 231 00\n"

# It trims, and erased bytes are 00h.
ZEROING = GAP + "ext 181 00\n"

LOCKED = SD + "locked yes\n"

KINDS = """lose-command,flip-command 20,lose-reply,flip-reply 44,left-over crc,left-over illegal,bad-block,no-block,read-error,reject,
reject-all,reject-busy,lose-block,lose-status old,lose-status new,fail old,fail new,fail old 80000000,fail new 00200000,
fail-early old,fail-unseen old,find-protection,lose-failed-switch,busy,brownout old,brownout new"""
KINDS = KINDS.replace("\n", "").split(",")
MOST_FAULTS = 256


def every_hundredth(seed):
    """A fault of some kind for each hundredth exchange, as many as a card file may plan. One that doesn't fit does nothing."""
    generator = random.Random(seed)
    return "".join(f"fault {100 * (k + 1)} {generator.choice(KINDS)}\n" for k in range(MOST_FAULTS))


def lost_power(seed):
    """The power is lost at random exchanges, the first time in the opening. It stays for 150 exchanges at least, so that a request of 16
    sectors has one attempt of its four without a loss."""
    generator = random.Random(seed)
    lines, exchange = [], generator.randrange(2, 16)
    for _ in range(MOST_FAULTS):
        lines.append(f"fault {exchange} brownout {generator.choice(['old', 'new'])}\n")
        exchange += generator.randrange(150, 400)
    return "".join(lines)


def each_exchange(first, last, kind):
    return "".join(f"fault {exchange} {kind}\n" for exchange in range(first, last + 1))
