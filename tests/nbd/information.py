"""What nbdinfo says of cards: exports, sizes and flags."""
import json

import cards
from trial import Served

NEEDS = {"nbdinfo": "libnbd-bin"}

# What no export has: a reply comes in one piece, there is one connection, and no cache.
NEVER = ["is_rotational", "can_cache", "can_df", "can_fast_zero", "can_multi_conn"]
ALWAYS = {"can_flush": True, "can_fua": True, "block_size_minimum": 512, "block_size_preferred": 512, "block_size_maximum": 524288}


def told(trial, *words):
    status, output, errors = trial.client("nbdinfo", "--json", *words)
    trial.want(f"nbdinfo {words[0]}: status and errors", (status, errors), (0, ""))
    return json.loads(output) if status == 0 else {"exports": []}


def wanted_of(name, count, is_trimmed, is_zeroed, is_read_only):
    is_boot = name.startswith("boot")
    return {"export-name": name, "export-size": 512 * count, "is_read_only": is_read_only, "can_trim": is_trimmed and not is_boot,
            "can_zero": is_zeroed and not is_boot, **ALWAYS, **dict.fromkeys(NEVER, False)}


def lists(trial):
    for label, text, sectors, is_zeroed in [
            ("SD", cards.SD, {"user": cards.SD_SECTORS}, False), ("eMMC", cards.EMMC, cards.EMMC_SECTORS, False),
            ("seven", cards.SEVEN, cards.SEVEN_SECTORS, False), ("gap", cards.GAP, cards.GAP_SECTORS, False),
            ("zeroing", cards.ZEROING, cards.GAP_SECTORS, True), ("without trim", cards.WITHOUT_TRIM, cards.EMMC_SECTORS, False)]:
        information = told(trial, "--list", *Served(trial, trial.file("card", text)).bracketed)
        trial.want(f"{label}: protocol", information.get("protocol"), "newstyle-fixed")
        found = {export["export-name"]: export for export in information["exports"]}
        trial.want(f"{label}: names", sorted(found), sorted(sectors))
        for name, count in sectors.items():
            wanted = wanted_of(name, count, True, is_zeroed, False)
            trial.want(f"{label}: {name}", {key: found.get(name, {}).get(key) for key in wanted}, wanted)


def tells_of_one(trial):
    """The export without a name is that of --part, or user."""
    for words, count in [([], 2048), (["--part", "boot2"], 256), (["--part", "gp2"], 1024)]:
        served = Served(trial, trial.file("card", cards.GAP), *words)
        wanted = wanted_of((words or ["", "user"])[1], count, True, False, False)
        wanted["export-name"] = ""
        found = told(trial, *served.bracketed)["exports"]
        trial.want(f"nbdinfo {words}", [{key: export.get(key) for key in wanted} for export in found], [wanted])
        size = trial.client("nbdinfo", "--size", *served.bracketed)
        trial.want(f"nbdinfo --size {words}", size, (0, f"{512 * count}\n", ""))


def tells_protection(trial):
    card = trial.file("card", trial.new("--kind", "sd", "--sectors", "2048", "--readonly"))
    trial.want("nbdinfo --is read-only", trial.client("nbdinfo", "--is", "read-only", *Served(trial, card).bracketed)[0], 0)
    trial.want("nbdinfo --size", trial.client("nbdinfo", "--size", *Served(trial, card).bracketed)[:2], (0, "1048576\n"))


def try_all(trial):
    for test in (lists, tells_of_one, tells_protection):
        trial.attempt(test)
