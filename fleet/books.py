"""A ledger as sms-send keeps it (docs/FORMATS.md, Ledger): read here, and written to by the program alone. A job that is split with `--ledger`
has its name in parts/ledger; each of its runs takes its credits when it begins, and gives back what its statement says."""
import fcntl
import os
import re
import urllib.parse

from tables import Fault

LEDGER = "ledger"
# What stands before the journal of a run of a ledger: its name there, and how many octets its accounts behind that line take.
HEAD = re.compile(rb"run,1,([0-9a-f]{32}),([0-9]{1,9})\n")


def ledger_of(parts):
    """The ledger of a job by its folder parts/, or None where its runs have accounts files."""
    try:
        with open(f"{parts}/{LEDGER}", encoding="utf-8") as file:
            return file.read().removesuffix("\n")
    except FileNotFoundError:
        return None


def ledger_of_part(folder):
    return ledger_of(os.path.dirname(folder))


def past_head(file):
    """Passes over what stands before a journal, and gives the run's name in the ledger, or None where it is of none."""
    found = HEAD.fullmatch(file.readline(100))
    file.seek(found.end() + int(found[2]) if found else 0)
    return found[1].decode() if found else None


class Ledger:
    """`accounts`: their names in the order of their first payments. `runs`: by a run's name and an account what it took, and what came
    back free, in doubt and spent."""

    def __init__(self, name):
        self.name, self.accounts, self.runs = name, {}, {}
        for kind, *fields in entries(name):
            if kind == "paid":
                self.accounts[said(fields[1])] = 0
            elif kind in ("taken", "back"):
                _, run, account, *credits = fields
                self.runs.setdefault(run, {}).setdefault(said(account), []).extend(map(int, credits))


def entries(name):
    """The whole lines of a ledger behind its first, each as its fields."""
    try:
        with open(name, encoding="ascii") as file:
            fcntl.flock(file, fcntl.LOCK_SH)
            lines = file.read().split("\n")
    except OSError as it:
        raise Fault(name, it.strerror) from None
    except UnicodeDecodeError:
        raise Fault(name, "is no ledger") from None
    if lines[:1] == ["trial"]:
        raise Fault(name, "is a ledger of trials, whose credits are for loop alone")
    if lines[:-1][:1] != ["ledger,1"]:
        raise Fault(name, "is no ledger")
    return [it.split(",") for it in lines[1:-1]]


def said(field):
    """The text that a field of a ledger spells."""
    return urllib.parse.unquote(field, errors="surrogateescape")
