"""What stands of a run, by its files, and what comes next. A run is noted in `journal` while it is sent, and has ended where its
`report.csv` is there, which is put there whole, and it isn't being sent again."""
import enum
import fcntl
import functools
import os
import re

from books import ledger_of_part, past_head
from jobs import NAMES, read_accounts
from reports import Report
from tables import Fault, put_octets, rename

BEGUN, JOURNAL, REPORT_NAME = "begun", "journal", "report.csv"
# What a message was refused for that a further round sends.
LEFT = ("bind-closed", "out-of-memory")
# A journal that noted nothing: its head, rounds in which no bind stood, and a line that was truncated. Whatever else there is counts as a note.
NOTHING_NOTED = re.compile(rb"((journal|trial),[12],[0-9a-f,]{0,300}\n(round,[0-9,]{1,99}\n)*)?[ -~]{0,400}")


class State(enum.Enum):
    WAITING = "waits for the credits that the run before leaves"
    READY = "was not begun"
    CUT = "was begun, and has no report"
    DOUBTFUL = "was being sent when this machine went down, and its journal may lack what was sent last"
    ELSEWHERE = "is being sent by another machine, or was when that went down"
    ENDED = "has its report"


def state_of(names, has_notes, doubt=None):
    """A run's state by the names of its files, whether its journal noted anything, and what makes that doubtful."""
    if REPORT_NAME in names and BEGUN not in names:
        return State.ENDED
    if NAMES["accounts"] not in names:
        return State.WAITING
    return doubt or (State.CUT if has_notes else State.READY)


def noted(folder):
    """Whether a run's journal noted anything."""
    if not os.path.exists(f"{folder}/{JOURNAL}"):
        return False
    with open(f"{folder}/{JOURNAL}", "rb") as file:
        past_head(file)
        return not NOTHING_NOTED.fullmatch(file.read())


def is_held(folder):
    """Whether a process holds the lock of a run's journal: a sending has it until it ends, however that is."""
    try:
        with open(f"{folder}/{JOURNAL}", "rb") as file:
            fcntl.flock(file, fcntl.LOCK_SH | fcntl.LOCK_NB)
    except FileNotFoundError:
        return False
    except BlockingIOError:
        return True
    return False


def read_text(name):
    try:
        with open(name, encoding="utf-8", errors="replace") as file:
            return file.read().strip()
    except FileNotFoundError:
        return "-"


def here():
    """This machine by its name and its id, and its start, which is another when it has been down."""
    return [os.uname().nodename, read_text("/etc/machine-id"), read_text("/proc/sys/kernel/random/boot_id")]


def beginning(is_synced):
    """What `begun` says, which stands beside a run's files while it is sent: where that is, and whether the journal is synced."""
    return " ".join([*here(), "sync" if is_synced else "no-sync"]) + "\n"


def doubt_of(begun, place, has_journal):
    """What makes a run doubtful whose `begun` says so, though its part's lock is free. On the same start of this machine its program has
    ended, and the system has all that it noted. Where this machine was down since, the disk has it if the journal is synced. Another
    machine may be sending still, since a lock on it may lapse."""
    words = begun.split()
    if len(words) != 4 or words[:2] != place[:2]:
        return State.ELSEWHERE
    is_known = words[2] == place[2] or words[3] == "sync" and has_journal
    return None if is_known else State.DOUBTFUL


def state_of_folder(folder):
    names, doubt = set(os.listdir(folder)), None
    if ledger_of_part(os.path.dirname(folder)) is not None:
        names.add(NAMES["accounts"])  # (it takes its credits when it begins)
    if BEGUN in names:
        doubt = doubt_of(read_text(f"{folder}/{BEGUN}"), here(), JOURNAL in names)
    return state_of(names, noted(folder), doubt)


def is_left(report):
    """Whether a report leaves messages that a further round of its run would send."""
    return any(it[0][2] in LEFT for it in report.ends)


@functools.cache
def leaves_messages(name, _changed):
    return is_left(Report(name))


def next_run(runs):
    """Which run of a part is to be done and how its files stand: the first, in their order, that has not ended, or whose report
    leaves messages. None where the part is done."""
    for it in runs:
        state, name = state_of_folder(it), f"{it}/{REPORT_NAME}"
        if state is not State.ENDED or leaves_messages(name, os.stat(name).st_mtime_ns):
            return it, state
    return None


def put_accounts(accounts, folder, report):
    """Gives the run of a folder its accounts, which `sms-send rest` told and which have to be what the report leaves free."""
    free = {it: row["free"] for it, row in report.rows.items()}
    said = f"{folder}/accounts.said"
    put_octets(accounts, said)
    if read_accounts(said) != free:
        raise Fault(said, f"what `sms-send rest --accounts` tells is not what {report.name} leaves free")
    rename(said, f"{folder}/{NAMES['accounts']}")
