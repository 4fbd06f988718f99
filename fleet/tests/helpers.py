"""Jobs made for tests, and runs whose reports are made up."""
import os
import tempfile
import time
import unittest

from jobs import ACCOUNTS, MESSAGES, WITH_REFS, Job, messages_of, read_accounts, read_numbers
from reports import REPORT, STATEMENT, booked
from tables import put_lines, put_text

HOME = os.path.dirname(os.path.dirname(os.path.dirname(os.path.realpath(__file__))))
PROGRAM = f"{HOME}/release/sms-send-x86_64-linux-gnu"


def empty(room):
    """Removes a folder. A process that a test has killed may write to it for a moment yet."""
    for _ in range(50):
        try:
            return room.cleanup()
        except OSError:
            time.sleep(0.1)
    room.cleanup()


class Case(unittest.TestCase):
    """A test with a folder of its own."""

    def setUp(self):
        room = tempfile.TemporaryDirectory()
        self.addCleanup(empty, room)
        self.folder = f"{room.name}/job"
        os.makedirs(self.folder)

    def job(self, counts, credits=100, config="", tariff=None, refs=False):
        """A job whose accounts have so many messages each, dealt out in turns, with references or without."""
        put_text(f"port = 2775\n{config}", f"{self.folder}/send.toml")
        put_lines([ACCOUNTS] + [[it, str(credits)] for it in counts], f"{self.folder}/accounts.csv")
        if tariff:
            put_lines([["prefix", "credits"], *tariff], f"{self.folder}/tariff.csv")
        left, lines = dict(counts), []
        while any(left.values()):
            for account in left:
                if left[account]:
                    left[account] -= 1
                    lines.append([account, "", f"44770090{len(lines):04d}", f"Text, number {len(lines)}"])
        if refs:
            lines = [[*it, f"R, {k}"] for k, it in enumerate(lines)]
        put_lines([WITH_REFS if refs else MESSAGES, *lines], f"{self.folder}/messages.csv")
        return Job(self.folder)


def run(job, folder, outcome=lambda k: ["charged"], free=None):
    """Makes up a run's report: the outcomes of the parts of each message by its number, and a statement that agrees with them.
    `free` has the credits that the run before left. Gives the credits that this one leaves."""
    if free is None:
        free = read_accounts(f"{folder}/accounts.csv")
    sums = {it: {"reserved": 0, "charged": 0, "returned": 0} for it in free}
    lines = [REPORT]
    messages = messages_of(folder)
    for place, (k, message) in enumerate(zip(read_numbers(f"{folder}/numbers.csv"), messages)):
        end = ending(outcome(k))
        lines += [[str(place), *it] for it in end]
        for key, amount in booked(end, job.cost(message[2])).items():
            sums[message[0]][key] += amount
    left = {it: free[it] - sums[it]["reserved"] - sums[it]["charged"] for it in free}
    lines += [STATEMENT] + [[it, *map(str, [free[it], left[it], *sums[it].values()])] for it in free]
    put_lines(lines, f"{folder}/report.csv")
    return left


def ending(outcomes):
    """The records of a message's end behind its number."""
    if outcomes[0] in ("charged", "refused", "unanswered", "unsent"):
        return [[str(k + 1), "1", it, "0" if it == "charged" else "", ""] for k, it in enumerate(outcomes)]
    return [["0", "0", outcomes[0], "", ""]]


def run_all(job, outcome=lambda k: ["charged"]):
    """Makes up the reports of all runs; one without an accounts file goes on with what the run before left."""
    for runs in job.runs():
        left = None
        for it in runs:
            left = run(job, it, outcome, None if os.path.exists(f"{it}/accounts.csv") else left)
