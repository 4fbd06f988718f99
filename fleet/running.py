"""Sends a part's runs, one after the other, and goes on where it was cut."""
import fcntl
import os
import subprocess
import sys

from books import ledger_of_part
from jobs import CONFIG, FIELDS, NAMES, WITH_REFS, runs_of_part
from links import BEGUN, JOURNAL, REPORT_NAME, State, beginning, is_held, next_run, put_accounts
from reports import Report
from tables import Fault, first_record, put_octets, put_text, sync_folder


class Stopped(Exception):
    """Why a part isn't done. `report` is what a sending printed whose journal could not be written on: that is whole, and right."""

    def __init__(self, why, report=b""):
        super().__init__(why)
        self.report = report


class Part:
    """A part, by the folder, the program that sends, whether each note is on the disk before anything is sent by it, and the program's
    words: `send`, or `loop` for a trial, and what is to stand behind that."""

    def __init__(self, folder, program, is_synced=True, words=("send",)):
        self.folder, self.program, self.is_synced, self.words, self.lock = folder, program, is_synced, words, None
        ledger = ledger_of_part(folder)
        if ledger is not None and words[0] == "loop":
            raise Fault(folder, "takes its credits from a ledger of what was paid, which no trial does: try a copy of the job that is split without --ledger")
        self.ledger = [] if ledger is None else ["--ledger", ledger]

    def ask(self, run, *words):
        """What the program prints of a run; its status has to be 0 or 4, or 5 with --strict. The program has the part's lock too, so that nobody takes
        a run for cut while it is still sent, though what started it was killed: its journal's own lock begins a moment later."""
        more = {"cwd": run, "stdin": subprocess.DEVNULL, "capture_output": True, "pass_fds": [self.lock.fileno()]}
        refs = ["--refs"] if first_record(f"{run}/{NAMES['messages']}") == WITH_REFS else []
        ended = subprocess.run([self.program, *words, *refs], check=False, env={**os.environ, "SMS_SEND_VERBOSE": "1"}, **more)
        sys.stderr.buffer.write(ended.stderr)
        sys.stderr.flush()
        if ended.returncode not in (0, 4, 5):
            how = f"ended with {ended.returncode}" if ended.returncode > 0 else f"was killed by signal {-ended.returncode}"
            is_whole = ended.returncode == 1 and b"fault: journal" in ended.stderr.splitlines()
            raise Stopped(f"{run}: `{self.program} {words[0]}` {how}", ended.stdout if is_whole else b"")
        return ended.stdout

    def send(self, run, goes_on):
        """Sends a run that was not begun, or goes on with one. A trial begins anew, since no centre saw any of it. The report is put in
        place when the program is done with it, also where its journal failed. What a run that noted nothing took of a ledger comes back first."""
        goes_on = goes_on and self.words[0] == "send"
        files = ["--config", CONFIG, "--journal", JOURNAL]
        if not goes_on and os.path.exists(f"{run}/{JOURNAL}"):
            if self.ledger:
                self.ask(run, "settle", *files, *self.ledger)
            os.remove(f"{run}/{JOURNAL}")
        put_text(beginning(self.is_synced), f"{run}/{BEGUN}")
        more = ["--fields", FIELDS] * os.path.exists(f"{run}/{FIELDS}") + ["--sync"] * self.is_synced + self.ledger
        words = ["resume" if goes_on else self.words[0], *self.words[1:]]
        try:
            report = self.ask(run, *words, "--quiet", *files, *more)
        except (Stopped, OSError) as why:
            if isinstance(why, Stopped) and why.report:
                put_octets(why.report, f"{run}/{REPORT_NAME}")
            self.ended(run)
            raise
        put_octets(report, f"{run}/{REPORT_NAME}")
        self.ended(run)

    def ended(self, run):
        """The program was seen to end: from here on the journal tells all of the run, on whatever machine."""
        if os.path.exists(f"{run}/{JOURNAL}"):
            with open(f"{run}/{JOURNAL}", "rb") as file:
                os.fsync(file.fileno())
        os.remove(f"{run}/{BEGUN}")
        sync_folder(run)

    def give_accounts(self, run):
        """Gives a run the credits that the one before it left free."""
        runs = runs_of_part(self.folder)
        before = runs[runs.index(run) - 1]
        accounts = self.ask(before, "rest", "--config", CONFIG, "--report", REPORT_NAME, "--accounts")
        put_accounts(accounts, run, Report(f"{before}/{REPORT_NAME}"))

    def step(self, run, state, sent):
        """One step of a run; gives whether it was sent. A run that was sent here and left messages is not gone on with at once,
        since a centre that lost it may lose the next one too."""
        if state is not State.ENDED and is_held(run):
            raise Stopped(f"{run}: its run is still going on")
        if state in (State.DOUBTFUL, State.ELSEWHERE):
            raise Stopped(f"{run}: it {state.value}; remove the file {BEGUN} there when that is clear, and it goes on by its journal")
        if state is State.WAITING:
            self.give_accounts(run)
            return False
        if run in sent:
            raise Stopped(f"{run}: messages were not sent, since a bind was lost or memory refused; run it again to go on")
        self.send(run, state is not State.READY)
        return True

    def work(self):
        """Does what there is to do in the part, under a lock that keeps a second one out."""
        if not runs_of_part(self.folder):
            raise Fault(self.folder, "has no runs")
        with open(f"{self.folder}/lock", "w", encoding="ascii") as self.lock:
            try:
                fcntl.flock(self.lock, fcntl.LOCK_EX | fcntl.LOCK_NB)
            except BlockingIOError:
                raise Fault(self.folder, "is being run") from None
            sent = set()
            while found := next_run(runs_of_part(self.folder)):
                if self.step(*found, sent):
                    sent.add(found[0])
