"""A folder with the files of a run before a centre that counts, for tools/rounds, and what has to hold of the run over all its rounds."""
import contextlib
import os
import resource
import signal
import subprocess
import sys

HOME = os.path.dirname(os.path.dirname(os.path.dirname(os.path.realpath(__file__))))
sys.path.insert(0, f"{HOME}/fleet")
from counting import Centre
from reports import Report
from tables import put_lines, put_text

MESSAGES = 60
SUBMIT = (4).to_bytes(4, "big")
FILES = ["--config", "send.toml", "--journal", "journal"]
LEFT = ("bind-closed", "out-of-memory")
VERBOSE = {**os.environ, "SMS_SEND_VERBOSE": "1"}


class Wrong(Exception):
    """What doesn't hold."""


def expect(is_so, what):
    if not is_so:
        raise Wrong(what)


def limit_files(most):
    """What a process does first whose files have this many octets at the most."""

    def limit():
        signal.signal(signal.SIGXFSZ, signal.SIG_IGN)
        resource.setrlimit(resource.RLIMIT_FSIZE, (most, most))

    return limit


def stop(child):
    """Stops the process, and returns once none of its threads runs on; says whether it hadn't ended before."""
    child.send_signal(signal.SIGSTOP)
    try:
        os.waitid(os.P_PID, child.pid, os.WSTOPPED)
    except ChildProcessError:
        return False
    return True


class HangsUp(Centre):
    """A centre that loses each connection at the request of this number on it, which it answers or not."""

    def __init__(self, after, is_answered, **more):
        super().__init__(**more)
        self.after, self.is_answered = after, is_answered

    def serve(self, stream, connection):
        kept, count = b"", 0
        while more := stream.recv(65536):
            kept += more
            while len(kept) >= 16 and len(kept) >= (length := int.from_bytes(kept[:4], "big")):
                frame, kept = kept[:length], kept[length:]
                out = self.answers(frame, connection)[1]
                count += frame[4:8] == SUBMIT
                if count < self.after or self.is_answered:
                    stream.sendall(b"".join(out))
                if count == self.after:
                    return


class Room:
    """A folder with `send.toml`, two accounts, and messages of one and two parts, before a centre."""

    def __init__(self, program, folder, centre, keys="", messages=MESSAGES):
        self.program, self.folder, self.centre, self.messages = program, folder, centre, messages
        self.configure(keys)
        put_lines([["account", "credits"], ["one", str(messages)], ["two", str(messages)]], f"{folder}/accounts.csv")
        letters = [[("one", "two")[k % 2], "", f"+4477{k:06d}", "word " * (40 if k % 5 == 0 else 3)] for k in range(messages)]
        put_lines([["account", "source", "destination", "text"], *letters], f"{folder}/messages.csv")

    def configure(self, keys=""):
        usual = {"port": self.centre.port, "base_ms": 1, "answer_ms": 3000, "accounts": "'accounts.csv'", "messages": "'messages.csv'"}
        lines = [f"{key} = {value}\n" for key, value in usual.items() if f"{key} = " not in keys]
        put_text("".join(lines) + (keys or "window = 4\ndepth = 4\n"), f"{self.folder}/send.toml")

    def does(self, *words, statuses=(0, 4), env=None, **more):
        """What the program prints."""
        ended = subprocess.run([self.program, *words], cwd=self.folder, env=VERBOSE if env is None else env, capture_output=True, check=False, timeout=120, **more)
        if ended.returncode not in statuses:
            raise Wrong(f"`{' '.join(words)}` ended with {ended.returncode}: {ended.stderr.decode(errors='replace').strip()}")
        return ended

    def faults(self, status, lines, *words, **more):
        """The program fails with these lines, prints nothing, and changes no file."""
        before = self.octets()
        ended = self.does(*words, statuses=(status,), **more)
        said = ended.stderr.decode().splitlines()
        expect(said == lines, f"`{' '.join(words)}` said {said}, and not {lines}")
        expect(not ended.stdout, f"`{' '.join(words)}` printed {ended.stdout[:80]!r}")
        expect(self.octets() == before, f"`{' '.join(words)}` changed a file")

    def octets(self):
        found = {}
        for name in sorted(os.listdir(self.folder)):
            with open(f"{self.folder}/{name}", "rb") as file:
                found[name] = file.read()
        return found

    def journal(self, change=lambda octets: octets):
        """The journal's octets, once they are changed so."""
        with open(f"{self.folder}/journal", "rb") as file:
            octets = change(file.read())
        with open(f"{self.folder}/journal", "wb") as file:
            file.write(octets)
        return octets

    def report(self, octets):
        with open(f"{self.folder}/report.csv", "wb") as file:
            file.write(octets)
        ended = subprocess.run(
            [f"{HOME}/tools/balances", "report.csv", "messages.csv"], cwd=self.folder, capture_output=True, text=True, check=False
        )
        expect(ended.returncode == 0, ended.stdout.strip())
        self.holds("audits", "--report", self.program, "send.toml", "report.csv")
        return Report(f"{self.folder}/report.csv")

    def holds(self, tool, *words):
        """A tool finds nothing wrong."""
        ended = subprocess.run([f"{HOME}/tools/{tool}", *words], cwd=self.folder, capture_output=True, text=True, check=False, timeout=300)
        expect(ended.returncode == 0, f"{ended.stdout}{ended.stderr}".strip())

    def recovered(self):
        """The report by the journal, and that of `resume` where nothing is left: the same, with no request and no change."""
        octets = self.does("recover", *FILES).stdout
        report = self.report(octets)
        self.holds("bills", self.program, "send.toml", "journal")
        if not self.left(report):
            before, count = self.octets(), len(self.centre.submits)
            expect(self.does("resume", "--quiet", *FILES).stdout == octets, "`resume` where nothing is left is not `recover`")
            expect(self.octets() == before and len(self.centre.submits) == count, "`resume` where nothing is left did something")
        return octets, report

    def left(self, report):
        return [k for k, end in enumerate(report.ends) if end[0][2] in LEFT]

    def agrees(self, report):
        """Each part came once at the most; each charge is an answer, and each answer that isn't charged is in doubt."""
        self.centre.quiet()
        expect(not self.centre.faults, "; ".join(self.centre.faults))
        seen = [(int(it.destination) % 10**6, it.part) for it in self.centre.submits]
        expect(len(seen) == len(set(seen)), "a part was sent twice")
        good = {it.message_id: (int(it.destination) % 10**6, it.part) for it in self.centre.submits if it.status == 0}
        parts = {(k, int(it[0])): it for k, end in enumerate(report.ends) for it in end}
        for place, it in parts.items():
            expect(it[2] != "charged" or good.get(it[4]) == place, f"part {place} is charged by {it[4]!r}")
            expect(place not in seen or it[2] in ("charged", "unanswered", "refused"), f"part {place} came, and is {it[2]}")
        for message_id, place in good.items():
            expect(parts[place][2] in ("charged", "unanswered"), f"part {place} was answered, and is {parts[place][2]}")
        for name, row in report.rows.items():
            expect(row["topped"] == self.messages, f"account {name} begins with {row['topped']}")

    @contextlib.contextmanager
    def begun(self, *words, after=10):
        """A process of the program, from when the centre has read so many requests."""
        reached = self.centre.when(after)
        with open(f"{self.folder}/out", "wb") as out, open(f"{self.folder}/err", "wb") as err:
            with subprocess.Popen([self.program, *words], cwd=self.folder, env=VERBOSE, stdout=out, stderr=err) as child:
                expect(reached.wait(60), f"`{' '.join(words)}` sends nothing")
                try:
                    yield child
                finally:
                    child.kill()

    def said(self, name):
        with open(f"{self.folder}/{name}", "rb") as file:
            return file.read()

    def ends_whole(self):
        """What is left is sent by `resume`, and then all agrees."""
        self.does("resume", "--quiet", *FILES)
        report = self.recovered()[1]
        expect(not self.left(report), f"message {self.left(report)[:1]} is left")
        self.agrees(report)
        return report
