"""A folder with the files of a run on a ledger, for tools/ledger-runs, and what has to hold of its accounts there."""
import os

from counting import Centre
from rounds import FILES, MESSAGES, Report, Room, expect
from tables import put_lines, put_text

HEADER = "account,paid,free,out,doubt,spent"
PLACES = ("paid", "free", "out", "doubt", "spent")
ON = ["--ledger", "ledger"]
DECIDE = ["decide", *ON, *FILES, "--decisions", "decisions.csv"]


class LedgerRoom(Room):
    """The same folder, with a ledger in which both accounts have paid."""

    def __init__(self, program, folder, centre, keys="", messages=MESSAGES):
        super().__init__(program, folder, centre, keys, messages)
        os.remove(f"{folder}/accounts.csv")
        for account in ("one", "two"):
            self.does("topup", *ON, account, str(messages), "--ref", f"first-{account}")

    def report(self, octets):
        """The report, which is audited with the accounts that the run took of the ledger."""
        with open(f"{self.folder}/report.csv", "wb") as file:
            file.write(octets)
        rows = Report(f"{self.folder}/report.csv").rows
        put_lines([["account", "credits"], *([it, str(row["topped"])] for it, row in rows.items())], f"{self.folder}/accounts.csv")
        try:
            return super().report(octets)
        finally:
            os.remove(f"{self.folder}/accounts.csv")

    def balance(self):
        first, *lines = self.does("balance", *ON).stdout.decode().splitlines()
        expect(first == HEADER, f"the header is {first!r}")
        rows = {}
        for line in lines:
            name, *numbers = line.split(",")
            rows[name] = dict(zip(PLACES, map(int, numbers)))
            row = rows[name]
            expect(row["paid"] == row["free"] + row["out"] + row["doubt"] + row["spent"], f"{name} has {row}")
        return rows

    def lines(self):
        with open(f"{self.folder}/ledger", "rb") as file:
            return file.read().decode().splitlines()

    def settles(self, is_twice=True):
        """What the run has out comes back, once."""
        booked = self.does("settle", *ON, *FILES).stdout.decode().splitlines()
        expect(all(it.startswith("back,") for it in booked), f"it booked {booked}")
        expect(self.lines()[len(self.lines()) - len(booked):] == booked, "what it printed isn't what it booked")
        before = self.octets()
        expect(not is_twice or not self.does("settle", *ON, *FILES).stdout and self.octets() == before, "it is settled twice")
        return booked

    def agrees_with(self, report):
        """The ledger has what the report says, and the centre's own count: each good answer is spent or in doubt."""
        balance = self.balance()
        for name, found in report.rows.items():
            row = balance[name]
            said = {"out": 0, "doubt": found["reserved"], "spent": found["charged"], "free": row["paid"] - found["reserved"] - found["charged"]}
            expect(all(row[it] == said[it] for it in said), f"{name} has {row}, and by the report {said}")
        good = sum(it.status == 0 for it in self.centre.submits)
        rows = balance.values()
        expect(sum(it["spent"] for it in rows) <= good <= sum(it["spent"] + it["doubt"] for it in rows), f"{good} parts were taken, and the ledger has {rows}")

    def doubts(self, report):
        """The parts in doubt, once a file of decisions says what the centre did with each."""
        taken = {(int(it.destination) % 10**6, it.part) for it in self.centre.submits if it.status == 0}
        found = [(k, int(it[0])) for k, end in enumerate(report.ends) for it in end if it[2] == "unanswered"]
        fates = "".join(f"{k},{p},{'delivered' if (k, p) in taken else 'lost'}\n" for k, p in found)
        put_text("message,part,fate\n" + fates, f"{self.folder}/decisions.csv")
        return found

    def decides(self, report):
        """Each part in doubt is decided by what the centre did with it."""
        doubts = self.doubts(report)
        booked = self.does(*DECIDE).stdout.decode().splitlines()
        expect(len(booked) == len(doubts), f"{len(booked)} of {len(doubts)} are decided")
        self.is_decided(doubts)
        good = sum(it.status == 0 for it in self.centre.submits)
        rows = self.balance().values()
        expect(sum(it["doubt"] for it in rows) == 0 and sum(it["spent"] for it in rows) == good, f"{good} parts were taken, and the ledger has {rows}")

    def is_decided(self, doubts):
        """Each of these parts is decided once, and isn't again."""
        found = sorted(tuple(map(int, it.split(",")[3:5])) for it in self.lines() if it.startswith("decided,"))
        expect(found == sorted(doubts), f"{found} are decided, of {doubts}")
        before = self.octets()
        expect(not self.does(*DECIDE).stdout and self.octets() == before, "a part is decided twice")


class SharedRoom(LedgerRoom):
    """A folder with accounts of its own on a ledger that is shared."""

    def __init__(self, program, folder, name, **more):
        os.mkdir(f"{folder}/{name}")
        super().__init__(program, f"{folder}/{name}", Centre(**more))
        self.accounts = [f"{name}-one", f"{name}-two"]
        put_text(self.said("messages.csv").decode().replace("one,", f"{name}-one,").replace("two,", f"{name}-two,"), f"{self.folder}/messages.csv")
        os.remove(f"{self.folder}/ledger")
        os.symlink("../ledger", f"{self.folder}/ledger")
        for it in self.accounts:
            self.does("topup", *ON, it, str(MESSAGES), "--ref", f"first-{it}")

    def mine(self, place):
        return sum(row[place] for name, row in self.balance().items() if name in self.accounts)

    def good(self):
        self.centre.quiet()
        return sum(it.status == 0 for it in self.centre.submits)
