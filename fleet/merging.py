"""Puts the reports of a job's runs together, and compares every sum."""
from books import ledger_of, past_head
from jobs import PARTS, Job, messages_of, read_numbers
from links import JOURNAL
from reports import REPORT, STATEMENT, Report, booked, is_unsent
from tables import put_lines

SUMS = ("reserved", "charged", "returned")


class Differences(Exception):
    """What doesn't agree, a line each."""


class Merge:
    """The job's ends and rows, filled run by run; `wrong` has what doesn't agree."""

    def __init__(self, job):
        self.job = job
        self.ends = {}
        self.part_of = {}
        self.free = dict(job.accounts)
        self.sums = {it: dict.fromkeys(SUMS, 0) for it in job.accounts}
        self.wrong = []

    def add(self, part, folder):
        """Takes over what a run did."""
        numbers, report = read_numbers(f"{folder}/numbers.csv"), Report(f"{folder}/report.csv")
        its = messages_of(folder)
        if not len(its) == len(numbers) == len(set(numbers)) == len(report.ends):
            counts = f"{len(its)} messages, {len(numbers)} numbers, {len(set(numbers))} of them unlike, {len(report.ends)} ends"
            self.wrong.append(f"{folder}: {counts}")
            return
        sums = {it: dict.fromkeys(SUMS, 0) for it in report.rows}
        for k, message, end in zip(numbers, its, report.ends):
            if k >= len(self.job.messages) or self.job.messages[k] != message:
                self.wrong.append(f"{folder}: message {k} is another in {self.job.messages_name}")
            elif message[0] not in sums:
                self.wrong.append(f"{folder}: message {k} is paid by {message[0]}, which the statement doesn't have")
            else:
                self.add_end(part, folder, k, end)
                for key, amount in booked(end, self.job.cost(message[2])).items():
                    sums[message[0]][key] += amount
        for account, row in report.rows.items():
            self.add_row(part, folder, account, row, sums[account])
        if self.job.ledger:
            self.compare_with_ledger(folder, report)

    def compare_with_ledger(self, folder, report):
        """The ledger has of the run what its statement says: of each account what it took, and what came back of that."""
        with open(f"{folder}/{JOURNAL}", "rb") as file:
            booked = self.job.ledger.runs.get(past_head(file), {})
        stated = {it: [row[key] for key in ("topped", "free", "reserved", "charged")] for it, row in report.rows.items() if row["topped"]}
        for account in stated | booked:
            took, *back = booked.get(account, [0])
            if account in stated and not back and took == stated[account][0]:
                self.wrong.append(f"{folder}: {took} credits of {account} are out with the run still")
            elif [took, *back] != stated.get(account):
                self.wrong.append(f"{folder}: of {account} the ledger has {[took, *back]}, and the statement {stated.get(account)}")

    def add_end(self, part, folder, k, end):
        """A message's end. Where an earlier run of the part had the message, it sent nothing of it; its end counts no more."""
        if k in self.ends:
            was, cost = self.ends[k], self.job.cost(self.job.messages[k][2])
            if not is_unsent(was):
                self.wrong.append(f"{folder}: message {k} was begun by an earlier run, as {was[0][2]}")
            for key, amount in booked(was, cost).items():
                self.sums[self.job.messages[k][0]][key] -= amount
        self.ends[k] = end

    def add_row(self, part, folder, account, row, sums):
        """An account's row, which has to go on from the row before and to be the sum of the run's ends."""
        if account not in self.job.accounts:
            self.wrong.append(f"{folder}: the job has no account {account}")
            return
        if self.part_of.setdefault(account, part) != part:
            self.wrong.append(f"{folder}: account {account} is in {self.part_of[account]} too")
        if not self.job.ledger and row["topped"] != self.free[account]:
            self.wrong.append(f"{folder}: account {account} was given {row['topped']}, and there were {self.free[account]}")
        if {key: row[key] for key in SUMS} != sums:
            self.wrong.append(f"{folder}: account {account} has {row}, and its parts come to {sums}")
        if row["topped"] != row["free"] + row["reserved"] + row["charged"]:
            self.wrong.append(f"{folder}: account {account} doesn't balance: {row}")
        self.free[account] = row["free"]
        for key in SUMS:
            self.sums[account][key] += row[key]

    def compare(self):
        """Compares the whole: each message has an end, each account its top-ups, and each sum is that of the ends."""
        job, sums = self.job, {it: dict.fromkeys(SUMS, 0) for it in self.job.accounts}
        for k, (account, _, destination, *_) in enumerate(job.messages):
            if k not in self.ends:
                self.wrong.append(f"message {k} is in no run")
                continue
            for key, amount in booked(self.ends[k], job.cost(destination)).items():
                sums[account][key] += amount
        for account in job.accounts:
            credits = self.topped(account)
            if self.sums[account] != sums[account]:
                self.wrong.append(f"account {account}: the runs come to {self.sums[account]}, and its parts to {sums[account]}")
            if credits != self.free[account] + sums[account]["reserved"] + sums[account]["charged"]:
                self.wrong.append(f"account {account} was given {credits}, and has {self.free[account]} free and {sums[account]}")

    def topped(self, account):
        """What the job was given of an account. Of a ledger, into which others pay meanwhile and from which others take, it is what the job
        used, and what its last run gave back."""
        if not self.job.ledger:
            return self.job.accounts[account]
        return self.free[account] + self.sums[account]["reserved"] + self.sums[account]["charged"]

    def lines(self):
        """The job's report and statement."""
        yield REPORT
        for k in range(len(self.job.messages)):
            for it in self.ends[k]:
                yield [str(k), *it]
        yield STATEMENT
        for account in self.job.accounts:
            sums = [self.sums[account][key] for key in SUMS]
            yield [account, *map(str, [self.topped(account), self.free[account], *sums])]


def merge(folder):
    """Writes the job's report and gives how many messages it has, and whether a part of one is unanswered."""
    job = Job(folder, ledger_of(f"{folder}/{PARTS}"))
    found = Merge(job)
    for runs in job.runs():
        for it in runs:
            found.add(runs[0].rsplit("/", 1)[0], it)
    found.compare()
    if found.wrong:
        raise Differences("\n".join(found.wrong))
    put_lines(found.lines(), job.path("report.csv"))
    is_unanswered = any(it[2] == "unanswered" for end in found.ends.values() for it in end)
    return len(job.messages), is_unanswered
