"""Splits a job by account, so that an account's credits stand in one run at a time."""
import heapq
import os
import shutil

from books import LEDGER
from jobs import ACCOUNTS, CONFIG, FIELDS, NAMES, NUMBERS, PARTS, Job, config_of_run
from tables import Fault, put_lines, put_octets, put_text, rename, sync_folder

# What a run takes at most (README.md).
MOST_MESSAGES, MOST_ACCOUNTS = 100_000, 64


def dealt(counts, parts):
    """The accounts of each part: the one with most messages first, each to the part with fewest."""
    lightest = [(0, k) for k in range(parts)]
    found = [[] for _ in lightest]
    for account in sorted(counts, key=lambda it: -counts[it]):
        load, k = heapq.heappop(lightest)
        found[k].append(account)
        heapq.heappush(lightest, (load + counts[account], k))
    return [it for it in found if it]


def runs_of(accounts, counts, most=MOST_MESSAGES):
    """A part's runs, each a list of (account, first, end) by its own messages. An account with more messages than a run takes
    has runs of its own; the others share runs."""
    runs, shared, count = [], [], 0
    for account in accounts:
        size = counts[account]
        if size > most:
            runs += [[(account, k, min(k + most, size))] for k in range(0, size, most)]
            continue
        if shared and (count + size > most or len(shared) == MOST_ACCOUNTS):
            runs.append(shared)
            shared, count = [], 0
        shared.append((account, 0, size))
        count += size
    return runs + [shared] * bool(shared)


def write_run(job, folder, run, numbers):
    """A run's folder. One that goes on with an account has no accounts file: its credits are what the run before leaves free. On a ledger none has."""
    os.makedirs(folder)
    mine = sorted(k for account, first, end in run for k in numbers[account][first:end])
    if not job.ledger and all(first == 0 for _, first, _ in run):
        put_lines([ACCOUNTS] + [[it, str(job.accounts[it])] for it, _, _ in run], f"{folder}/{NAMES['accounts']}")
    put_lines([job.columns] + [job.messages[k] for k in mine], f"{folder}/{NAMES['messages']}")
    put_lines([NUMBERS] + [[str(k)] for k in mine], f"{folder}/numbers.csv")
    if job.tariff_name:
        with open(job.tariff_name, "rb") as file:
            put_octets(file.read(), f"{folder}/{NAMES['tariff']}")
    if job.fields is not None:
        put_text(job.fields, f"{folder}/{FIELDS}")
    put_text(config_of_run(job.config, f"{job.folder}/{CONFIG}"), f"{folder}/{CONFIG}")


def split(folder, parts, most=MOST_MESSAGES, ledger=None, fields=None):
    """Writes a job's runs and gives how many messages each has, by part. They are written aside first, so that the folder
    parts/ is there whole or not at all."""
    job = Job(folder, ledger, fields)
    whole, new = job.path(PARTS), job.path(f"{PARTS}.new")
    if os.path.exists(whole):
        raise Fault(whole, "is there: the job was split already")
    if not job.messages:
        raise Fault(job.messages_name, "has no messages")
    if os.path.exists(new):
        shutil.rmtree(new)
    numbers = {}
    for k, it in enumerate(job.messages):
        numbers.setdefault(it[0], []).append(k)
    counts = {account: len(numbers[account]) for account in job.accounts if account in numbers}
    sizes = []
    for k, accounts in enumerate(dealt(counts, parts)):
        runs = runs_of(accounts, counts, most)
        for place, run in enumerate(runs):
            write_run(job, f"{new}/{k + 1:02d}/{place + 1}", run, numbers)
        sizes.append([sum(end - first for _, first, end in run) for run in runs])
    if ledger:
        put_text(os.path.abspath(ledger) + "\n", f"{new}/{LEDGER}")
    for it, _, _ in os.walk(new):
        sync_folder(it)
    rename(new, whole)
    return sizes
