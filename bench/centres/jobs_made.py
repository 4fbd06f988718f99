"""Jobs for bench/fleet, and what has to hold when one was sent: by its files and by what its centres saw."""
import collections
import os
import subprocess
import sys

HOME = os.path.dirname(os.path.dirname(os.path.dirname(os.path.realpath(__file__))))
sys.path.insert(0, f"{HOME}/fleet")
from jobs import parts_of_job, read_numbers, runs_of_part
from reports import Report
from tables import put_lines, put_text

RETRY = (88, 20)  # ESME_RTHROTTLED, ESME_RMSGQFUL (SMPP 3.4 5.1.3)


class Wrong(Exception):
    """What doesn't hold."""


def make(folder, messages, accounts, config):
    """A job whose first account has a fifth of the messages, each other one an equal share. Message k goes to +44 and k; some have two
    parts. Credits are enough for all but the last account."""
    os.makedirs(folder)
    put_text(f"accounts = 'accounts.csv'\nmessages = 'messages.csv'\n{config}", f"{folder}/send.toml")
    lines, owned = [["account", "source", "destination", "text"]], collections.Counter()
    for k in range(messages):
        owner = "a0" if k % 5 == 0 else f"a{1 + k % (accounts - 1)}"
        owned[owner] += 1
        lines.append([owner, "", f"+44{k:09d}", "word " * (40 if k % 20 == 0 else 4)])
    put_lines(lines, f"{folder}/messages.csv")
    credits = {it: owned[it] * 2 for it in owned}
    credits[f"a{accounts - 1}"] //= 4
    put_lines([["account", "credits"], *[[it, str(credits[it])] for it in sorted(owned)]], f"{folder}/accounts.csv")


def split(folder, jobs, size):
    subprocess.run([f"{HOME}/fleet/split", folder, "--jobs", str(jobs), "--run-size", str(size)], check=True, stdout=subprocess.DEVNULL)


def set_config(folder, **values):
    """Sets keys of a run's config."""
    with open(f"{folder}/send.toml", encoding="utf-8") as file:
        lines = [it for it in file.read().splitlines() if it.split(" = ")[0] not in values]
    lines += [f"{key} = {value!r}" for key, value in values.items()]
    put_text("\n".join(lines) + "\n", f"{folder}/send.toml")


def sent_by_runs(folder):
    """Of each message by its number in the job: which runs noted requests of it; and all requests: message, part, number."""
    runs, requests = collections.defaultdict(set), set()
    for part in parts_of_job(folder):
        for run in runs_of_part(part):
            if not os.path.exists(f"{run}/journal"):
                continue
            numbers = read_numbers(f"{run}/numbers.csv")
            with open(f"{run}/journal", encoding="ascii") as file:
                text = file.read()
            for it in text[: text.rfind("\n") + 1].splitlines():
                kind, _time, *fields = it.split(",")
                if kind == "sent":
                    _worker, number, message, piece = map(int, fields)
                    runs[numbers[message]].add(run)
                    requests.add((numbers[message], piece, number))
    return runs, requests


def compare(folder, centres):
    """Compares a job that was merged with what its centres saw; gives what is worth telling."""
    words = [f"{HOME}/tools/balances", f"{folder}/report.csv", f"{folder}/messages.csv"]
    balanced = subprocess.run(words, capture_output=True, text=True, check=False)
    if balanced.returncode != 0:
        raise Wrong(balanced.stdout.strip())
    report = Report(f"{folder}/report.csv")
    submits = [it for centre in centres for it in centre.submits]
    runs, requests = sent_by_runs(folder)
    for k, its in runs.items():
        if len(its) > 1:
            raise Wrong(f"message {k} was sent by {sorted(its)}")
    statuses, good = collections.defaultdict(list), {}
    for it in submits:
        k = int(it.destination.removeprefix("44"))
        if (k, it.part, it.number) not in requests:
            raise Wrong(f"a centre read {it}, of which there is no note")
        statuses[k, it.part].append(it.status)
        if it.status == 0:
            good[it.message_id] = (k, it.part)
    for place, its in statuses.items():
        if any(it not in RETRY for it in its[:-1]):
            raise Wrong(f"message {place[0]}, part {place[1]} was sent again: {its}")
    outcomes = collections.Counter()
    for k, end in enumerate(report.ends):
        for part, _attempts, outcome, _status, message_id in end:
            outcomes[outcome] += 1
            if outcome == "charged" and good.pop(message_id, None) != (k, int(part)):
                raise Wrong(f"message {k}, part {part} is charged by {message_id}, which is no answer of a centre to it")
    lost = [place for place in good.values() if not is_unanswered(report, *place)]
    if lost:
        raise Wrong(f"answered with ESME_ROK, and neither charged nor unanswered: {lost[:5]}")
    faults = [it for centre in centres for it in centre.faults]
    if faults:
        raise Wrong("; ".join(faults))
    told = ", ".join(f"{count} {it}" for it, count in sorted(outcomes.items()))
    return f"{len(report.ends)} messages, {len(submits)} submits: {told}; {len(good)} answers with ESME_ROK that nobody heard"


def is_unanswered(report, k, part):
    return any(it[0] == str(part) and it[2] == "unanswered" for it in report.ends[k])
