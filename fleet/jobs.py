"""A job: a folder with send.toml, a config for sms-send whose names of files are relative to that folder, and these files. Split,
it has runs in parts/NN/K: part NN by accounts, runs K one after the other."""
import glob
import os
import re
import tomllib

from books import Ledger
from tables import Fault, number, table

CONFIG, FIELDS, PARTS = "send.toml", "fields.toml", "parts"
ACCOUNTS = ["account", "credits"]
MESSAGES = ["account", "source", "destination", "text"]
WITH_REFS = [*MESSAGES, "ref"]
TARIFF = ["prefix", "credits"]
NUMBERS = ["message"]
MOST_CREDITS = 2**40
# The names of files in a config, with the names that a run's files have.
NAMES = {"accounts": "accounts.csv", "messages": "messages.csv", "tariff": "tariff.csv"}


class Job:
    """Config, accounts (name: credits), messages (four fields each, or five with the sender's references) and tariff (prefix: credits) of a folder, and
    the text of a fields file. The accounts of a job on a ledger are those that its messages name."""

    def __init__(self, folder, ledger=None, fields=None):
        self.folder, self.ledger = folder, ledger and Ledger(ledger)
        self.fields = fields and read_toml(fields)[0]
        self.config = read_config(f"{folder}/{CONFIG}")
        names = {key: self.config[1].get(key, "" if key == "tariff" else name) for key, name in NAMES.items()}
        accounts = self.ledger.accounts if ledger else read_accounts(self.path(names["accounts"]))
        self.messages_name = self.path(names["messages"])
        found = table(self.messages_name, MESSAGES, WITH_REFS)
        for line, it in found:
            if it[0] not in accounts:
                raise Fault(self.messages_name, f"no account '{it[0]}' in {ledger or names['accounts']}", line)
        self.messages = [it for _, it in found]
        self.columns = WITH_REFS if has_refs(self.messages) else MESSAGES
        named = {it[0] for it in self.messages}
        self.accounts = {it: credits for it, credits in accounts.items() if not ledger or it in named}
        self.tariff_name = self.path(names["tariff"]) if names["tariff"] else None
        self.tariff = read_tariff(self.tariff_name) if self.tariff_name else {}

    def path(self, name):
        return os.path.join(self.folder, name)

    def cost(self, destination):
        """What a part to this destination costs: the longest prefix's credits, or 1."""
        digits = destination.removeprefix("+")
        return next((self.tariff[digits[:k]] for k in range(len(digits), -1, -1) if digits[:k] in self.tariff), 1)

    def runs(self):
        """The folders of the runs, part by part."""
        return [it for it in map(runs_of_part, parts_of_job(self.folder)) if it]


def has_refs(messages):
    """Whether messages have references: those of a file all have, or none."""
    return bool(messages) and len(messages[0]) == len(WITH_REFS)


def parts_of_job(folder):
    """The folders of a job's parts."""
    parts = [it for it in glob.glob(f"{glob.escape(folder)}/{PARTS}/*") if re.fullmatch("[0-9]+", os.path.basename(it))]
    if not parts:
        raise Fault(folder, f"was not split: there is no folder {PARTS}/")
    return sorted(parts, key=lambda it: int(os.path.basename(it)))


def runs_of_part(folder):
    """The folders of a part's runs in their order: K, what was left of K as K.1, K.2, .., then K + 1."""
    found = glob.glob(f"{glob.escape(folder)}/*")
    runs = [it for it in found if re.fullmatch(r"[0-9]+(\.[0-9]+)?", os.path.basename(it))]
    return sorted(runs, key=lambda it: [int(number) for number in os.path.basename(it).split(".")])


def read_toml(name):
    """The text of a file and what it says."""
    try:
        with open(name, newline="", encoding="utf-8") as file:
            text = file.read()
        found = tomllib.loads(text)
    except OSError as it:
        raise Fault(name, it.strerror) from None
    except (UnicodeDecodeError, tomllib.TOMLDecodeError) as it:
        raise Fault(name, f"is no TOML: {it}") from None
    return text, found


def read_config(name):
    """The text of a config and what it says."""
    text, found = read_toml(name)
    for key in NAMES:
        if not isinstance(found.get(key, ""), str):
            raise Fault(name, f"{key} has to be a file's name")
    return text, found


def config_of_run(config, name):
    """The text of a config with the names that a run's files have, and nothing else changed."""
    text, found = config
    wanted = found | {key: new for key, new in NAMES.items() if found.get(key)}
    value, end = r"\"[^\"\n]*\"|'[^'\n]*'", r"[ \t\r]*(?:#.*)?$"
    for key in wanted.keys() & NAMES.keys():
        start = rf"[ \t]*[\"']?{key}[\"']?[ \t]*=[ \t]*"
        text = re.sub(rf"(?m)^({start})(?:{value})(?={end})", rf'\g<1>"{wanted[key]}"', text)
    if tomllib.loads(text) != wanted:
        raise Fault(name, f"{', '.join(NAMES)} have to stand on lines of their own, as KEY = \"NAME\"")
    return text


def read_accounts(name):
    accounts = {}
    for line, (account, credits) in table(name, ACCOUNTS):
        if account in accounts:
            raise Fault(name, f"account '{account}' is there twice", line)
        accounts[account] = number(name, line, credits, MOST_CREDITS)
    return accounts


def read_tariff(name):
    tariff = {}
    for line, (prefix, credits) in table(name, TARIFF):
        if prefix in tariff or not re.fullmatch("[0-9]{0,20}", prefix):
            raise Fault(name, f"prefix '{prefix}' is no 0 to 20 digits, or there twice", line)
        tariff[prefix] = number(name, line, credits, 1000)
    return tariff


def messages_of(run):
    """The messages of a run, by its folder."""
    return [it for _, it in table(f"{run}/{NAMES['messages']}", MESSAGES, WITH_REFS)]


def read_numbers(name):
    """The job's numbers of a run's messages, in the run's order."""
    return [number(name, line, it[0], 10**12) for line, it in table(name, NUMBERS)]
