"""A run's report with its statement (docs/FORMATS.md, Report and statement)."""
from tables import Fault, number, records

REPORT = ["message", "part", "attempts", "outcome", "status", "id"]
STATEMENT = ["account", "topped", "free", "reserved", "charged", "returned"]
REFUSALS = {"no-account", "no-credit", "too-long", "bad-address", "bind-closed", "out-of-memory"}
# Under what a part's cost stands in the statement.
BOOKED = {"unanswered": "reserved", "charged": "charged", "refused": "returned", "unsent": "returned"}
# What a message that didn't go out at all was refused for, and for which the file itself is not to blame.
NOT_SENT = {"no-credit", "bind-closed", "out-of-memory"}


class Report:
    """`ends`: of each message its records behind the message's number. `rows`: of each account its numbers by their names."""

    def __init__(self, name):
        self.name = name
        found = records(name)
        plain = [it for _, it in found]
        if plain[:1] != [REPORT] or STATEMENT not in plain:
            raise Fault(name, "is no report with a statement")
        middle = plain.index(STATEMENT)
        self.ends = ends_of(name, found[1:middle])
        self.rows = {}
        for line, it in found[middle + 1 :]:
            if len(it) != len(STATEMENT) or it[0] in self.rows:
                raise Fault(name, "a record of the statement has an account of its own and five numbers", line)
            self.rows[it[0]] = {key: number(name, line, text, 2**64) for key, text in zip(STATEMENT[1:], it[1:])}


def ends_of(name, found):
    """The ends of all messages: each has one refusal with part 0, or its parts from 1 on."""
    ends = []
    for line, it in found:
        if len(it) != len(REPORT):
            raise Fault(name, "a record of the report has six fields", line)
        message, part, outcome = number(name, line, it[0], 10**12), number(name, line, it[1], 255), it[3]
        is_new = message == len(ends) and part in (0, 1)
        is_next = ends and message == len(ends) - 1 and part == len(ends[-1]) + 1 and ends[-1][0][0] != "0"
        if not (is_new or is_next) or outcome not in (BOOKED if part else REFUSALS):
            raise Fault(name, f"part {part} of message {message}, '{outcome}', can't stand here", line)
        if is_new:
            ends.append([])
        ends[-1].append(it[1:])
    return ends


def is_unsent(end):
    """Whether nothing of the message went out, for no fault of its own: so it may be sent by another run."""
    return all(outcome in NOT_SENT or outcome == "unsent" for _, _, outcome, *_ in end)


def booked(end, cost):
    """What a message's parts come to in the statement."""
    sums = dict.fromkeys(("reserved", "charged", "returned"), 0)
    for part, _, outcome, *_ in end:
        if part != "0":
            sums[BOOKED[outcome]] += cost
    return sums
