"""A folder with the files of a run that has an inbox, for tools/inbox-runs, and what has to hold of it."""
import collections
import datetime
import re

from receipts import now, source_of
from rounds import FILES, Room, Wrong, expect

INBOX = ["--inbox", "inbox"]
KEYS = 'mode = "transceiver"\nreceipts = true\n'
UNKEPT = 0x64  # ESME_RX_T_APPN (SMPP 3.4 5.1.3)
FINAL = ("DELIVRD", "EXPIRED", "DELETED", "UNDELIV", "REJECTD")
RECORD = re.compile(rb"received,(\d+),(\d+),([^,]*),([^,]*),(\d+),([^,]*),([^,]*),([^,]*),([^,\n]*)\n")
Record = collections.namedtuple("Record", "time bind source destination esm_class id state error text")


def records_of(octets):
    """The records of an inbox; a last line without its line feed doesn't count."""
    lines = octets[: octets.rfind(b"\n") + 1].splitlines(keepends=True)
    found = [RECORD.fullmatch(it) for it in lines]
    expect(all(found), f"the inbox has a line that is no record: {[it for it, ok in zip(lines, found) if not ok][:1]}")
    return [Record(*(field.decode() for field in it.groups())) for it in found]


def heard(report, records, spells=str):
    """What `delivered` has to print of a report by these records."""
    by_id = {}
    for it in records:
        if it.id not in by_id or by_id[it.id].state not in FINAL:
            by_id[it.id] = it
    lines = ["message,part,id,state,error,heard\n"]
    for message, end in enumerate(report.ends):
        for part, _attempts, outcome, _status, message_id in end:
            if outcome == "charged":
                it = by_id.get(spells(message_id))
                lines.append(f"{message},{part},{message_id},{f'{it.state},{it.error},{told_time(it.time)}' if it else ',,'}\n")
    return "".join(lines)


def told_time(milliseconds):
    whole = datetime.datetime.fromtimestamp(int(milliseconds) // 1000, datetime.timezone.utc)
    return f"{whole:%Y-%m-%dT%H:%M:%S}.{int(milliseconds) % 1000:03d}Z"


class InboxRoom(Room):
    """A folder with the files of a run whose inbox hears from a centre."""

    def __init__(self, program, folder, centre, keys="", messages=60):
        super().__init__(program, folder, centre, KEYS + (keys or "window = 4\ndepth = 4\n"), messages)

    def records(self):
        return records_of(self.said("inbox"))

    def is_kept(self):
        """Each deliver_sm that was acknowledged with 0 has its record, and each record is one that the centre sent. Gives the records."""
        self.centre.quiet()
        expect(not self.centre.faults, "; ".join(self.centre.faults))
        records, told = self.records(), {source_of(number): it for (_connection, number), it in self.centre.told.items()}
        count = collections.Counter(it.source for it in records)
        expect(set(count) <= set(told), f"the inbox has a record of nothing: {set(count) - set(told)}")
        lost = [it for source, it in told.items() if it.status == 0 and count[source] != 1]
        expect(not lost, f"{len(lost)} deliver_sm were acknowledged, and have no record or several: {lost[:1]}")
        expect(all(it.status in (None, 0, UNKEPT) for it in told.values()), "a deliver_sm has another answer")
        for it in records:
            mine = told[it.source]
            state = it.state and (mine.message_id, mine.state) == (it.id, it.state)
            expect(state and it.destination == "12345" and it.esm_class == "4", f"the record {it} isn't what {mine} told")
            expect(mine.made <= int(it.time) <= (mine.answered or now()), f"the record {it} has another time than {mine}")
        self.bind_by_connection(records, told)
        return records

    def bind_by_connection(self, records, told):
        """The bind that the records of a connection have, which is one."""
        found = {}
        for it in records:
            found.setdefault(told[it.source].connection, set()).add(int(it.bind))
        expect(all(len(binds) == 1 for binds in found.values()), f"the records of a connection have several binds: {found}")
        return {connection: binds.pop() for connection, binds in found.items()}

    def delivered(self, records, *words, spells=str):
        """What `delivered` prints, which is what these records say of the parts that were charged."""
        report = self.report(self.does("recover", *FILES).stdout)
        printed = self.does("delivered", *FILES, *INBOX, *words).stdout.decode()
        wanted = heard(report, records, spells)
        if printed != wanted:
            unlike = [pair for pair in zip(printed.splitlines(), wanted.splitlines()) if pair[0] != pair[1]]
            raise Wrong(f"`delivered` printed {printed.count(chr(10))} lines and not {wanted.count(chr(10))}, or {unlike[:1]}")
        return printed
