"""A message centre that counts and sends receipts, and keeps how each deliver_sm was answered; for tools/inbox-cases, tools/inbox-runs and
bench/drawn."""
import dataclasses
import struct
import threading
import time

from counting import BINDS, ENQUIRE, SUBMIT, Centre

DELIVER, DELIVER_RESP = 0x00000005, 0x80000005
RECEIPTED_MESSAGE_ID, MESSAGE_STATE = 0x001E, 0x0427  # (SMPP 3.4 5.3.2.12, 5.3.2.35)
STATES = {"DELIVRD": 2, "EXPIRED": 3, "DELETED": 4, "UNDELIV": 5, "ACCEPTD": 6, "UNKNOWN": 7, "REJECTD": 8}


def now():
    return int(time.time() * 1000)


def header(length, command, number, status=0):
    return struct.pack(">4I", 16 + length, command, status, number)


def parameter(tag, value):
    return struct.pack(">2H", tag, len(value)) + value


def source_of(number):
    """The source address of the deliver_sm with this number: the record of it is found by that."""
    return f"44{number}"


def receipt(number, message_id, state="DELIVRD", more="", by_parameters=False):
    """A deliver_sm with a receipt: by the text of appendix B, or by parameters alone."""
    text = b"" if by_parameters else f"id:{message_id} sub:001 dlvrd:001 submit date:2611301532 done date:2611301533 stat:{state} err:000 text:{more}".encode()
    body = b"\0\1\x01" + source_of(number).encode() + b"\0\1\x0112345\0\4\0\0\0\0\0\0\0\0" + bytes([len(text)]) + text
    if by_parameters:
        body += parameter(RECEIPTED_MESSAGE_ID, message_id.encode() + b"\0") + parameter(MESSAGE_STATE, bytes([STATES[state]]))
    return header(len(body), DELIVER, number) + body


@dataclasses.dataclass(slots=True)
class Told:
    """A deliver_sm: by which connection it went out, of which message and with which state, how it was answered (None: it wasn't), and
    whether a later connection tells the same. `made` and `answered` are moments, in milliseconds since 1970."""

    connection: int
    message_id: str
    state: str
    status: int = None
    is_told_again: bool = False
    made: int = 0
    answered: int = None


class Telling(Centre):
    """`tells` gives what is told of a message_id and when: (before, behind), two lists of states, sent before and behind its answer; `spells` how
    the receipts spell an id. With `again` what wasn't acknowledged by an earlier connection is told again on the next. `ids` gives the
    message_id of the kth submit_sm, and `padding` is the end of each text."""

    def __init__(self, tells=lambda _id: ([], ["DELIVRD"]), spells=str, ids=None, again=False, by_parameters=False, padding="", **more):
        self.tells, self.spells, self.ids, self.again = tells, spells, ids, again
        self.by_parameters, self.padding = by_parameters, padding
        self.told, self.asked, self.lock = {}, [], threading.Lock()
        super().__init__(**more)

    def submit(self, body, connection, number):
        status, answer = super().submit(body, connection, number)
        if self.ids and not status:
            self.submits[-1].message_id = self.ids(len(self.submits))
            answer = self.submits[-1].message_id.encode() + b"\0"
        return status, answer

    def tell(self, connection, message_id, state="DELIVRD"):
        """The frame of a deliver_sm, which is kept."""
        with self.lock:
            number = 1_000_000 + len(self.told)
            self.told[connection, number] = Told(connection, message_id, state, made=now())
        return receipt(number, message_id, state, self.padding, self.by_parameters)

    def answers(self, octets, connection):
        at, out = 0, []
        while len(octets) - at >= 16 and len(octets) - at >= (length := int.from_bytes(octets[at : at + 4], "big")):
            frame = octets[at : at + length]
            at += max(16, length)
            out += self.answered(frame, connection)
        return octets[at:], out

    def answered(self, frame, connection):
        """What a frame is answered by."""
        command, status, number = struct.unpack_from(">3I", frame, 4)
        if command == DELIVER_RESP:
            self.told[connection, number].status, self.told[connection, number].answered = status, now()
            return []
        if command == ENQUIRE:
            self.asked.append((connection, number, time.monotonic()))
        _rest, out = super().answers(frame, connection)
        if command == SUBMIT and self.submits[-1].message_id:
            before, behind = self.tells(self.submits[-1].message_id)
            spelled = self.spells(self.submits[-1].message_id)
            return [*(self.tell(connection, spelled, it) for it in before), *out, *(self.tell(connection, spelled, it) for it in behind)]
        if command in BINDS and self.again:
            with self.lock:
                left = [it for it in self.told.values() if it.status != 0 and it.connection != connection and not it.is_told_again]
                for it in left:
                    it.is_told_again = True
            return [*out, *(self.tell(connection, it.message_id, it.state) for it in left)]
        return out


class Deaf(Telling):
    """From its `after`th frame behind the bind on it neither reads nor answers, and closes nothing until `hear`."""

    def __init__(self, after, **more):
        self.after, self.hear, self.deaf_since = after, threading.Event(), None
        super().__init__(**more)

    def serve(self, stream, connection):
        kept, count = b"", -1
        while more := stream.recv(65536):
            kept += more
            while len(kept) >= 16 and len(kept) >= (length := int.from_bytes(kept[:4], "big")):
                frame, kept = kept[:length], kept[length:]
                count += 1
                stream.sendall(b"".join(self.answered(frame, connection)))
                if count == self.after:
                    self.deaf_since = time.monotonic()
                    self.hear.wait(60)
                    return
