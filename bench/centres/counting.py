"""A message centre that counts: it answers binds and each submit_sm, and keeps what it read of each and what it answered, for
bench/kill and bench/fleet."""
import collections
import dataclasses
import select
import socket
import struct
import threading
import time

BINDS = {0x00000002, 0x00000009}
SUBMIT, UNBIND, ENQUIRE = 0x00000004, 0x00000006, 0x00000015


@dataclasses.dataclass(slots=True)
class Submit:
    """A submit_sm: by which connection and sequence_number it came, for which part of the message to whom, and how it was answered."""

    connection: int
    number: int
    destination: str
    part: int
    status: int
    message_id: str


def parsed(body):
    """Destination and part of a submit_sm's body (SMPP 3.4 4.4.1)."""
    at = body.index(b"\0") + 3
    at = body.index(b"\0", at) + 3
    end = body.index(b"\0", at)
    esm_class = body[end + 1]
    text = body.index(b"\0", body.index(b"\0", end + 4) + 1) + 6
    # The last octet of a concatenation's header is the part's number (3GPP TS 23.040 9.2.3.24.1).
    return body[at:end].decode(), body[text + body[text]] if esm_class & 0x40 else 1


class Centre:
    """Listens from the beginning. `answer` gives the status of the answer to a message's destination and part; each answer goes out
    `latency` seconds after its request was read. Its message_ids begin with `name`."""

    def __init__(self, answer=lambda destination, part: 0, latency=0.0, host="127.0.0.1", port=0, name=""):
        self.answer, self.latency, self.name = answer, latency, name
        self.listener = socket.create_server((host, port), backlog=64)
        self.port = self.listener.getsockname()[1]
        self.submits = []
        self.threads, self.streams, self.peers = [], [], []
        self.faults = []
        self.wanted, self.reached = None, threading.Event()
        threading.Thread(target=self.accept, daemon=True).start()

    def accept(self):
        while True:
            try:
                stream, peer = self.listener.accept()
            except OSError:
                return
            self.streams.append(stream)
            self.peers.append(peer[0])
            serving = threading.Thread(target=self.serving, args=(stream, len(self.threads)), daemon=True)
            serving.start()
            self.threads.append(serving)

    def when(self, count):
        """An event for the moment when so many submits more were read."""
        self.reached = threading.Event()
        self.wanted = len(self.submits) + count
        if count == 0:
            self.reached.set()
        return self.reached

    def quiet(self):
        """Waits until all connections have ended."""
        for it in self.threads:
            it.join()

    def hang_up(self):
        """Loses all connections, and takes no more."""
        self.listener.shutdown(socket.SHUT_RDWR)
        self.listener.close()
        for connection in range(len(self.streams)):
            self.hang_up_one(connection)

    def hang_up_one(self, connection):
        """Loses a connection."""
        try:
            self.streams[connection].shutdown(socket.SHUT_RDWR)
        except (OSError, IndexError):
            pass

    def serving(self, stream, connection):
        try:
            self.serve(stream, connection)
        except (ConnectionError, BrokenPipeError):
            pass  # (a sender that was killed)
        except (ValueError, IndexError, struct.error) as fault:
            self.faults.append(f"connection {connection}: no request: {fault}")
        stream.close()

    def serve(self, stream, connection):
        stream.setsockopt(socket.IPPROTO_TCP, socket.TCP_NODELAY, 1)
        kept, due = b"", collections.deque()
        while True:
            out = []
            while due and due[0][0] <= time.monotonic():
                out += due.popleft()[1]
            if out:
                stream.sendall(b"".join(out))
            if due and not select.select([stream], [], [], max(0.0, due[0][0] - time.monotonic()))[0]:
                continue
            more = stream.recv(65536)
            if not more:
                self.answer_rest(stream, due)
                return
            kept, answers = self.answers(kept + more, connection)
            due.append((time.monotonic() + self.latency, answers))

    def answer_rest(self, stream, due):
        """Sends the answers that are owed to a sender that writes no more: it still reads, and waits for them."""
        for moment, answers in due:
            time.sleep(max(0.0, moment - time.monotonic()))
            stream.sendall(b"".join(answers))

    def answers(self, octets, connection):
        """The answers to the whole frames (SMPP 3.4 3.2), and the octets of the one that isn't whole."""
        at, out = 0, []
        while len(octets) - at >= 16:
            length, command, _status, number = struct.unpack_from(">4I", octets, at)
            if not 16 <= length <= 70000:
                raise ValueError(octets[at : at + 16])
            if len(octets) - at < length:
                break
            status, body = 0, b""
            if command in BINDS:
                body = b"COUNTS\0"
            elif command == SUBMIT:
                status, body = self.submit(octets[at + 16 : at + length], connection, number)
            elif command not in (UNBIND, ENQUIRE):
                raise ValueError(octets[at : at + 16])
            out.append(struct.pack(">4I", 16 + len(body), command | 0x80000000, status, number) + body)
            at += length
        return octets[at:], out

    def submit(self, body, connection, number):
        destination, part = parsed(body)
        status = self.answer(destination, part)
        message_id = "" if status else f"{self.name}{connection}-{len(self.submits)}"
        self.submits.append(Submit(connection, number, destination, part, status, message_id))
        if self.wanted is not None and len(self.submits) >= self.wanted:
            self.reached.set()
        return status, b"" if status else message_id.encode() + b"\0"
