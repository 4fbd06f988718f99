"""Where a case of bench/interop runs: a folder, processes that end with it, ports, and captures by tshark."""
import os
import re
import shutil
import signal
import socket
import subprocess
import tempfile
import time

PLACES = {
    "libnet-smpp-perl": "/usr/share/perl5/Net/SMPP.pm",
    "kannel-extras": "/usr/lib/kannel/test/drive_smpp",
    "osmo-msc": "/usr/bin/osmo-msc",
    "stunnel4": "/usr/bin/stunnel4",
    "openssl": "/usr/bin/openssl",
    "tshark": "/usr/bin/tshark",
}


class Missing(Exception):
    """A package that a case wants isn't here."""


class Room:
    """A folder and the processes of one case, all ended with it."""

    def __init__(self):
        self.folder = tempfile.mkdtemp(prefix="interop-")
        self.children = []

    def path(self, name):
        return f"{self.folder}/{name}"

    def start(self, words, name, **more):
        """A process whose output is kept in NAME."""
        with open(self.path(name), "wb") as out:
            child = subprocess.Popen(words, stdout=out, stderr=subprocess.STDOUT, start_new_session=True, cwd=self.folder, **more)
        self.children.append(child)
        return child

    def centre(self, words, name, port, **more):
        """Such a process, once it listens on the port."""
        child = self.start(words, name, **more)
        wait_until(lambda: listens(port) or child.poll() is not None, f"{words[0]} listens")
        if child.poll() is not None:
            raise RuntimeError(f"{words[0]} ended: {read(self.path(name))[-300:]}")

    def close(self):
        for it in self.children:
            try:
                os.killpg(it.pid, signal.SIGKILL)
            except ProcessLookupError:
                pass
            it.wait()
        shutil.rmtree(self.folder)


def read(name):
    with open(name, errors="replace") as file:
        return file.read()


def wait_until(holds, what, seconds=10):
    end = time.monotonic() + seconds
    while not holds():
        if time.monotonic() > end:
            raise RuntimeError(f"waited {seconds} s until {what}")
        time.sleep(0.05)


def listens(port):
    """Whether something listens on the port; a look that makes no connection."""
    with open("/proc/net/tcp") as file:
        return any(re.search(rf":{port:04X} 00000000:0000 0A ", it) for it in file)


def free_port():
    with socket.create_server(("127.0.0.1", 0)) as it:
        return it.getsockname()[1]


def wants(*packages):
    missing = [it for it in packages if not os.path.exists(PLACES[it])]
    if missing:
        raise Missing(", ".join(missing))


class Capture:
    """A capture of a port by tshark, if it is here."""

    def __init__(self, room, port):
        self.room, self.port, self.child = room, port, None
        if os.path.exists(PLACES["tshark"]):
            words = ["tshark", "-q", "-i", "lo", "-f", f"tcp port {port}", "-w", room.path("capture")]
            self.child = room.start(words, "tshark.log")
            # (where other programs take the processors, its start takes a while)
            wait_until(lambda: "Capture started" in read(room.path("tshark.log")) or self.child.poll() is not None, "tshark captures", 60)
            time.sleep(0.3)

    def stop(self):
        """The file of the capture."""
        if self.child is None:
            raise Missing("tshark")
        time.sleep(1.5)
        self.child.send_signal(signal.SIGINT)
        self.child.wait(20)
        if not os.path.exists(self.room.path("capture")):
            raise Missing("tshark's right to capture")
        return self.room.path("capture")
