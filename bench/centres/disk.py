"""A disk of its own whose power can be cut; for bench/fleet. It wants root, loop devices and mkfs.ext4."""
import contextlib
import os
import shutil
import signal
import subprocess
import time


def users(place, kinds=("cwd", "fd")):
    """The processes that have a folder there for their own, or a file open."""
    for pid in filter(str.isdigit, os.listdir("/proc")):
        try:
            names = [f"/proc/{pid}/cwd"] if "cwd" in kinds else []
            names += [f"/proc/{pid}/fd/{it}" for it in os.listdir(f"/proc/{pid}/fd")] if "fd" in kinds else []
            if any(os.readlink(it).startswith(f"{place}/") for it in names):
                yield int(pid)
        except OSError:
            pass


def signal_all(pids, which):
    for pid in list(pids):
        with contextlib.suppress(ProcessLookupError):
            os.kill(pid, which)


def unmount(place):
    """Ends who uses it, and unmounts it."""
    for _ in range(100):
        if subprocess.run(["umount", place], check=False, stderr=subprocess.DEVNULL).returncode == 0:
            return
        signal_all(users(place), signal.SIGKILL)
        time.sleep(0.1)
    raise OSError(f"{place} is in use")


class Disk:
    """`with Disk(folder, size) as disk`: a file system at `disk.place`, in a file."""

    def __init__(self, folder, size):
        self.place, self.image = f"{folder}/disk", f"{folder}/image"
        os.makedirs(self.place)
        with open(self.image, "wb") as file:
            file.truncate(size)
        subprocess.run(["mkfs.ext4", "-q", "-F", self.image], check=True)

    def __enter__(self):
        self.mount()
        return self

    def mount(self):
        subprocess.run(["mount", "-o", "loop", self.image, self.place], check=True)

    def cut_power(self):
        """All that is done there stops at once, and what the disk had by then is what there is from now on."""
        signal_all(users(self.place), signal.SIGSTOP)
        time.sleep(0.1)  # (for the centre to read what had been sent)
        shutil.copyfile(self.image, f"{self.image}.cut")
        unmount(self.place)
        os.rename(f"{self.image}.cut", self.image)
        self.mount()

    def __exit__(self, *_):
        unmount(self.place)
