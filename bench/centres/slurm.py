"""One node of Slurm on this machine, with all its files in a folder; for bench/fleet. It wants root, and Debian's slurmctld, slurmd,
slurm-client and munge. The daemons end with it."""
import os
import socket
import subprocess
import time

CONFIG = """ClusterName=fleet
SlurmctldHost={host}(127.0.0.1)
SlurmctldPort={port}
SlurmdPort={port_of_node}
SlurmUser=root
SlurmdUser=root
AuthType=auth/munge
AuthInfo=socket={folder}/munge.socket
StateSaveLocation={folder}/state
SlurmdSpoolDir={folder}/spool
SlurmctldPidFile={folder}/slurmctld.pid
SlurmdPidFile={folder}/slurmd.pid
ProctrackType=proctrack/linuxproc
TaskPlugin=task/none
JobAcctGatherType=jobacct_gather/none
SelectType=select/cons_tres
SelectTypeParameters=CR_Core
SchedulerParameters=batch_sched_delay=0,sched_interval=2
SlurmdParameters=config_overrides
MailProg=/bin/true
ReturnToService=2
KillWait=2
NodeName={host} NodeAddr=127.0.0.1 CPUs=16 RealMemory=8000 State=UNKNOWN
PartitionName=all Nodes={host} Default=YES State=UP MaxTime=INFINITE
"""


def free_port():
    with socket.create_server(("127.0.0.1", 0)) as it:
        return it.getsockname()[1]


class Slurm:
    """`with Slurm(folder) as slurm`: `slurm.does` runs a command of Slurm's."""

    def __init__(self, folder):
        self.folder, self.daemons = folder, []
        self.env = {**os.environ, "SLURM_CONF": f"{folder}/slurm.conf"}

    def __enter__(self):
        try:
            self.make()
        except BaseException:
            self.__exit__()
            raise
        return self

    def make(self):
        host = socket.gethostname().split(".")[0]
        for name in ("state", "spool"):
            os.makedirs(f"{self.folder}/{name}")
        with open(f"{self.folder}/slurm.conf", "w", encoding="ascii") as file:
            file.write(CONFIG.format(host=host, folder=self.folder, port=free_port(), port_of_node=free_port()))
        with open(os.open(f"{self.folder}/munge.key", os.O_WRONLY | os.O_CREAT, 0o400), "wb") as file:
            file.write(os.urandom(128))
        names = [f"--{it}-file={self.folder}/munge.{it}" for it in ("key", "pid", "log", "seed")]
        self.start("munged", "--foreground", "--force", f"--socket={self.folder}/munge.socket", *names)
        self.wait_for(lambda: os.path.exists(f"{self.folder}/munge.socket"), "munged")
        self.start("slurmctld", "-D", "-c")
        self.start("slurmd", "-D", "-N", host)
        self.wait_for(lambda: self.does("sinfo", "--noheader", "--format=%T", check=False).strip() == "idle", "the node")

    def start(self, *words):
        with open(f"{self.folder}/{words[0]}.out", "w", encoding="ascii") as log:
            self.daemons.append(subprocess.Popen([f"/usr/sbin/{words[0]}", *words[1:]], env=self.env, stdout=log, stderr=log))

    def wait_for(self, is_there, what):
        for _ in range(300):
            if is_there():
                return
            time.sleep(0.1)
        raise OSError(f"Slurm: {what} is not there after half a minute: {self.folder}")

    def does(self, *words, check=True, **env):
        return subprocess.run(words, env={**self.env, **env}, check=check, capture_output=True, text=True).stdout

    def __exit__(self, *_):
        for it in reversed(self.daemons):
            it.terminate()
        for it in reversed(self.daemons):
            try:
                it.wait(20)
            except subprocess.TimeoutExpired:
                it.kill()
                it.wait()
