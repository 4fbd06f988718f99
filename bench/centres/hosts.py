"""Hosts as network namespaces of this machine, each with an sshd, on a network with this one; for bench/fleet. It wants root, and iproute2
and openssh-server. All that is made is removed."""
import os
import subprocess
import time

HERE = "198.18.0.1"  # of the addresses for benchmarks (RFC 2544)


def does(*words, check=True):
    return subprocess.run(words, check=check, capture_output=not check, text=True).stdout


class Hosts:
    """`with Hosts(folder) as hosts`: two hosts, `one` and `two`, which see this machine's files and reach it as HERE."""

    names = ("one", "two")

    def __init__(self, folder):
        self.folder, self.sshds, self.made_room = folder, [], False
        self.prefix = f"fl{os.getpid() % 100000}"

    def space(self, name):
        return f"{self.prefix}{name}"

    def __enter__(self):
        try:
            self.make()
        except BaseException:
            self.__exit__()
            raise
        return self

    def make(self):
        bridge = f"{self.prefix}br"
        does("ip", "link", "add", bridge, "type", "bridge")
        does("ip", "addr", "add", f"{HERE}/24", "dev", bridge)
        does("ip", "link", "set", bridge, "up")
        for name in ("key", "host_key"):
            does("ssh-keygen", "-q", "-t", "ed25519", "-N", "", "-f", f"{self.folder}/{name}")
        if not os.path.exists("/run/sshd"):
            os.makedirs("/run/sshd", 0o755)
            self.made_room = True
        with open(f"{self.folder}/ssh_config", "w", encoding="ascii") as file:
            for k, name in enumerate(self.names):
                file.write(f"Host {name}\n HostName 198.18.0.{k + 2}\n")
            file.write(f"Host *\n User root\n IdentityFile {self.folder}/key\n IdentitiesOnly yes\n StrictHostKeyChecking accept-new\n")
            file.write(f" UserKnownHostsFile {self.folder}/known\n LogLevel ERROR\n")
            file.write(" ServerAliveInterval 1\n ServerAliveCountMax 3\n ConnectTimeout 5\n")
        for k, name in enumerate(self.names):
            self.make_host(name, f"198.18.0.{k + 2}", bridge)

    def make_host(self, name, address, bridge):
        space, link, inner = self.space(name), f"{self.prefix}{name}v", f"{self.prefix}{name}p"
        does("ip", "netns", "add", space)
        does("ip", "link", "add", link, "type", "veth", "peer", "name", inner, "netns", space)
        does("ip", "link", "set", link, "master", bridge, "up")
        inside = ("ip", "-n", space)
        does(*inside, "link", "set", "lo", "up")
        does(*inside, "addr", "add", f"{address}/24", "dev", inner)
        does(*inside, "link", "set", inner, "up")
        config = f"{self.folder}/sshd_{name}"
        with open(config, "w", encoding="ascii") as file:
            file.write(f"ListenAddress {address}\nHostKey {self.folder}/host_key\nAuthorizedKeysFile {self.folder}/key.pub\nPidFile none\n")
            file.write("StrictModes no\nUsePAM no\nPermitRootLogin yes\nPasswordAuthentication no\nMaxStartups 100\nMaxSessions 100\n")
        words = ["ip", "netns", "exec", space, "/usr/sbin/sshd", "-D", "-e", "-f", config]
        with open(f"{self.folder}/sshd_{name}.log", "w", encoding="ascii") as log:
            self.sshds.append(subprocess.Popen(words, stderr=log))
        for _ in range(100):
            if subprocess.run(["ssh", "-F", f"{self.folder}/ssh_config", name, "true"], check=False, stderr=subprocess.DEVNULL).returncode == 0:
                return
            time.sleep(0.1)
        raise OSError(f"the sshd of host {name} doesn't answer: {self.folder}/sshd_{name}.log")

    def words(self, jobs):
        """What parallel is told of them."""
        return ["--ssh", f"ssh -F {self.folder}/ssh_config", "--sshlogin", ",".join(f"{jobs}/{it}" for it in self.names)]

    def set(self, name, state):
        """Takes a host off the network (`down`), and puts it there again (`up`)."""
        does("ip", "link", "set", f"{self.prefix}{name}v", state)

    def __exit__(self, *_):
        for name in self.names:
            for pid in does("ip", "netns", "pids", self.space(name), check=False).split():
                does("kill", "-9", pid, check=False)
            does("ip", "link", "del", f"{self.prefix}{name}v", check=False)
            does("ip", "netns", "del", self.space(name), check=False)
        for it in self.sshds:
            it.wait()
        does("ip", "link", "del", f"{self.prefix}br", check=False)
        if self.made_room:
            does("rmdir", "/run/sshd", check=False)
