"""Machines behind ssh: sshd on ports of this one, by the names one.example, two.example and so on."""

from __future__ import annotations

import os
import pathlib
import shutil
import subprocess
import tempfile

from ports import free_ports, wait_for
from runs import kill, path_with_sbin
from slurm_here import steps_below

PROGRAMS = ("sshd", "ssh", "ssh-keygen", "parallel")
NAMES = ("one", "two", "three")

SERVER = """Port {port}
ListenAddress 127.0.0.1
HostKey {folder}/host
AuthorizedKeysFile {folder}/user.pub
PidFile none
UsePAM no
StrictModes no
PasswordAuthentication no
MaxStartups 100
"""
CLIENT = """Host {name}.example
HostName 127.0.0.1
Port {port}
IdentityFile {folder}/user
UserKnownHostsFile /dev/null
StrictHostKeyChecking no
LogLevel ERROR
"""


class Hosts:
    """Two machines that answer, and a third one, three.example, where nobody listens."""

    def __init__(self) -> None:
        self.folder = pathlib.Path(tempfile.mkdtemp(prefix="linksim-hosts-"))
        self.children: dict[str, subprocess.Popen[bytes]] = {}
        for name in ("host", "user"):
            words = ["ssh-keygen", "-q", "-t", "ed25519", "-N", "", "-f", str(self.folder / name)]
            subprocess.run(words, check=True, stdin=subprocess.DEVNULL)
        if os.getuid() == 0:
            pathlib.Path("/run/sshd").mkdir(exist_ok=True)  # where sshd wants to be locked in, if root starts it
        ports = dict(zip(NAMES, free_ports(3)))
        texts = [CLIENT.format(name=name, port=port, folder=self.folder) for name, port in ports.items()]
        (self.folder / "config").write_text("".join(texts))
        for name in NAMES[:2]:
            (self.folder / name).write_text(SERVER.format(port=ports[name], folder=self.folder))
            sshd = shutil.which("sshd", path=path_with_sbin())
            with open(self.folder / f"{name}.said", "wb") as said:
                words = [str(sshd), "-D", "-e", "-f", str(self.folder / name)]
                self.children[name] = subprocess.Popen(words, stdout=said, stderr=said)
        for name in NAMES[:2]:
            wait_for(ports[name])
        home = self.folder / "home"
        home.mkdir()
        self.environment = {**os.environ, "PARALLEL_SSH": f"ssh -F {self.folder}/config", "PARALLEL_HOME": str(home)}

    def kill(self, name: str) -> None:
        """Ends a machine at once, with all that runs on it."""
        child = self.children.pop(name)
        for pid in [child.pid, *reversed(steps_below(child.pid))]:
            kill(pid)
        child.wait()

    def close(self) -> None:
        """Ends all of them."""
        for name in list(self.children):
            self.kill(name)
        shutil.rmtree(self.folder)
