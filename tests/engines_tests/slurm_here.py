"""A Slurm cluster of two nodes on this machine, as the user who runs, for as long as a test lasts."""

from __future__ import annotations

import getpass
import os
import pathlib
import shutil
import subprocess
import tempfile
import time

from ports import free_ports
from runs import kill, path_with_sbin

PROGRAMS = ("munged", "slurmctld", "slurmd", "sbatch", "squeue", "scancel", "sinfo")

# Nothing of systemd, of groups of processes or of accounts: a user without rights may start all of it.
SETTINGS = """ClusterName=test
SlurmctldHost=localhost
SlurmctldPort={ports[0]}
SlurmUser={user}
SlurmdUser={user}
AuthType=auth/munge
AuthInfo=socket={folder}/munge.socket
CredType=cred/munge
StateSaveLocation={folder}/state
SlurmdSpoolDir={folder}/spool/%n
SlurmctldPidFile={folder}/slurmctld.pid
SlurmdPidFile={folder}/%n.pid
SlurmctldLogFile={folder}/slurmctld.log
SlurmdLogFile={folder}/%n.log
ProctrackType=proctrack/linuxproc
TaskPlugin=task/none
MpiDefault=none
SwitchType=switch/none
JobAcctGatherType=jobacct_gather/none
AccountingStorageType=accounting_storage/none
ReturnToService=2
SlurmdTimeout={patience}
MessageTimeout=60
KillWait=1
MaxArraySize=101
SchedulerParameters=sched_interval=1,bf_interval=1,sched_min_interval=0
SelectType=select/cons_tres
SelectTypeParameters=CR_Core
NodeName=n1 NodeHostname=localhost NodeAddr=127.0.0.1 Port={ports[1]} CPUs=2
NodeName=n2 NodeHostname=localhost NodeAddr=127.0.0.1 Port={ports[2]} CPUs=2
PartitionName=main Nodes=n1,n2 Default=YES MaxTime=INFINITE State=UP
"""


class Cluster:
    """munged, slurmctld and the slurmd of two nodes with two processors each. A node that does not answer for `patience` seconds
    is taken for dead."""

    def __init__(self, patience: int = 60) -> None:
        self.folder = pathlib.Path(tempfile.mkdtemp(prefix="linksim-slurm-"))
        self.folder.chmod(0o755)
        self.environment = {
            **os.environ, "PATH": path_with_sbin(), "SLURM_CONF": str(self.folder / "slurm.conf"), "TZ": "UTC",
        }
        self.children: dict[str, subprocess.Popen[bytes]] = {}
        (self.folder / "munge.key").write_bytes(os.urandom(128))
        (self.folder / "munge.key").chmod(0o600)
        for name in ("state", "spool/n1", "spool/n2"):
            (self.folder / name).mkdir(parents=True)
        values = {"folder": self.folder, "user": getpass.getuser(), "ports": free_ports(3), "patience": patience}
        (self.folder / "slurm.conf").write_text(SETTINGS.format(**values))
        self.start_munge()
        self.start("slurmctld", "slurmctld", "-D", "-f", str(self.folder / "slurm.conf"))
        for node in ("n1", "n2"):
            self.start_node(node)
        self.wait_for("idle*2")

    def start_munge(self) -> None:
        """The daemon by which the others know each other."""
        names = {"key-file": "munge.key", "socket": "munge.socket", "pid-file": "munged.pid", "log-file": "munged.log"}
        options = [f"--{name}={self.folder / file}" for name, file in {**names, "seed-file": "munged.seed"}.items()]
        self.start("munged", "munged", "-F", "--force", "--num-threads=2", *options)

    def start(self, name: str, *words: str) -> None:
        """A daemon, with its words in a file of its name."""
        with open(self.folder / f"{name}.said", "ab") as said:
            self.children[name] = subprocess.Popen(words, env=self.environment, stdout=said, stderr=said)

    def start_node(self, node: str) -> None:
        """The daemon of a node."""
        self.start(node, "slurmd", "-D", "-N", node, "-f", str(self.folder / "slurm.conf"))

    def asked(self, *words: str) -> str:
        """What a command of Slurm answers, also if it fails."""
        ended = subprocess.run(words, env=self.environment, capture_output=True, text=True, timeout=180)
        return ended.stdout

    def wait_for(self, wanted: str, seconds: float = 180) -> None:
        """Waits until both nodes are in a state."""
        state, _, count = wanted.partition("*")
        end = time.monotonic() + seconds
        while self.asked("sinfo", "--noheader", "--Node", "--format=%T").split().count(state) < int(count or 2):
            if time.monotonic() > end:
                said = "".join(path.read_text(errors="replace")[-2000:] for path in self.folder.glob("*.said"))
                raise AssertionError(f"Slurm is not {state}: {said}")
            time.sleep(0.1)

    def kill_node(self, node: str) -> None:
        """Ends a node at once, with the jobs on it, as if its power were off."""
        child = self.children.pop(node)
        for pid in [*steps_below(child.pid), *self.jobs_of(node), child.pid]:
            kill(pid)
        child.wait()

    def jobs_of(self, node: str) -> list[int]:
        """The processes that have a node's name in their environment, as its jobs do."""
        found = []
        for path in pathlib.Path("/proc").glob("[0-9]*/environ"):
            try:
                text = path.read_bytes()
            except OSError:
                continue
            if f"SLURMD_NODENAME={node}\0".encode() in text and f"SLURM_CONF={self.folder}".encode() in text:
                found.append(int(path.parent.name))
        return found

    def close(self) -> None:
        """Ends all of it."""
        self.asked("scancel", "--user", getpass.getuser())
        for name in ("n1", "n2", "slurmctld", "munged"):
            child = self.children.pop(name, None)
            if child:
                child.terminate()
                try:
                    child.wait(10)
                except subprocess.TimeoutExpired:
                    child.kill()
                    child.wait()
        shutil.rmtree(self.folder, ignore_errors=True)


def steps_below(pid: int) -> list[int]:
    """The processes below one, each after its parent."""
    found = []
    for path in pathlib.Path("/proc").glob("[0-9]*/stat"):
        try:
            fields = path.read_text().rpartition(")")[2].split()
        except OSError:
            continue
        if int(fields[1]) == pid:
            found += [int(path.parent.name), *steps_below(int(path.parent.name))]
    return found
