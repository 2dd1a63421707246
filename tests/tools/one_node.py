"""A Slurm of one node on this machine, for trying what is meant for a cluster:

    python3 tests/tools/one_node.py start FOLDER && export SLURM_CONF=FOLDER/slurm.conf
    python3 tests/tools/one_node.py stop FOLDER

All its files are in FOLDER. Its daemons slurmctld, slurmd and munged run as the user who starts
them, on ports that were free, so several can run side by side. A stop ends jobs and daemons. It
needs slurm-wlm and munge, whose services need not be enabled, and no systemd."""

import contextlib
import getpass
import os
import pathlib
import re
import secrets
import signal
import socket
import subprocess
import sys

from base import comes

CONFIGURATION = """\
ClusterName=one
SlurmctldHost={host}(127.0.0.1)
SlurmctldPort={ports[0]}
SlurmdPort={ports[1]}
SlurmUser={user}
SlurmdUser={user}
AuthType=auth/munge
AuthInfo=socket={folder}/munge.socket
CredType=cred/munge
StateSaveLocation={folder}/state
SlurmdSpoolDir={folder}/spool
SlurmctldPidFile={folder}/slurmctld.pid
SlurmdPidFile={folder}/slurmd.pid
SlurmctldLogFile={folder}/slurmctld.log
SlurmdLogFile={folder}/slurmd.log
ProctrackType=proctrack/linuxproc
TaskPlugin=task/none
SwitchType=switch/none
MpiDefault=none
JobAcctGatherType=jobacct_gather/none
AccountingStorageType=accounting_storage/none
SelectType=select/cons_tres
SelectTypeParameters=CR_Core
SchedulerType=sched/backfill
SchedulerParameters=batch_sched_delay=0,sched_interval=1
ReturnToService=2
KillWait=2
NodeName={host} NodeAddr=127.0.0.1 CPUs={processors} RealMemory={memory} State=UNKNOWN
PartitionName=main Nodes=ALL Default=YES MaxTime=INFINITE State=UP
"""


def free_ports():
    """Two ports on which nothing listens."""
    with socket.socket() as one, socket.socket() as other:
        for each in (one, other):
            each.bind(("127.0.0.1", 0))
        return one.getsockname()[1], other.getsockname()[1]


class Slurm:
    def __init__(self, folder):
        self.folder = pathlib.Path(folder).resolve()
        if re.search("[^a-zA-Z0-9._/-]", str(self.folder)):
            sys.exit(f"{folder}: Slurm takes letters, digits, '.', '_', '-' and '/' in a path")
        self.env = {**os.environ, "SLURM_CONF": f"{self.folder}/slurm.conf",
                    "PATH": f"{os.environ['PATH']}:/usr/sbin"}

    def process_of(self, daemon):
        """Its process, or None where it doesn't run."""
        with contextlib.suppress(OSError, ValueError):
            process = int((self.folder / f"{daemon}.pid").read_text())
            if pathlib.Path(f"/proc/{process}/comm").read_text().strip() == daemon:
                return process
        return None

    def told(self, *command):
        """What a command of Slurm says; nothing where it fails."""
        ran = subprocess.run(command, env=self.env, capture_output=True, text=True, check=False)
        return ran.stdout.strip()

    def configure(self):
        """Writes what Slurm asks for, with this machine as the only node."""
        for name in ("state", "spool"):
            (self.folder / name).mkdir(parents=True, exist_ok=True)
        memory = os.sysconf("SC_PHYS_PAGES") * os.sysconf("SC_PAGE_SIZE") // (1100 * 1024)
        values = {"host": socket.gethostname().partition(".")[0], "ports": free_ports(),
                  "user": getpass.getuser(), "folder": self.folder, "memory": memory,
                  "processors": len(os.sched_getaffinity(0))}
        (self.folder / "slurm.conf").write_text(CONFIGURATION.format(**values))
        (self.folder / "cgroup.conf").write_text("CgroupPlugin=cgroup/v1\n")
        key = self.folder / "munge.key"
        key.touch(0o600)
        key.write_bytes(secrets.token_bytes(128))

    def run(self, *command):
        """Starts a daemon, which goes into the background by itself."""
        if subprocess.run(command, env=self.env, stdin=subprocess.DEVNULL, check=False).returncode:
            self.stop()
            sys.exit(f"{command[0]} could not be started: see the logs in {self.folder}")

    def start(self):
        """Starts the daemons, and waits until the node takes jobs."""
        self.configure()
        files = {"key-file": "munge.key", "socket": "munge.socket", "pid-file": "munged.pid",
                 "log-file": "munged.log", "seed-file": "munged.seed"}
        options = (f"--{option}={self.folder}/{name}" for option, name in files.items())
        self.run("munged", "--force", *options)
        self.run("slurmctld", "-f", self.env["SLURM_CONF"])
        self.run("slurmd", "-f", self.env["SLURM_CONF"])
        if not comes(lambda: self.told("sinfo", "-h", "-o", "%T") == "idle", 30):
            self.stop()
            sys.exit(f"the node takes no jobs: see the logs in {self.folder}")

    def stop(self):
        """Ends the jobs that run and the daemons."""
        if self.process_of("slurmctld"):
            self.told("timeout", "20", "scancel", f"--user={getpass.getuser()}")
            comes(lambda: not self.told("squeue", "-h"), 10)
        for daemon in ("slurmd", "slurmctld", "munged"):
            if process := self.process_of(daemon):
                os.kill(process, signal.SIGTERM)
                if not comes(lambda: self.process_of(daemon) is None, 10):
                    os.kill(process, signal.SIGKILL)


if __name__ == "__main__":
    getattr(Slurm(sys.argv[2]), sys.argv[1])()
