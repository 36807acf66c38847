"""Campaigns by Slurm: a controller and one node, on this machine."""

import os
import re
import signal
import socket
import subprocess

from engines.daemons import free_ports, listens, start, user, wait_until
from engines.document import command
from engines.engine import SECONDS, Engine

CONFIGURATION = """ClusterName=campaigns
SlurmctldHost={host}(127.0.0.1)
SlurmctldPort={control}
SlurmdPort={node}
SlurmUser={user}
SlurmdUser={user}
AuthType=auth/munge
AuthInfo=socket={room}/munge/socket
CredType=cred/munge
StateSaveLocation={room}/state
SlurmdSpoolDir={room}/spool
SlurmctldPidFile={room}/slurmctld.pid
SlurmdPidFile={room}/slurmd.pid
SlurmdParameters=config_overrides
ProctrackType=proctrack/linuxproc
TaskPlugin=task/none
MpiDefault=none
SwitchType=switch/none
JobAcctGatherType=jobacct_gather/none
JobCompType=jobcomp/filetxt
JobCompLoc={room}/completed
AccountingStorageType=accounting_storage/none
SelectType=select/cons_tres
SelectTypeParameters=CR_Core
ReturnToService=2
KillWait=2
NodeName={host} NodeAddr=127.0.0.1 CPUs={processors} State=UNKNOWN
PartitionName=all Nodes=ALL Default=YES State=UP
"""
# No job is put into a control group, and no service manager asked for one: slurmd finds this beside its configuration.
GROUPS = """CgroupPlugin=cgroup/v1
IgnoreSystemd=yes
"""
JOB = re.compile(r"^JobId=.* ExitCode=(\d+):\d+", re.M)


class Slurm(Engine):
    name, wants, wants_name = "slurm", ("sbatch", "squeue", "scancel", "sinfo", "slurmctld", "slurmd", "munged"), True
    cuts = {"cancelled": signal.SIGTERM, "killed": signal.SIGKILL}

    def command(self, folder, seeds, trials):
        changes = {"--array=1-1000 ": f"--array={seeds[0]}-{seeds[-1]} ", "--trials 1000 ": f"--trials {trials} "}
        return command("sbatch --array", {"/shared/campaign": str(folder), **changes})

    def start(self, stack):
        self.start_munged(stack)
        control, node = free_ports(2)
        host = socket.gethostname().split(".")[0]
        told = {"control": control, "node": node, "host": host, "user": user(), "processors": os.cpu_count()}
        for name in ("state", "spool"):
            (self.room / name).mkdir()
        configuration = self.room / "slurm.conf"
        configuration.write_text(CONFIGURATION.format(room=self.room, **told))
        (self.room / "cgroup.conf").write_text(GROUPS)
        self.environment["SLURM_CONF"] = str(configuration)
        start(stack, self.room, ["slurmctld", "-D", "-f", configuration], lambda: listens(control))
        start(stack, self.room, ["slurmd", "-D", "-f", configuration], lambda: self.ask("sinfo", "--format=%T") == ["idle"])
        super().start(stack)
        return f"munged, slurmctld at port {control}, slurmd at port {node}"

    def start_munged(self, stack):
        """Starts what tells the daemons who asks. It wants a folder that others can look into, and a key that they can't read."""
        folder = self.room / "munge"
        folder.mkdir(mode=0o755)
        key = folder / "key"
        key.touch(mode=0o600)
        key.write_bytes(os.urandom(128))
        places = {"socket": "socket", "key-file": "key", "pid-file": "pid", "log-file": "log", "seed-file": "seed"}
        words = [f"--{option}={folder}/{file}" for option, file in places.items()]
        start(stack, self.room, ["munged", "--foreground", *words], (folder / "socket").exists)

    def ask(self, *words):
        """The lines that a command of Slurm prints, without their heads. None where it fails."""
        done = subprocess.run([*words, "--noheader"], env=self.environment, capture_output=True, text=True)
        return None if done.returncode else done.stdout.split()

    def end(self, folder):
        status, told = super().end(folder)
        wait_until(lambda: self.ask("squeue") == [], "the jobs have ended", SECONDS)
        return status, told + "".join(it.read_text() for it in folder.glob("*.log"))

    def cut(self, number):
        """Cancels the jobs: they are told to end, or are killed with all that they started."""
        ways = [["--full", "--signal=KILL"], []] if number == signal.SIGKILL else [[]]
        for words in ways:
            subprocess.run(["scancel", f"--user={user()}", *words], env=self.environment, check=True)
        wait_until(lambda: self.ask("squeue") == [], "the jobs are cancelled")

    def logged(self, folder):
        log = self.room / "completed"
        return [int(status) for status in JOB.findall(log.read_text())] if log.exists() else []
