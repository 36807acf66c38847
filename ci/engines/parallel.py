"""Campaigns by GNU `parallel`, on one machine and over `ssh`."""

import os
import shlex
import subprocess
from pathlib import Path

from engines.daemons import free_ports, listens, start, user
from engines.document import RUN, SEEDS, command
from engines.engine import Engine

SSHD = """ListenAddress 127.0.0.1
Port {port}
HostKey {room}/machine
AuthorizedKeysFile {room}/authorized
PidFile none
UsePAM no
StrictModes no
PasswordAuthentication no
KbdInteractiveAuthentication no
PermitRootLogin prohibit-password
PermitUserRC no
PermitUserEnvironment no
AcceptEnv MSI
"""
# Both machines of the document's command are this one.
SSH = """Host one two
HostName 127.0.0.1
HostKeyAlias machine
Port {port}
User {user}
IdentityFile {room}/user
IdentitiesOnly yes
IdentityAgent none
UserKnownHostsFile {room}/known
GlobalKnownHostsFile /dev/null
StrictHostKeyChecking yes
BatchMode yes
SendEnv MSI
"""
# sshd, where it is root's, has to find this folder, which a machine may make at its start.
SEPARATION = Path("/run/sshd")


class OneMachine(Engine):
    name, wants, sums_up = "one-machine", ("parallel",), True
    broke, refused = 1, (2, [])

    def command(self, folder, seeds, trials):
        changes = {"run 1 6": f"run {seeds[0]} {seeds[-1]}", "--trials 100 ": f"--trials {trials} "}
        return command(RUN, {"/tmp/campaign": shlex.quote(str(folder)), **changes})


class OverSsh(Engine):
    name, wants, wants_name = "ssh", ("parallel", "ssh", "sshd", "ssh-keygen"), True
    refused = len(SEEDS), [2] * len(SEEDS)

    def command(self, folder, seeds, trials):
        changes = {"seq 1 10000 ": f"seq {seeds[0]} {seeds[-1]} ", "--trials 1000 ": f"--trials {trials} "}
        return command("parallel --sshlogin", {"/shared/campaign": str(folder), **changes})

    def start(self, stack):
        [port] = free_ports(1)
        for name in ("machine", "user"):
            subprocess.run(["ssh-keygen", "-q", "-t", "ed25519", "-N", "", "-f", self.room / name], check=True)
        told = {"port": port, "room": self.room, "user": user()}
        self.put("known", f"machine {(self.room / 'machine.pub').read_text()}")
        self.put("authorized", (self.room / "user.pub").read_text())
        self.put("sshd.conf", SSHD.format(**told))
        self.put("ssh.conf", SSH.format(**told))
        self.environment["PARALLEL_SSH"] = f"ssh -F {self.room}/ssh.conf"
        if os.getuid() == 0 and not SEPARATION.is_dir():
            SEPARATION.mkdir(mode=0o755)
            stack.callback(SEPARATION.rmdir)
        start(stack, self.room, ["sshd", "-D", "-e", "-f", f"{self.room}/sshd.conf"], lambda: listens(port))
        super().start(stack)
        return f"a sshd at port {port}"

    def put(self, name, text):
        (self.room / name).write_text(text)
