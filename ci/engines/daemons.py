"""Starts and stops daemons of one's own, each in the foreground, with its files in one folder."""

import os
import pwd
import shutil
import socket
import subprocess
import time

from engines.ending import stand_apart

SECONDS = 60
ALSO = os.pathsep.join(["/usr/local/sbin", "/usr/sbin", "/sbin"])


class Unready(Exception):
    """A daemon doesn't do its work."""


def where(program):
    """Where a program is: those of the administrator needn't be on the path. None where it isn't installed."""
    return shutil.which(program) or shutil.which(program, path=ALSO)


def user():
    """What the machine calls who runs this. None where it has no name for the user's number."""
    try:
        return pwd.getpwuid(os.getuid()).pw_name
    except KeyError:
        return None


def free_ports(count):
    """Ports that nobody listens at."""
    held = [socket.create_server(("127.0.0.1", 0)) for _ in range(count)]
    ports = [it.getsockname()[1] for it in held]
    for it in held:
        it.close()
    return ports


def wait_until(is_so, what, seconds=SECONDS):
    ends = time.monotonic() + seconds
    while not is_so():
        if time.monotonic() > ends:
            raise Unready(f"{what}: not within {seconds} s")
        time.sleep(0.1)


def stop(daemon):
    daemon.terminate()
    try:
        daemon.wait(SECONDS)
    except subprocess.TimeoutExpired:
        daemon.kill()
        daemon.wait()


def start(stack, folder, words, is_ready):
    """Starts a daemon, which ends with the stack, and waits until it is ready."""
    name = words[0]
    with open(folder / f"{name}.errors", "wb") as told:
        streams = {"stdin": subprocess.DEVNULL, "stdout": told, "stderr": told}
        daemon = subprocess.Popen([where(name), *words[1:]], preexec_fn=stand_apart, **streams)
    stack.callback(stop, daemon)

    def is_ready_or_gone():
        if daemon.poll() is not None:
            last = (folder / f"{name}.errors").read_text(errors="replace").splitlines()[-3:]
            raise Unready(f"{name} ended with {daemon.returncode}: {' / '.join(last)}")
        return is_ready()

    wait_until(is_ready_or_gone, f"{name} is ready")


def listens(port):
    try:
        socket.create_connection(("127.0.0.1", port), timeout=1).close()
        return True
    except OSError:
        return False
