"""Network namespaces that are joined by wires (wires.c), in which packets are late or lost, or by pairs of veth; and the
addresses of this machine without them.

The kernel's netem, by which a veth would lose packets, is in few kernels. So a process carries the packets of wires.
"""
import contextlib
import os
import random
import shutil
import socket
import subprocess
import sys
import time

from embed import TOP, WARNINGS, do

# The bytes of a packet on a cable, and about as many as on this machine's own device.
CABLE, OWN = 1500, 65_000
# Ports of the namespaces: of nodes and the watcher, and of metrics.
LISTEN, METRICS = 4700, 4701


def as_root(words):
    """A command that may make namespaces and mount in them. What it has started and mounted goes with it."""
    rights = [] if os.geteuid() == 0 else ["--map-root-user"]
    own = ["sh", "-c", 'ip link set lo up && exec "$@"', "sh"]
    return ["unshare", *rights, "--net", "--mount", "--pid", "--fork", "--kill-child", "--mount-proc", "--", *own, *words]


def what_lacks():
    """What is not there and namespaces need, in a few words, or None."""
    lacks = [it for it in ("unshare", "nsenter", "ip", "cc") if not shutil.which(it)]
    if lacks:
        return f"{', '.join(lacks)} not here"
    tun = "import os; os.close(os.open('/dev/net/tun', os.O_RDWR))"
    if subprocess.run(as_root([sys.executable, "-c", tun]), capture_output=True, check=False).returncode:
        return "no network namespaces, or no /dev/net/tun, are to be had here"
    return None


class Wires:
    """Namespaces, each with an address, by numbers from 0 on."""

    is_wired = True

    def __init__(self, folder, count, mtu=CABLE):
        program = os.path.join(folder, "wires")
        do(["cc", "-std=c11", "-O2", *WARNINGS, os.path.join(TOP, "trials", "wires.c"), "-o", program])
        how = {"stdin": subprocess.PIPE, "stdout": subprocess.PIPE, "text": True}
        self.started = subprocess.Popen([program, str(count), str(mtu)], **how)
        self.sleepers = self.started.stdout.readline().split()
        if len(self.sleepers) != count:
            raise OSError("no namespaces were made")

    def inside(self, number):
        """The words before a command that is to run in a namespace."""
        return ["nsenter", f"--net=/proc/{self.sleepers[number]}/ns/net", "--"]

    def listen(self, number):
        return f"10.77.0.{number + 1}:{LISTEN}"

    def metrics(self, number):
        return f"10.77.0.{number + 1}:{METRICS}"

    def set(self, late=0.0, later=0.0, lost=0.0):
        """From now on packets are late by milliseconds, and at most by some more, and a part of them is lost."""
        self.started.stdin.write(f"{int(late * 1000)} {int(later * 1000)} {int(lost * 1_000_000)}\n")
        self.started.stdin.flush()

    def hold(self, bytes_held):
        """Has the kernel keep so many bytes of each connection at most, at each of its ends."""
        for number in range(len(self.sleepers)):
            for name in ("tcp_rmem", "tcp_wmem"):
                text = f"echo 4096 {bytes_held} {bytes_held} > /proc/sys/net/ipv4/{name}"
                do([*self.inside(number), "sh", "-c", text])

    def close(self):
        self.started.stdin.close()
        self.started.wait()


class Cables(Wires):
    """Namespaces that are joined by pairs of veth at a bridge. The kernel carries the packets, and none is late or lost."""

    def __init__(self, _, count):
        self.started = [subprocess.Popen(["unshare", "--net", "sleep", "infinity"]) for _ in range(count)]
        self.sleepers = [it.pid for it in self.started]
        do(["ip", "link", "add", "name", "cables", "type", "bridge"])
        do(["ip", "link", "set", "cables", "up"])
        own = os.readlink("/proc/self/ns/net")
        for number, sleeper in enumerate(self.sleepers):
            while os.readlink(f"/proc/{sleeper}/ns/net") == own:
                time.sleep(0.01)
            do(["ip", "link", "add", "name", f"cable{number}", "type", "veth", "peer", "name", "cable", "netns", str(sleeper)])
            do(["ip", "link", "set", f"cable{number}", "master", "cables", "up"])
            for words in (["addr", "add", f"10.77.0.{number + 1}/24", "dev", "cable"], ["link", "set", "cable", "up"], ["link", "set", "lo", "up"]):
                do([*self.inside(number), "ip", *words])

    def set(self, late=0.0, later=0.0, lost=0.0):
        pass

    def close(self):
        for it in self.started:
            it.kill()
            it.wait()


def free_ports(count):
    """Ports of this machine at which nobody listens now, of those that no connection is given for its own end."""
    made = []
    while len(made) < count:
        with contextlib.suppress(OSError):
            made.append(socket.create_server(("127.0.0.1", random.randrange(16_384, 32_768))))
    ports = [it.getsockname()[1] for it in made]
    for it in made:
        it.close()
    return ports


class Loopback:
    """Ports of this machine in place of namespaces. Nothing is late or lost."""

    is_wired = False

    def __init__(self, count):
        ports = free_ports(2 * count)
        self.ports, self.of_metrics = ports[:count], ports[count:]

    def inside(self, number):
        return []

    def listen(self, number):
        return f"127.0.0.1:{self.ports[number]}"

    def metrics(self, number):
        return f"127.0.0.1:{self.of_metrics[number]}"

    def set(self, late=0.0, later=0.0, lost=0.0):
        pass

    def hold(self, bytes_held):
        pass

    def close(self):
        pass
