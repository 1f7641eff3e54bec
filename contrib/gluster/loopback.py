"""A GlusterFS volume of three bricks on this machine, for scripts that show things on it.

A script that calls `alone` is run again in namespaces of its own (mounts, network, processes) over a new folder. In them stands
another glusterd than the machine's, if that has one: the files of glusterd, its sockets and its logs are in the folder, and the
network is a loopback of its own. When the script ends, however it ends, all that it started ends with it. The folder goes then,
and stays only where the script was ended by SIGKILL.
"""
import os
import shutil
import signal
import subprocess
import sys
import tempfile
import time
from pathlib import Path

HERE = Path(__file__).resolve().parent
NAME, BRICKS = "rdfdelta", (1, 2, 3)
# Addresses for documentation, which only this network has: glusterd takes none of 127.0.0.0/8.
ADDRESS = "192.0.2.1"
LINKS = "198.51.100"
INSIDE = "RDFDELTA_LOOPBACK"
NAMESPACES = ["setpriv", "--pdeathsig", "KILL", "unshare", "--mount", "--net", "--pid", "--fork", "--kill-child", "--mount-proc"]
WANTED = {
    "glusterd": "glusterfs-server",
    "gluster": "glusterfs-server",
    "glusterfs": "glusterfs-server",
    "ip": "iproute2",
    "nsenter": "util-linux",
    "unshare": "util-linux",
    "setpriv": "util-linux",
    "mount": "mount",
}
GLUSTERD = """
volume management
    type mgmt/glusterd
    option working-directory /var/lib/glusterd
    option transport-type socket
    option transport.address-family inet
    option transport.socket.listen-port 24007
    option max-port 60999
end-volume
"""


def run(*words):
    """What a command prints. Where it fails, the script ends."""
    done = subprocess.run([str(word) for word in words], capture_output=True, text=True)
    if done.returncode != 0:
        sys.exit(f"{' '.join(str(word) for word in words)}: status {done.returncode}\n{done.stdout}{done.stderr}")
    return done.stdout


def gluster(*words):
    return run("gluster", "--mode=script", *words)


def until(seconds, is_so, what):
    """The seconds until something is so. Where that takes too long, the script ends."""
    begun = time.monotonic()
    while not is_so():
        if time.monotonic() - begun > seconds:
            sys.exit(f"not in {seconds} s: {what}")
        time.sleep(0.1)
    return time.monotonic() - begun


def refuse_to_start():
    """Ends the script where it can't do what it is to do, and says what it wants."""
    os.environ["PATH"] += ":/usr/sbin:/sbin"
    missing = sorted({package for program, package in WANTED.items() if shutil.which(program) is None})
    if missing:
        sys.exit(f"it wants these packages of Debian: {' '.join(missing)}")
    if os.geteuid() != 0:
        sys.exit("it wants to be run by root: it mounts, in namespaces of its own")
    if not Path("/dev/fuse").exists():
        sys.exit("it wants /dev/fuse: modprobe fuse")


def reap(child):
    """As the first process of the namespaces: takes note of the end of each one without a parent, and ends with the child."""
    while True:
        process, status = os.wait()
        if process == child:
            os._exit(abs(os.waitstatus_to_exitcode(status)))


def end(process):
    """Ends the first process of the namespaces, and all others with it. The one that made them ends once they have."""
    children = Path(f"/proc/{process.pid}/task/{process.pid}/children").read_text().split()
    for child in children:
        os.kill(int(child), signal.SIGKILL)
    if not children:
        process.kill()


def alone():
    """Returns the new folder in the namespaces. Outside of them, it runs the script there and ends with its status."""
    if INSIDE in os.environ:
        child = os.fork()
        if child:
            reap(child)
        return Path(os.environ.pop(INSIDE))
    refuse_to_start()
    with tempfile.TemporaryDirectory(prefix="rdfdelta-volume-") as folder:
        process = subprocess.Popen([*NAMESPACES, sys.executable, *sys.argv], env={**os.environ, INSIDE: folder})
        for number in signal.SIGINT, signal.SIGTERM, signal.SIGHUP:
            signal.signal(number, lambda *_: end(process))
        status = process.wait()
    sys.exit(status if status >= 0 else 128 - status)


class Volume:
    """A started volume of three replicas with the options of rdfdelta.group. Its bricks are folders of one disk."""

    def __init__(self, folder):
        self.folder, self.clients, self.linked = folder, {}, []
        for name in "lib", "log", "run/gluster":
            (folder / name).mkdir(parents=True)
        for name, place in ("lib", "/var/lib/glusterd"), ("log", "/var/log/glusterfs"), ("run", "/run"):
            run("mount", "--bind", folder / name, place)
        run("ip", "link", "set", "lo", "up")
        run("ip", "address", "add", f"{ADDRESS}/32", "dev", "lo")
        (folder / "lib/groups").mkdir()
        shutil.copy(HERE / "rdfdelta.group", folder / "lib/groups/rdfdelta")
        (folder / "glusterd.vol").write_text(GLUSTERD)
        words = ["glusterd", "--no-daemon", "--volfile", folder / "glusterd.vol"]
        self.glusterd = subprocess.Popen(words, stderr=subprocess.DEVNULL)
        listed = ["gluster", "--mode=script", "volume", "list"]
        until(60, lambda: subprocess.run(listed, capture_output=True).returncode == 0, "glusterd answers")
        bricks = [f"{ADDRESS}:{self.brick(number)}" for number in BRICKS]
        # Asked without force, glusterd takes no brick on the disk of the system.
        gluster("volume", "create", NAME, "replica", len(BRICKS), *bricks, "force")
        gluster("volume", "set", NAME, "group", "rdfdelta")
        gluster("volume", "start", NAME)
        self.await_bricks()

    def brick(self, number):
        return self.folder / f"brick-{number}"

    def process(self, number):
        """The process of a brick, and 0 where none runs."""
        name = f"{ADDRESS}{self.brick(number)}".replace("/", "-")
        try:
            process = int(Path(f"/run/gluster/vols/{NAME}/{name}.pid").read_text())
            words = Path(f"/proc/{process}/cmdline").read_text()
        except (OSError, ValueError):
            return 0
        return process if str(self.brick(number)) in words else 0

    def signal_healer(self, what):
        """To the process that heals this machine's bricks."""
        os.kill(int(Path(f"/run/gluster/shd/{NAME}/{NAME}-shd.pid").read_text()), what)

    def signal(self, what, *numbers):
        for number in numbers:
            os.kill(self.process(number), what)

    def kill(self, *numbers):
        self.signal(signal.SIGKILL, *numbers)
        until(30, lambda: not any(self.process(number) for number in numbers), f"bricks {numbers} end")

    def start_bricks(self):
        """Starts the bricks that don't run."""
        gluster("volume", "start", NAME, "force")
        self.await_bricks()

    def await_bricks(self):
        until(60, lambda: all(self.process(number) for number in BRICKS), "all bricks run")

    def unhealed(self):
        """How many entries aren't the same on all bricks, counted at each of them; none where a brick doesn't tell."""
        lines = gluster("volume", "heal", NAME, "info").splitlines()
        counts = [line.split(": ")[1] for line in lines if line.startswith("Number of entries")]
        return None if "-" in counts or len(counts) < len(BRICKS) else sum(map(int, counts))

    def heal(self):
        """The seconds until all bricks are the same."""
        def is_healed():
            subprocess.run(["gluster", "--mode=script", "volume", "heal", NAME], capture_output=True)
            return self.unhealed() == 0
        return until(60, is_healed, "all bricks are healed")

    def link(self, name):
        """A network of its own for the client of a mount, as for another machine, with one link to that of the bricks."""
        near, far = (f"{LINKS}.{2 * len(self.linked) + end}" for end in (0, 1))
        run("ip", "netns", "add", name)
        run("ip", "link", "add", name, "type", "veth", "peer", "name", "far", "netns", name)
        run("ip", "address", "add", f"{near}/31", "dev", name)
        run("ip", "link", "set", name, "up")
        run("ip", "-n", name, "address", "add", f"{far}/31", "dev", "far")
        run("ip", "-n", name, "link", "set", "far", "up")
        run("ip", "-n", name, "route", "add", "default", "via", near)
        self.linked.append(name)

    def mount(self, name):
        """The folder at which the volume is mounted by a client in a network of its own."""
        if name not in self.linked:
            self.link(name)
        place = self.folder / name
        place.mkdir(exist_ok=True)
        # As mount.glusterfs would, but as a process that can be killed.
        words = ["glusterfs", "--no-daemon", f"--volfile-server={ADDRESS}", f"--volfile-id=/{NAME}", "--direct-io-mode=enable"]
        words = ["nsenter", f"--net=/run/netns/{name}", *words, f"--log-file={self.folder}/log/{name}.log", place]
        self.clients[name] = subprocess.Popen(words)
        until(60, place.is_mount, f"{name} is mounted")
        return place

    def cut(self, name):
        """Cuts the client of a mount off from all bricks: nothing comes through, and nobody is told."""
        run("ip", "link", "set", name, "down")

    def join(self, name):
        run("ip", "link", "set", name, "up")

    def lose(self, name):
        """Kills the client of a mount, as the end of its machine would, and takes the mount away."""
        self.clients[name].kill()
        self.clients.pop(name).wait()
        run("umount", "--lazy", self.folder / name)
