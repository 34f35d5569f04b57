"""What the `try` scripts of packaging/ share: what is checked and told, hosts that are network namespaces, booted containers, and
processes that end with the script.

Everything that is made here is taken away again where `Scene` ends, also by Ctrl-C. No process is ended but those that were
started here, or that run in a namespace or a container that was made here.
"""
import argparse
import ctypes
import os
import shutil
import signal
import subprocess
import sys
import tempfile
import threading
import time
from contextlib import contextmanager, suppress
from pathlib import Path

ROOT = Path(__file__).resolve().parent.parent
sys.path[:0] = [str(ROOT / "tools"), str(ROOT / "examples")]
from building import PROVED, is_fresh  # noqa: E402

CLONE_NEWNET = 0x40000000
LIBC = ctypes.CDLL(None, use_errno=True)
# Seconds that a container may take until it is up, and a process until it has ended.
BOOT_LIMIT, END_LIMIT = 90, 5


class Refused(Exception):
    """What stands in the way of a trial; the text says what to do."""


class Tally:
    """What was checked: each fault is printed, and the end says how many there were."""

    def __init__(self, script):
        self.script, self.checks, self.failed = script, 0, 0

    def tell(self, text):
        print(text, flush=True)

    def check(self, what, holds, seen=""):
        """Counts a check; gives whether it holds. What was seen instead is shown where it doesn't."""
        self.checks += 1
        if not holds:
            self.failed += 1
            self.tell(f"{self.script}: {what}")
            for line in str(seen).splitlines()[-12:]:
                self.tell(f"    {line}")
        return bool(holds)

    def end(self):
        """The status, behind a line that tells it."""
        self.tell(f"{self.script}: " + (f"{self.failed} of {self.checks} aren't as they should be" if self.failed
                                        else f"all {self.checks} as they should be"))
        return 1 if self.failed else 0


def table(head, rows):
    """Lines of a table as the documents have them."""
    return "\n".join("| " + " | ".join(map(str, row)) + " |" for row in [head, ["---"] * len(head), *rows])


def parser(text):
    words = argparse.ArgumentParser(description=text, formatter_class=argparse.RawDescriptionHelpFormatter)
    words.add_argument("--program", type=Path, metavar="FILE",
                       help="the gateway to be tried; that of GATEWAY_PROGRAM, or the proved one, without it")
    return words


def program(asked):
    """The program that is tried."""
    named = asked.program or os.environ.get("GATEWAY_PROGRAM")
    if named:
        path = Path(named).resolve()
        if not os.access(path, os.X_OK):
            raise Refused(f"there is no program at {path}")
        return path
    if not is_fresh(PROVED):
        raise Refused("no proved program of these sources stands: ./gateway --prove builds it, or name one with --program")
    return PROVED


def want_root():
    if os.geteuid():
        raise Refused("only root can make hosts of namespaces")


def want_tools(**packages):
    """Ends the script where a command isn't there; the package is named that has it."""
    missing = sorted({package for tool, package in packages.items() if not shutil.which(tool.replace("_", "-"))})
    if missing:
        raise Refused(f"this is needed: apt-get install {' '.join(missing)}")


def run(*words, given="", **named):
    """A command that is run to its end, with this as its input: its status and what it wrote."""
    return subprocess.run([str(it) for it in words], text=True, input=given, stdout=subprocess.PIPE, stderr=subprocess.STDOUT, **named)


def must(*words, **named):
    """The same, which has to succeed; what it wrote."""
    ran = run(*words, **named)
    if ran.returncode:
        raise Refused(f"{' '.join(map(str, words))}: {ran.stdout.strip() or f'status {ran.returncode}'}")
    return ran.stdout


def until(seconds, asked, rest=0.02):
    """Asks until the answer is true, or the time is over; gives the last answer."""
    limit = time.monotonic() + seconds
    while not (answer := asked()) and time.monotonic() < limit:
        time.sleep(rest)
    return answer


class Host:
    """A host: a network namespace with a loopback interface."""

    def __init__(self, name):
        self.name = name
        must("ip", "netns", "add", name)
        self.run("ip", "link", "set", "lo", "up")

    @property
    def path(self):
        return f"/run/netns/{self.name}"

    def words(self, *words):
        return ["ip", "netns", "exec", self.name, *map(str, words)]

    def run(self, *words):
        return must(*self.words(*words))

    def enter(self):
        """The thread that calls it is on this host from now on, with each socket that it makes."""
        with open(self.path) as file:
            if LIBC.setns(file.fileno(), CLONE_NEWNET):
                raise Refused(f"{self.path}: {os.strerror(ctypes.get_errno())}")

    def thread(self, work, *given):
        """Runs a function on this host, in a thread of its own."""
        def entered():
            self.enter()
            work(*given)
        thread = threading.Thread(target=entered, daemon=True)
        thread.start()
        return thread

    def pids(self):
        return [int(it) for it in run("ip", "netns", "pids", self.name).stdout.split()]

    def remove(self):
        for number in self.pids():
            with suppress(ProcessLookupError):
                os.kill(number, signal.SIGKILL)
        run("ip", "netns", "del", self.name)


class Lan:
    """A switch, in a namespace of its own, and the cables of hosts to it."""

    def __init__(self, scene, name):
        self.host, self.ports = scene.host(name), {}
        self.host.run("ip", "link", "add", "switch", "type", "bridge")
        self.host.run("ip", "link", "set", "switch", "up")

    def join(self, host, interface, *addresses):
        """A cable from a host's interface to the switch; the port's name."""
        port = self.ports[host] = f"to{len(self.ports)}"
        self.host.run("ip", "link", "add", port, "type", "veth", "peer", "name", interface, "netns", host.name)
        self.host.run("ip", "link", "set", port, "master", "switch", "up")
        for address in addresses:
            host.run("ip", "address", "add", address, "dev", interface)
        host.run("ip", "link", "set", interface, "up")

    def cut(self, host):
        """Pulls the cable of a host."""
        self.host.run("ip", "link", "set", self.ports[host], "down")

    def mend(self, host):
        self.host.run("ip", "link", "set", self.ports[host], "up")

    def part(self, hosts, is_apart):
        """Lets these hosts see each other no more, or again; all others see them as before."""
        for host in hosts:
            self.host.run("bridge", "link", "set", "dev", self.ports[host], "isolated", "on" if is_apart else "off")


class Container:
    """A Debian system that is booted from a folder, on a host where one is named, else with a loopback interface alone."""

    def __init__(self, scene, folder, name, host=None):
        self.folder, self.name, self.leader = folder, name, None
        way = ([f"--network-namespace-path={host.path}", "--capability=CAP_NET_ADMIN,CAP_NET_RAW"] if host
               else ["--private-network"])
        self.console = scene.folder / f"{name}.console"
        self.process = scene.start("systemd-nspawn", "--quiet", "--register=no", "--keep-unit", *way, f"--machine={name}",
                                   "--console=pipe", "--boot", f"--directory={folder}", output=self.console)
        scene.ends.append(self.end)
        if not until(BOOT_LIMIT, self.is_up, 0.5):
            raise Refused(f"the system {name} doesn't come up: {self.console.read_text()[-400:]}")

    def is_up(self):
        # At first it is another process, which makes the container.
        found = run("ps", "-o", "pid=", "--ppid", self.process.pid).stdout.split()
        self.leader = int(found[0]) if found else None
        if self.leader is None:
            return False
        return self.run("systemctl", "is-system-running").stdout.strip() in ("running", "degraded")

    def words(self, *words):
        return ["nsenter", "--target", str(self.leader), "--mount", "--uts", "--ipc", "--net", "--pid", "--cgroup", "--root",
                "--wd", "env", "-i", "HOME=/root", "LC_ALL=C.UTF-8", "DEBIAN_FRONTEND=noninteractive",
                "PATH=/usr/sbin:/usr/bin:/sbin:/bin", *map(str, words)]

    def run(self, *words):
        return run(*self.words(*words))

    def must(self, *words):
        return must(*self.words(*words))

    def end(self):
        if self.leader is not None:
            with suppress(ProcessLookupError):
                os.kill(self.leader, signal.SIGKILL)
            until(END_LIMIT, lambda: self.process.poll() is not None)


class Scene:
    """What a trial makes: a folder, hosts, processes. `with Scene(..) as scene` takes all of it away."""

    def __init__(self):
        self.folder = Path(tempfile.mkdtemp(prefix="gateway-try-"))
        # The tools that are run as other users read what lies in it.
        self.folder.chmod(0o755)
        self.hosts, self.processes, self.ends, self.front = [], [], [], f"gw{os.getpid() % 100000}"

    def __enter__(self):
        return self

    def __exit__(self, *_):
        for number in (signal.SIGINT, signal.SIGTERM):
            signal.signal(number, signal.SIG_IGN)
        for end in reversed(self.ends):
            end()
        for process in reversed(self.processes):
            self.stop(process)
        for host in reversed(self.hosts):
            host.remove()
        shutil.rmtree(self.folder, ignore_errors=True)

    def host(self, name):
        host = Host(f"{self.front}-{name}")
        self.hosts.append(host)
        return host

    def start(self, *words, host=None, output=None, **named):
        """Starts a process, on a host where one is named; what it writes goes into a file, or nowhere."""
        words = [str(it) for it in words]
        with open(output or os.devnull, "ab") as file:
            process = subprocess.Popen(host.words(*words) if host else words, stdin=subprocess.DEVNULL, stdout=file,
                                       stderr=subprocess.STDOUT, **named)
        self.processes.append(process)
        return process

    def stop(self, process, number=signal.SIGTERM):
        """Ends a process that was started here."""
        if process.poll() is None:
            process.send_signal(number)
            with suppress(subprocess.TimeoutExpired):
                process.wait(END_LIMIT)
        if process.poll() is None:
            process.kill()
            process.wait()

    def system(self, asked, *packages):
        """A folder with a Debian system that has these packages: a copy of the folder that was asked for, or a new one."""
        folder = Path(tempfile.mkdtemp(prefix="system-", dir=self.folder))
        if asked:
            must("cp", "-a", "--reflink=auto", f"{asked}/.", folder)
        else:
            names = ["dbus", "systemd-sysv", *packages]
            must("debootstrap", "--variant=minbase", f"--include={','.join(names)}", "stable", folder)
        return folder


def main(script, work):
    """Runs a script's work, whose end is the status; an end by a signal takes everything away too."""
    signal.signal(signal.SIGTERM, lambda *_: sys.exit(143))
    try:
        sys.exit(work())
    except Refused as why:
        print(f"{script}: {why}", file=sys.stderr)
        sys.exit(1)
    except KeyboardInterrupt:
        sys.exit(130)


@contextmanager
def timed(seconds):
    """Tells afterwards how long something took: the list gets the seconds."""
    begun = time.monotonic()
    yield
    seconds.append(time.monotonic() - begun)
