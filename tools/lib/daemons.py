"""Starts and ends the daemons of a real run, for the tools that make such runs. They are those of
`tools/tankd`, or with the engine `daemon` those of `daemon/`, on libtank.
"""
import contextlib
import os
import pathlib
import shutil
import signal
import socket
import subprocess
import sys
import time

import node_engines as engines
import trace_text

TOOLS = pathlib.Path(__file__).resolve().parents[1]
PATIENCE = 30


def can_be_apart():
    """Whether this system gives processes another monotonic clock (Linux, only for root)."""
    return shutil.which("unshare") is not None and subprocess.run(["unshare", "--time", "--monotonic", "1", "true"], stderr=subprocess.DEVNULL).returncode == 0


def daemon_path():
    """The path of the daemon in daemon/."""
    built = subprocess.run([TOOLS / "daemon"], stdout=subprocess.PIPE, text=True)
    if built.returncode:
        raise SystemExit("daemons: the daemon couldn't be built")
    return built.stdout.strip()


def certificates(folder, *names):
    """Makes an authority, and a certificate for each of these nodes, by openssl."""
    def openssl(*words):
        subprocess.run(["openssl", *words], check=True, capture_output=True, cwd=folder)
    key = ("-newkey", "ec", "-pkeyopt", "ec_paramgen_curve:P-256", "-nodes", "-subj", "/CN=tank")
    openssl("req", "-x509", *key, "-keyout", "authority.key", "-out", "authority.pem", "-days", "2")
    for name in names:
        openssl("req", *key, "-keyout", f"{name}.key", "-out", f"{name}.csr")
        (folder / f"{name}.ext").write_text(f"subjectAltName=DNS:{name}\n")
        openssl("x509", "-req", "-in", f"{name}.csr", "-CA", "authority.pem", "-CAkey", "authority.key", "-CAcreateserial",
                "-out", f"{name}.pem", "-days", "2", "-extfile", f"{name}.ext")


def certificate_lines(folder, name):
    """The lines of a configuration for a node's certificate."""
    return [f"certificate {folder}/{name}.pem", f"key {folder}/{name}.key", f"authority {folder}/authority.pem"]


def configuration(folder, name, words, more=()):
    """Writes a node's configuration, from the run's settings and the words for tools/tankd."""
    numbers = (folder / "settings").read_text().split() if (folder / "settings").exists() else engines.NODE_WORDS
    clients, servers, disks, blocks = map(int, numbers[9:])
    lines = [f"{key} {value}" for key, value in zip("lease renew quiesce flush demand retry".split(), numbers)]
    lines += [f"rate {numbers[6]} {numbers[7]}", f"grain {numbers[8]}", f"clients {clients}", f"blocks {blocks}"]
    path = folder / "addresses"
    places = dict(line.split(" ", 1) for line in path.read_text().splitlines()) if path.exists() else {}
    for number in range(1, servers + 1):
        at = places.get(f"s{number}")
        lines.append(f"server {number} {f'tcp {at}' if at else f'unix {folder}/s{number}'}")
    lines += [f"disk {disk} {folder}/disk {(disk - 1) * blocks * trace_text.SLOT}" for disk in range(1, disks + 1)]
    lines += [f"state {folder}", f"run {folder}", "log error", "journal 67108864", "trials 1"]
    lines.append(f"disk-time {(int(numbers[0]) - int(numbers[3])) // 4}")
    keys = {"--hold": "hold", "--ahead": "trial-ahead"}
    lines += [f"{keys[word]} {value}" for word, value in zip(words, words[1:]) if word in keys]
    lines += [f"trial-{word[2:]} 1" for word in words if word in ("--torn", "--elsewhere")]
    (folder / f"{name}.conf").write_text("\n".join([*lines, *more]) + "\n")


class Daemons:
    """The daemons of one folder. Every process that was started is ended by `close`."""

    def __init__(self, folder, program, settings=None):
        self.folder, self.program, self.processes = folder, program, {}
        self.built, self.is_traced = None, True  # the daemon in daemon/, and whether it writes traces
        self.around, self.lines, self.options = {}, {}, {}  # by name what precedes the daemon's command, lines of its configuration, and its options
        self.is_secure = False  # over TCP, by certificates
        self.apart = {}  # by name the seconds by which a node's machine began earlier than this one
        if settings:
            (folder / "settings").write_text(" ".join(settings) + "\n")

    def listen_on_ports(self, *names):
        """These nodes speak over TCP."""
        with contextlib.ExitStack() as held:
            ports = [held.enter_context(socket.socket()) for _ in names]
            for free in ports:
                free.bind(("127.0.0.1", 0))
            lines = [f"{name} 127.0.0.1 {free.getsockname()[1]}\n" for name, free in zip(names, ports)]
        (self.folder / "addresses").write_text("".join(lines))

    def start(self, name, engine, *words):
        """Starts a node, for the first time or again."""
        (self.folder / f"{name}.app").unlink(missing_ok=True)
        role = "server" if name[0] == "s" else "client"
        apart = str(self.apart.get(name))
        machine = ["unshare", "--time", "--monotonic", apart, "--boottime", apart] if name in self.apart else []
        if engine == "daemon":
            command = [*machine, *self.command_of(name, role, words)]
        else:
            command = [*machine, sys.executable, str(TOOLS / "tankd"), role, name[1:], str(self.folder), "--engine", engine, "--tank", self.program, *words]
        with open(self.folder / f"{name}.log", "a", encoding="utf-8") as log:
            self.processes[name] = subprocess.Popen(command, stdin=subprocess.DEVNULL, stderr=log, start_new_session=True, preexec_fn=engines.end_with_parent)

    def command_of(self, name, role, words):
        """The command line of a daemon in daemon/, whose files are made if it never ran."""
        self.built = self.built or daemon_path()
        configuration(self.folder, name, words, self.lines.get(name, ()))
        command = [self.built, role, name[1:], "--config", f"{self.folder}/{name}.conf", *([] if self.is_secure else ["--insecure"])]
        (self.folder / "disk").touch()
        if not any((self.folder / f"{name}.{kind}").exists() for kind in ("journal", "lives")):
            subprocess.run([*command, "--create"], check=True)
        return [*self.around.get(name, ()), *command, *self.options.get(name, ()), *(["--trace", f"{self.folder}/{name}.trace"] if self.is_traced else [])]

    def wait_for(self, *names):
        """Waits until these daemons listen."""
        until = time.monotonic() + PATIENCE
        for name in names:
            while not (self.folder / f"{name}.app").exists():
                if time.monotonic() > until or self.processes[name].poll() is not None:
                    raise SystemExit(f"{name} did not start: {(self.folder / f'{name}.log').read_text()}")
                time.sleep(0.02)

    def signal(self, name, number):
        """Gives a signal to a daemon and the process of its node."""
        it = self.processes.get(name)
        if it is not None and it.poll() is None:
            os.killpg(it.pid, number)

    def kill(self, name):
        self.signal(name, signal.SIGKILL)
        self.processes[name].wait()

    def ask(self, name, words, patience=PATIENCE):
        """Asks a daemon, and returns its answer; None if it does not answer."""
        try:
            with socket.socket(socket.AF_UNIX) as stream:
                stream.settimeout(patience)
                stream.connect(str(self.folder / f"{name}.app"))
                stream.sendall(f"0 {words}\n".encode())
                return stream.makefile("r", encoding="latin-1").readline().rstrip("\n").partition(" ")[2] or None
        except OSError:
            return None

    def end(self):
        """Ends all daemons in order."""
        for name in self.processes:
            self.signal(name, signal.SIGCONT)
            self.signal(name, signal.SIGTERM)
        for it in self.processes.values():
            try:
                it.wait(PATIENCE)
            except subprocess.TimeoutExpired:
                pass  # `close` kills it

    def close(self):
        for name in self.processes:
            self.kill(name)

    def traces(self):
        return sorted(self.folder.glob("*.trace"))
