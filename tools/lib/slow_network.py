"""A network of machines, each in its own network namespace, with delay and loss: by `tc netem`, or
by a process that carries frames between TAP devices if this system doesn't have `netem`.
"""
import collections
import ctypes
import fcntl
import multiprocessing
import os
import random
import select
import struct
import subprocess
import time

BRIDGE = "tankbridge"
DELAY, LOSS = 0.002, 0.01  # seconds that a frame is under way, and the part of the frames that is lost
WAITING_MOST = 20_000      # frames that are under way; what comes then is lost
FRAME_MOST = 65_536
TUNSETIFF, IFF_TAP, IFF_NO_PI = 0x400454CA, 2, 0x1000
CLONE_NEWNET = 0x40000000


def run(*words):
    return subprocess.run(list(map(str, words)), check=True, capture_output=True, text=True).stdout


def is_done(*words):
    """Whether a command works."""
    return subprocess.run(list(map(str, words)), capture_output=True).returncode == 0


def has_netem():
    """Whether this system has `netem`."""
    run("ip", "netns", "add", "tank-try")
    try:
        return is_done("tc", "-n", "tank-try", "qdisc", "add", "dev", "lo", "root", "netem", "delay", "1ms")
    finally:
        run("ip", "netns", "delete", "tank-try")


def device_in(namespace):
    """A new TAP device `eth0` in a namespace, as an open file. This process stays in the namespace.
    """
    with open(f"/run/netns/{namespace}") as place:
        if ctypes.CDLL(None, use_errno=True).setns(place.fileno(), CLONE_NEWNET):
            raise OSError(ctypes.get_errno(), f"the namespace {namespace} can't be entered")
    device = os.open("/dev/net/tun", os.O_RDWR | os.O_NONBLOCK)
    fcntl.ioctl(device, TUNSETIFF, struct.pack("16sH22x", b"eth0", IFF_TAP | IFF_NO_PI))
    return device


def receivers(devices, sender, frame):
    """Those who get a frame: the one that its address ends with, or all others."""
    is_of_one = frame[0] == 2 and 1 <= frame[5] <= len(devices)
    return [devices[frame[5] - 1]] if is_of_one else [it for it in devices if it != sender]


def carry(namespaces, is_ready):
    """Carries frames between machines, each after the delay, and loses some."""
    devices = [device_in(namespace) for namespace in namespaces]
    is_ready.set()
    rng, waiting, poll = random.Random(1), collections.deque(), select.poll()
    for device in devices:
        poll.register(device, select.POLLIN)
    while True:
        left = max(0, 1000 * (waiting[0][0] - time.monotonic())) if waiting else None
        for device, _ in poll.poll(left):
            frame = moved(os.read, device, FRAME_MOST)
            for receiver in receivers(devices, device, frame) if frame else ():
                if rng.random() >= LOSS and len(waiting) < WAITING_MOST:
                    waiting.append((time.monotonic() + DELAY, receiver, frame))
        while waiting and waiting[0][0] <= time.monotonic():
            moved(os.write, *waiting.popleft()[1:])


def moved(move, *words):
    """What a call of the system returns; None if the device is down, or has no frame or no room."""
    try:
        return move(*words)
    except OSError:
        return None


class Network:
    """A namespace `tank-NAME` for each of these names. `text` tells the delay and the loss."""

    def __init__(self, *names):
        self.names, self.carrier = names, None
        by_netem = has_netem()
        self.text = f"{DELAY * 1000:.0f} ms of delay and {LOSS:.0%} of loss, by {'netem' if by_netem else 'a process that carries the frames'}"
        for name in names:
            run("ip", "netns", "add", f"tank-{name}")
        if by_netem:
            self.join_by_bridge()
        else:
            self.join_by_process()
        for place, name in enumerate(names, 1):
            run("ip", "-n", f"tank-{name}", "link", "set", "eth0", "address", f"02:00:00:00:00:{place:02x}")
            run("ip", "-n", f"tank-{name}", "address", "add", f"{self.address(name)}/24", "dev", "eth0")
            self.put(name, "up")

    def address(self, name):
        return f"10.77.0.{self.names.index(name) + 1}"

    def join_by_bridge(self):
        run("ip", "link", "add", BRIDGE, "type", "bridge")
        run("ip", "link", "set", BRIDGE, "up")
        for name in self.names:
            run("ip", "link", "add", f"tank-{name}", "type", "veth", "peer", "name", "eth0", "netns", f"tank-{name}")
            run("ip", "link", "set", f"tank-{name}", "master", BRIDGE, "up")
            run("tc", "-n", f"tank-{name}", "qdisc", "add", "dev", "eth0", "root", "netem", "delay", f"{DELAY * 1000}ms", "loss", f"{LOSS * 100}%")

    def join_by_process(self):
        fork = multiprocessing.get_context("fork")
        is_ready = fork.Event()
        self.carrier = fork.Process(target=carry, args=([f"tank-{name}" for name in self.names], is_ready), daemon=True)
        self.carrier.start()
        if not is_ready.wait(10):
            raise SystemExit("slow_network: no TAP devices could be made")

    def put(self, name, state):
        """Connects a machine, or takes its cable away: `up` or `down`."""
        run("ip", "-n", f"tank-{name}", "link", "set", "eth0", state)

    def close(self):
        if self.carrier:
            self.carrier.terminate()
            self.carrier.join()
        for name in self.names:
            is_done("ip", "netns", "delete", f"tank-{name}")
        is_done("ip", "link", "delete", BRIDGE)
