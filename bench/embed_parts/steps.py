"""Steps a second through ctypes."""
import time

from tank import Client, Server, Settings, Shape

STEPS = 200000
SETTINGS = Settings(10000, 5000, 7000, 8500, 1000, 500, 101, 100, 1)


def frame(kind, from_, to, life=0, epoch=0, number=0, stamp=0):
    message = bytes([1, kind]) + from_.to_bytes(2, "big") + to.to_bytes(2, "big") + b"".join(n.to_bytes(8, "big") for n in (life, epoch, number, stamp))
    return len(message).to_bytes(4, "big") + message


def say(what, seconds):
    print(f"{what} through ctypes: {STEPS / seconds:.0f} steps a second, {seconds / STEPS * 1e6:.2f} us each")


server = Server(SETTINGS, Shape(1, 1, 1, 64), 0, bytes(65536), lambda place, data: None)
server.step(1, frame(1, 1, 32769, 1))
frames = [frame(2, 1, 32769, 1, 1, i, i) for i in range(1, STEPS + 1)]
a = time.process_time()
for one in frames:
    server.step_bytes(2, one)
b = time.process_time()
say("a server's keep-alives", b - a)
client = Client(SETTINGS, 1, [0])
tick = frame(64, 0, 1)
b = time.process_time()
for i in range(STEPS):
    client.step_bytes(i // 100, tick)
say("a client's ticks", time.process_time() - b)
