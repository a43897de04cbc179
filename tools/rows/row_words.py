"""What the scripts that write rows share: bytes as words, and a fitting reply by chance."""
from row_records import (
    Ack, Acquire, Allocate, Extents, Granted, Map, Nack, Name, Named, Queued, Reassert, Reasserted, X,
)


def runs(data):
    """Bytes as `HH` or `HH*COUNT`."""
    words, i = [], 0
    while i < len(data):
        j = i
        while j < len(data) and data[j] == data[i]:
            j += 1
        words.append(f"{data[i]:02x}" + (f"*{j - i}" if j > i + 1 else ""))
        i = j
    return " ".join(words)


def fitting_reply(rng, body, refused, grant, block):
    """A reply that fits the body of a request: a refusal in that share of cases, else mostly a good
    one.

    `grant(ino)` and `block()` give the numbers.
    """
    if rng.random() < refused:
        return Nack(rng.choice((7, 8, 9, 10, 7, 8, 9, 10, 3, 4, 1)), rng.randint(0, 3), rng.randint(0, 3))
    match body:
        case Acquire(ino, mode):
            return Queued(ino, mode) if rng.random() < 0.25 else Granted(ino, grant(ino), rng.choice((mode, mode, X)))
        case Map(ino, _, p):
            return Extents(ino, rng.choice(((), ((p, block(), rng.randint(1, 9)),))))
        case Allocate(ino, _, p, _):
            rows = {p: block(), **({rng.randint(0, 2): block()} if rng.random() < 0.4 else {})}
            return Extents(ino, tuple((n, rows[n], rng.randint(1, 9)) for n in sorted(rows)))
        case Name(_):
            return Named(*rng.choice(((0, 2), (0, 10), (2, 5), (1, ()))))
        case Reassert(_):
            return Reasserted()
        case _:
            return Ack()
