"""Whether settings fit the times of a deployment, so that a healthy client keeps its lease and is
not suspected. docs/PROTOCOL.md, "Healthy clients".
"""


def oldest_lease(settings, gap, delay):
    """The age that a healthy client's lease never reaches, if the client ticks once in a gap and
    each message comes within the delay.
    """
    return max(settings.renew + gap, 2 * delay + 1) + 2 * delay


def locks_at_once(settings, delay):
    """How many locks of a healthy client may be demanded at once; None: any number. The releases,
    and one request before them, must take less than the demand time.
    """
    return max(0, (settings.demand - 1) // (2 * delay) - 1) if delay else None


def misfits(settings, gap, delay, demands):
    """What does not fit: sentences. All times are in ticks; `demands` is how many locks of one
    client may be demanded at once.
    """
    age = oldest_lease(settings, gap, delay)
    times = f"with a tick in {gap} and messages within {delay}"
    if age > settings.lease:
        yield f"{times} a lease may be lost before it is renewed: it becomes up to {age - 1} old, and ends at {settings.lease}"
    elif age > settings.quiesce:
        yield f"{times} asks may be answered `quiesced`: a lease becomes up to {age - 1} old, and serves below {settings.quiesce}"
    most = locks_at_once(settings, delay)
    if most is not None and demands > most:
        need = 2 * delay * (demands + 1) + 1
        at_once = f"more than {most} of them are demanded at once" if most else "one of them is demanded"
        yield (f"with messages within {delay} a client that answers may be suspected, and lose its locks, if {at_once}: "
               f"for {demands} `demand` must be {need}, and is {settings.demand}")


def add_words(parser):
    """The words of the command line by which a deployment's times are told."""
    parser.add_argument("--delay", type=int, default=20, metavar="MS", help="how long a message takes at most; the tool warns of settings that do not fit (20)")
    parser.add_argument("--demands", type=int, default=8, metavar="N", help="how many locks of one client others may want at once, for the same warning (8)")
