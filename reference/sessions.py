"""What a server keeps of its clients. Chapter "Sessions"."""


class Session:
    """A life, whether it lives, the number of the last request served, and its reply (a kind and a
    body).
    """

    __slots__ = ("life", "living", "last", "reply")

    def __init__(self, life, last=0, reply=None):
        self.life, self.living, self.last, self.reply = life, True, last, reply


class Sessions:
    """One session for each client that greeted in this epoch. Chapter "Sessions"."""

    def __init__(self):
        self.of = {}

    def greet(self, client, life, has_locks):
        """Rule "Greeting": "welcome", "replaced", "old" or "wait". Chapter "Sessions"."""
        session = self.of.get(client)
        if session is None:
            self.of[client] = Session(life)
            return "welcome"
        if session.living:
            if life < session.life:
                return "old"
            if life == session.life:
                return "welcome"
            if has_locks:
                return "wait"
            self.of[client] = Session(life)
            return "replaced"
        if life <= session.life:
            return "old"
        self.of[client] = Session(life)
        return "welcome"

    def take(self, client, life, number):
        """Rule "Taking a request" of the present epoch: "nosession", "stale", "again", "fresh" or
        "outoforder". Chapter "Sessions".
        """
        session = self.of.get(client)
        if session is None or life > session.life:
            return "nosession"
        if life < session.life or not session.living or number < session.last:
            return "stale"
        if number == session.last:
            return "again"
        if number == session.last + 1:
            return "fresh"
        return "outoforder"

    def knows(self, client, life):
        """Whether a session lives with this life, or has a higher one. Chapter "Grace and
        reassertion".
        """
        session = self.of.get(client)
        return session is not None and (life < session.life or (life == session.life and session.living))

    def keep(self, client, number, reply):
        """Rule "Keeping a reply". Chapter "Sessions"."""
        session = self.of[client]
        session.last, session.reply = number, reply

    def reasserted(self, client, life, reply):
        """Rule "Reasserted": a living session whose last number is 1. Chapter "Sessions"."""
        self.of[client] = Session(life, 1, reply)

    def end(self, client):
        """Rule "Ending": the session no longer serves anything; its life stays. Its life, or 0.
        Chapter "Sessions".
        """
        session = self.of.get(client)
        if session is None:
            return 0
        session.living = False
        session.reply = None
        return session.life
