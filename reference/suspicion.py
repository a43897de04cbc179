"""The timers of a server. Chapter "Suspicion and theft"."""


class Timers:
    """A start for each client that is suspect. Chapter "Suspicion and theft"."""

    def __init__(self):
        self.starts = {}

    def suspects(self, client):
        """Whether a timer runs for the client. Chapter "Suspicion and theft"."""
        return client in self.starts

    def start(self, client, now):
        """Rule "Suspicion": a timer that runs keeps its start. Whether it began now. Chapter
        "Suspicion and theft".
        """
        if client in self.starts:
            return False
        self.starts[client] = now
        return True

    def over(self, now, wait):
        """Rule "Theft": the clients whose timers are over, rising; their timers go. Chapter
        "Suspicion and theft".
        """
        clients = sorted(client for client, start in self.starts.items() if now >= start + wait)
        for client in clients:
            del self.starts[client]
        return clients
