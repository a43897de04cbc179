"""Sources and sinks. Chapter "Sources and sinks"."""

PIECE = 4096


class Failed(Exception):
    """A failed `take` or `put`."""


def pieces_of(stream):
    """The pieces of a stream, each of at most 4,096 bytes, until its end. Chapter "Sources and
    sinks".
    """
    while True:
        try:
            piece = stream.read1(PIECE) if hasattr(stream, "read1") else stream.read(PIECE)
        except OSError as fault:
            raise Failed("read") from fault
        if not piece:
            return
        yield piece


class Sink:
    """Gathers text and writes it in pieces of some kilobytes."""

    def __init__(self, stream, limit=65536):
        self.stream, self.limit, self.parts, self.held = stream, limit, [], 0

    def write(self, text):
        """Text is gathered. Chapter "Sources and sinks"."""
        self.parts.append(text)
        self.held += len(text)
        if self.held >= self.limit:
            self.flush()

    def flush(self):
        """What was gathered is written. Chapter "Sources and sinks"."""
        text, self.parts, self.held = "".join(self.parts), [], 0
        try:
            self.stream.write(text.encode("latin-1"))
            self.stream.flush()
        except OSError as fault:
            raise Failed("write") from fault
