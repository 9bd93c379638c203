"""The four services in plain Python, by the rules and not by the program, and the receiver of mail. tools/model.py has the rest."""
import mail_model

GREETINGS = {"mail": mail_model.GREETING}  # of services that speak first, by name: none of the four does


class Service:
    """One of these services: what it makes of one chunk after another."""

    def __init__(self, name):
        self.name, self.closed, self.held, self.count, self.made = name, False, b"", 0, 0
        self.greeting = GREETINGS.get(name, b"")
        self.session = mail_model.Session() if name == "mail" else None

    def form(self):
        """The bytes as which its state is saved. One that has closed has none."""
        if self.name == "line":
            return self.count.to_bytes(8, "big") + self.held
        return bytes([self.made % 251]) + self.held if self.name == "transfer" else b""

    @classmethod
    def of_form(cls, name, form):
        """The service whose state is saved as these bytes; None where no state is."""
        it = cls(name)
        if name == "line":
            it.count, it.held = int.from_bytes(form[:8], "big"), form[8:]
            fits = len(form) >= 8 and len(it.held) < 1024 and b"\n" not in it.held
        elif name == "transfer":
            it.made, it.held = form[0] if form else 251, form[1:]
            fits = it.made < 251 and len(it.held) < 4
        else:
            fits = not form
        return it if fits else None

    def take(self, chunk):
        if self.closed:
            return b""
        self.closed = not chunk
        return getattr(self, self.name)(chunk)

    def echo(self, chunk):
        return chunk

    def meter(self, chunk):
        return b"%d\n" % len(chunk) if chunk else b""

    def mail(self, chunk):
        out = self.session.take(chunk)
        self.closed = self.session.closed
        return out

    def line(self, chunk):
        out, held = b"", self.held
        for byte in chunk:
            held += bytes([byte])
            if byte == 10 or len(held) == 1024:
                out, held = out + self.finish_line(held.removesuffix(b"\n")), b""
                if self.closed:
                    return out
        self.held = held
        return out if chunk or not held else self.finish_line(held)

    def finish_line(self, line):
        if line == b"quit":
            self.closed = True
            return b"bye\n"
        self.count = min(self.count + 1, 2**64 - 1)
        return b"%d %s\n" % (self.count, line)

    def transfer(self, chunk):
        out, held = b"", self.held + chunk
        while len(held) >= 4 and not self.closed:
            asked, held = int.from_bytes(held[:4], "big"), held[4:]
            self.closed = asked == 0
            room = min(asked, 2047)
            out += bytes((self.made + place) % 251 for place in range(room))
            self.made += room
        self.held = held
        return out
