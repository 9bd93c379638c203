"""How much a TCP sends and when it sends again, in plain Python: congestion control (RFC 5681, RFC 6582) and the measured timeout (RFC 6298). In units and ticks.

tools/model.py and tools/endpoint_model.py play with it. A profile is what an operator chooses for a server.
"""
from collections import namedtuple

THRESHOLD = 65535  # the slow start threshold of a new connection
WIDEST = 1 << 20  # the most units of a congestion window
LONGEST = 64  # the longest interval of the timer

# `measures`: the timer follows measured round trips, and the losses of one flight are recovered one after another. `delays`: the ACK of what isn't logged waits.
# `batches`: of what a turn copies to the log only the last is answered, and each other says that one follows. `stamps`: segments carry timestamps (RFC 7323)
Profile = namedtuple("Profile", "measures delays batches stamps")
PROFILES = {"plain": Profile(False, False, False, False), "wan": Profile(True, True, True, True)}


class Timing:
    """The estimate of the round-trip time (RFC 6298). `base` is the interval with which the timer starts; `ahead` says how many units behind the first one that
    isn't acknowledged the timed unit ends, if one is timed."""

    def __init__(self, measures=False):
        self.measures, self.base = measures, 10 if measures else 1
        self.smoothed, self.variation, self.sampled = 0, 0, False  # in eighths and in quarters of a tick
        self.ahead, self.ticks, self.backed_off = None, 0, False

    def measure(self, ticks):
        """A round trip took so many ticks."""
        if self.sampled:
            self.variation += abs(ticks - self.smoothed // 8) - self.variation // 4
            self.smoothed += ticks - self.smoothed // 8
        else:
            self.smoothed, self.variation, self.sampled = 8 * ticks, 2 * ticks, True
        self.base = min(LONGEST, max(2, self.smoothed // 8 + max(2, self.variation)))
        self.ahead, self.backed_off = None, False

    def acknowledge(self, units):
        if self.ahead is not None and self.ahead <= units:
            self.measure(self.ticks)
        elif self.ahead is not None:
            self.ahead -= units

    def tick(self):
        self.ticks = min(255, self.ticks + (self.ahead is not None))

    def resend(self):
        """What is sent again isn't measured (Karn)."""
        self.ahead = None

    def expire(self, interval):
        """The timer is out, and its interval is this long then. It stays as long until a round trip is measured."""
        if self.measures:
            self.base, self.ahead, self.backed_off = interval, None, True

    def send(self, ahead):
        """A unit is sent for the first time. It is timed, if none is."""
        if self.measures and self.ahead is None:
            self.ahead, self.ticks = ahead, 0


class Congestion:
    """How far beyond the first unit that isn't acknowledged may be sent (RFC 5681, 3.1 and 3.2), in units. `flight` is what is sent and unacknowledged, and `lost`
    how much of what was in flight when a loss was noticed is unacknowledged (RFC 6582)."""

    def __init__(self, mss, recovers=False):
        self.mss, self.dups, self.threshold = mss, 0, THRESHOLD
        self.window = (4 if mss <= 1095 else 3) * mss
        self.recovers, self.lost = recovers, 0

    def widen(self, window):
        self.window = min(window, WIDEST)

    def halve(self, flight):
        self.threshold = max(flight // 2, 2 * self.mss)

    def note_loss(self, flight):
        self.lost = flight if self.recovers else 0

    def acknowledge(self, units):
        """So many units are acknowledged for the first time: it grows, or fast recovery ends. Whether a part of what was lost isn't among them: then fast
        recovery goes on, and a segment is sent again."""
        partial = units < self.lost
        if self.dups >= 3 and partial:
            self.widen(max(self.mss, self.window - units) + (self.mss if units >= self.mss else 0))
        elif self.dups >= 3:
            self.widen(self.threshold)
        elif self.window < self.threshold:
            self.widen(self.window + min(units, self.mss))
        else:
            self.widen(self.window + max(1, self.mss * self.mss // self.window))
        self.dups = self.dups if self.dups >= 3 and partial else 0
        self.lost = max(0, self.lost - units)
        return partial

    def repeat(self, flight):
        """A duplicate acknowledgement. Whether it is the third in a row, at which a segment is sent again; none is while something lost is unacknowledged."""
        third = self.dups == 2 and not self.lost
        if self.dups >= 3:
            self.widen(self.window + self.mss)
            self.dups = 4
        elif third:
            self.halve(flight)
            self.widen(self.threshold + 3 * self.mss)
            self.note_loss(flight)
            self.dups = 3
        else:
            self.dups = min(2, self.dups + 1)
        return third

    def lose(self, flight, first):
        """The timer expires. `first` is false where it did before, and nothing was acknowledged since."""
        if first:
            self.halve(flight)
        self.window, self.dups = self.mss, 0
        self.note_loss(flight)
