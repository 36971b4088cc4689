"""A random filter of a command of j1939: the words that ask for it, and which messages it takes by this reading of its own."""
import datetime


class Filter:
    """Of a log: its NAMEs, its groups, and the moments of its first frame and its last."""

    def __init__(self, chance, names, groups, first, last):
        self.first, self.words = first, []
        self.senders = self.part(chance, "--from", lambda: self.sender(chance, names))
        self.to = self.part(chance, "--to", lambda: self.number(chance, chance.choice([255, 255, 0, 3, 11, 249]), "%X", "%02x"))
        self.pgns = self.part(chance, "--pgn", lambda: self.number(chance, chance.choice(groups + [65281]), "%d", "%06d"))
        self.forms = set()
        self.since, self.until = (self.moment(chance, word, last) for word in ["--since", "--until"])
        # What is said of two moments of one form, between which none lies.
        is_turned = None not in (self.since, self.until) and self.until < self.since and len(self.forms) == 1
        self.said = "j1939: --since is behind --until\n" if is_turned else ""

    def part(self, chance, word, one):
        if chance.random() < 0.6:
            return None
        asked = [one() for _ in range(chance.choice([1, 1, 1, 2, 3]))]
        self.words += [word, ",".join(text for text, _ in asked)]
        return [value for _, value in asked]

    def number(self, chance, value, *forms):
        return chance.choice(forms) % value, value

    def sender(self, chance, names):
        if names and chance.random() < 0.5:
            name = chance.choice(names)
            return chance.choice(["%016X", "%016x"]) % name, ("name", name)
        text, value = self.number(chance, chance.choice([0, 0, 3, 3, 11, 16]), "%X", "%02x")
        return text, ("address", value)

    def moment(self, chance, word, last):
        """One of a stamp, in seconds or in UTC, or behind the first frame: often that of no frame, or that of the first or last."""
        if chance.random() < 0.6:
            return None
        micros = chance.choice([self.first, last, chance.randrange(self.first, last + 1), chance.randrange(self.first, last + 1)])
        form = chance.choice(["seconds", "utc", "behind"])
        if form == "seconds":
            text = "%d.%06d" % divmod(micros, 1_000_000)
        elif form == "utc":
            moment = datetime.datetime.fromtimestamp(micros // 1_000_000, datetime.timezone.utc)
            text = moment.strftime("%Y-%m-%dT%H:%M:%S.") + "%06dZ" % (micros % 1_000_000)
        else:
            text = "+%d.%06d" % divmod(micros - self.first, 1_000_000)
        self.forms.add(form == "behind")
        self.words += [word, text]
        return micros

    def takes(self, now, address, to, name, pgn):
        """Of a message: when its last frame came, from whom, to whom, which NAME held the address then, and its group."""
        is_from = self.senders is None or any(asked in (("address", address), ("name", name)) for asked in self.senders)
        is_to = self.to is None or (255 if to is None else to) in self.to
        is_of = self.pgns is None or pgn in self.pgns
        return is_from and is_to and is_of and self.is_in_time(now)

    def is_in_time(self, now):
        return (self.since is None or self.since <= now) and (self.until is None or now <= self.until)


def filter_of(chance, names, groups, lines):
    """A filter for a log of these lines, or one that takes all."""
    stamps = [int(line[1:line.index(".")]) * 1_000_000 + int(line[line.index(".") + 1:line.index(")")]) for line in lines] or [0]
    return Filter(chance, names, groups, stamps[0], max(stamps))
