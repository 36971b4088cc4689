"""Random logs of parameters, and the readings of their messages: by the ranges of J1939-71 and the places that a table has."""
import decimal
import os
import subprocess

OWN = os.path.join(os.path.dirname(os.path.realpath(__file__)), "own_table/my.table")
# Of the built-in table, of that of trucks and of one of its own: with numbers of one byte to four, switches, numbers of bits, texts,
# signed numbers, and TSC1 (0) with a destination.
GROUPS = {
    "": [61443, 61444, 65248, 65253, 65262, 65265, 65260],
    "trucks": [0, 61440, 61444, 65217, 65262, 65265, 65132, 65131],
    OWN: [61449, 65280, 65281, 65282],
}


# ---- random logs

class Log:
    """Its lines, and what is heard in it: the moment, the address, the destination, the NAME, the group and the payload."""

    def __init__(self, chance, groups):
        self.random, self.groups = chance, groups
        self.now, self.lines, self.heard, self.names, self.held = 1_700_000_000_000_000, [], [], {}, {}
        for _ in range(chance.randrange(1, 60)):
            chance.choices([self.claim, self.single, self.again, self.packets], [1, 14, 14, 1])[0]()

    def frame(self, identifier, payload):
        self.now += self.random.randrange(1_000, 50_000)
        self.lines.append("(%d.%06d) can0 %08X#%s" % (*divmod(self.now, 1_000_000), identifier, payload.hex().upper()))

    def claim(self):
        """A NAME of the address's own, each below the last one, so that it gets the address."""
        address = self.random.choice([0, 3])
        self.names[address] = self.names.get(address, 0x8000000001400000 + address * 256 + 200) - self.random.randrange(2)
        self.held[self.names[address]] = address
        self.frame(0x18EEFF00 + address, self.names[address].to_bytes(8, "little"))

    def payload(self, length):
        """Bytes of which many are not available, or no numbers."""
        edges = [0xFF, 0xFF, 0xFF, 0xFE, 0xFD, 0xFC, 0xFB, 0xFA, 0, 0xCF, 0xF3, 0xC7]
        return bytes(self.random.choice(edges + [self.random.randrange(256)] * 8) for _ in range(length))

    def single(self):
        pgn = self.random.choice(self.groups)
        self.send(self.random.choice([0, 3]), pgn, self.random.choice([0, 15, 255]), self.payload(self.random.choice([8] * 8 + list(range(8)))))

    def again(self):
        """What was said before, with a byte that is another."""
        if not self.heard:
            return self.single()
        _, address, destination, _, pgn, payload = self.random.choice(self.heard[-4:])
        payload = bytearray(payload[:8])
        if payload:
            payload[self.random.randrange(len(payload))] = self.payload(1)[0]
        self.send(address, pgn, destination or 0, bytes(payload))

    def send(self, address, pgn, destination, payload):
        is_directed = pgn // 256 % 256 < 240
        self.frame(0x18000000 + (pgn + (destination if is_directed else 0)) * 256 + address, payload)
        self.hear(address, pgn, destination if is_directed else None, payload)

    def hear(self, address, pgn, destination, payload):
        self.heard.append((self.now, address, destination, self.names.get(address), pgn, payload))

    def packets(self):
        """A message in packets to all or to one, whole or not: of letters where its group has texts."""
        address, pgn, length, to = self.random.choice([0, 3]), self.random.choice(self.groups), self.random.randrange(9, 30), self.random.choice([255, 255, 249])
        payload = self.payload(length)
        if pgn in (65131, 65260):
            payload = bytes(self.random.choice(b"ABC 12*") for _ in range(length))
        packets = [payload[i:i + 7].ljust(7, b"\xff") for i in range(0, length, 7)]
        self.frame(0x1CEC0000 + to * 256 + address, bytes([32 if to == 255 else 16, length, 0, len(packets), 255, pgn % 256, pgn // 256, 0]))
        said = len(packets) if self.random.random() < 0.8 else self.random.randrange(len(packets))
        for number, packet in enumerate(packets[:said], 1):
            self.frame(0x1CEB0000 + to * 256 + address, bytes([number]) + packet)
        if said == len(packets):
            self.hear(address, pgn, to if to != 255 or pgn // 256 % 256 < 240 else None, payload)


# ---- the reading

def byte_text(byte):
    return chr(byte) if 0x20 <= byte <= 0x7E and byte not in b'"\\' else f"\\x{byte:02X}"


class Row:
    """A row of a table: where its parameter stands, and what a raw number is worth."""

    def __init__(self, line):
        pgn, _, spn, self.place, step, offset, self.unit, name = line.split(" ", 7)
        self.name, _, states = name.partition(" = ")
        self.states = {int(number): words for number, words in (state.split(" ", 1) for state in states.split(", ") if state)}
        self.pgn, self.spn, self.is_text, self.is_switch = int(pgn), int(spn), self.place[-1:] == "-" or "*" in self.place, step == "-"
        self.places = len(offset.partition(".")[2])
        if not self.is_switch:
            self.step, self.offset = decimal.Decimal(step), decimal.Decimal(offset)
        if self.is_text:
            return
        self.is_signed, self.is_full = self.place.endswith("s"), self.place.endswith("u")
        begin, _, end = self.place.rstrip("su").partition("-")
        byte, _, bit = begin.partition(".")
        if bit:
            last_byte, _, last_bit = end.rpartition(".")
            last = 8 * int(last_byte or byte) - 8 + int(last_bit or bit)
        else:
            last = 8 * int(end or byte)
        self.first = 8 * int(byte) - 8 + int(bit or 1) - 1
        self.count = last - self.first

    def raw(self, payload):
        return int.from_bytes(payload, "little") >> self.first & (1 << self.count) - 1

    def state(self, payload, said):
        """What a value's raw number is called, or nothing if it stands for more than one, or below zero."""
        if self.is_text or said == "reserved" or isinstance(said, str) and self.count > 8:
            return ""
        raw = self.raw(payload)
        return "" if self.is_signed and raw >> self.count - 1 else self.states.get(raw, "")

    def says(self, payload):
        """A number, a word, a text in quotes; '' if it isn't available, or None if it isn't there."""
        if self.is_text:
            parts = payload.split(b"*")
            text = parts[int(self.place[1:]) - 1] if len(parts) >= int(self.place[1:]) else b""
            return '"' + "".join(byte_text(byte) for byte in text) + '"' if text else None
        if 8 * len(payload) < self.first + self.count:
            return None
        raw = self.raw(payload)
        if self.is_signed:
            return (raw - (1 << self.count if raw >> self.count - 1 else 0)) * self.step + self.offset
        if self.is_switch:
            return ["off", "on", "error", ""][raw]
        if self.is_full:
            return raw * self.step + self.offset
        if self.count % 8 == 0:
            top = raw >> self.count - 8
            word = {0xFF: "", 0xFE: "error", 0xFD: "reserved", 0xFC: "reserved", 0xFB: "indicator"}.get(top)
        else:
            behind = (1 << self.count) - raw
            word = "" if behind == 1 < self.count else "error" if behind == self.count == 2 else None
        return raw * self.step + self.offset if word is None else word


def table_of(program, words):
    lines = subprocess.run([program, "groups", *words], capture_output=True, check=True, text=True).stdout.splitlines()
    return [Row(line) for line in lines]
