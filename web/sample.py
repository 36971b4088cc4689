"""The log that is built into the page: half an hour of a truck that is made up, with what a log may have. It is the same each time."""
import math

BEGIN = 1_732_550_400_000  # milliseconds: 2024-11-25 16:00:00 UTC
ENGINE, RETARDER, BRAKES, DASHBOARD = 0x00, 0x0F, 0x0B, 0x17
NAMES = {ENGINE: 0x8000000001401234, RETARDER: 0x80000A0001404321, BRAKES: 0x0000090B00800777}
STOPPED = range(620_000, 800_000)  # the ignition is off
BROKEN = range(1_200_000, 1_260_000)  # the boost sensor says error
HOT = 1_450_000  # from here on the coolant is too hot


def bytes_of(value, count):
    return int(value).to_bytes(count, "little")


def drive(at):
    """How fast it goes, in km/h."""
    return max(0.0, 62 + 24 * math.sin(at / 130_000) + 6 * math.sin(at / 17_000)) * min(1, at / 60_000)


def engine(at):
    turns = 650 + 11 * drive(at) + 180 * math.sin(at / 5_300) ** 2
    load = 30 + 0.5 * drive(at) * math.sin(at / 31_000) ** 2
    return bytes([0xF0, 125 + int(load / 2), 125 + int(load)]) + bytes_of(turns * 8, 2) + b"\xff\xff\xff"


def speed(at):
    return b"\xf3" + bytes_of(drive(at) * 256, 2) + bytes([0xD0 | (drive(at) > 70), 0xFF, 80, 0xFF, 0xFF])


def temperatures(at):
    coolant = 40 + min(48, at / 9_000) + (max(0, at - HOT + 200_000) / 16_000)
    return bytes([int(coolant) + 40, 70]) + bytes_of((coolant + 14 + 273) * 32, 2) + b"\xff\xff\xff\xff"


def intake(at):
    boost = 0xFE if at in BROKEN else int(60 + drive(at) * math.sin(at / 31_000) ** 2)
    return bytes([0xFF, boost, 40 + 30]) + b"\xff" * 5


def levels(at):
    return bytes([100, 0xFF, 200, 90 + int(10 * math.sin(at / 90_000)), 0xFF, 0xFF, 50, 240])


def fuel(at):
    return bytes_of((4 + drive(at) / 3) * 20, 2) + bytes_of(1500 + 600 * math.sin(at / 45_000), 2) + b"\xff" * 4


def distance(at):
    return bytes_of(at * 0.14, 4) + bytes_of(3_211_080_000 + at * 0.14, 4)


def faults(at):
    return (b"\x10\xff" + b"\x6e\x00\x10\x01" if at >= HOT else b"\x00\xff" + bytes(4)) + b"\xff\xff"


def voltage(at):
    return b"\xff" * 4 + bytes_of((27.6 + 0.4 * math.sin(at / 21_000)) * 20, 2) + b"\xff\xff"


# The identifier, the time between two in milliseconds, the data.
PERIODIC = [
    (0x0CF00400, 2_000, engine), (0x18FEF10B, 2_000, speed), (0x18FEF117, 4_000, speed), (0x18FEEE00, 10_000, temperatures),
    (0x18FEF600, 8_000, intake), (0x18FEEF00, 10_000, levels), (0x18FEF200, 5_000, fuel), (0x18FEE017, 20_000, distance),
    (0x18FECA00, 10_000, faults), (0x18FEF717, 10_000, voltage),
]


def claims():
    return [(40 + 3 * address, 0x18EEFF00 | address, bytes_of(name, 8)) for address, name in NAMES.items()]


def identification(at):
    """The engine broadcasts the vehicle's number, in packets."""
    number = b"1FUJA6CV12LK12345" + b"\xff" * 4
    packets = [bytes([i + 1]) + number[7 * i:7 * i + 7] for i in range(3)]
    announced = (at, 0x1CECFF00, b"\x20\x11\x00\x03\xff\xec\xfe\x00")
    return [announced] + [(at + 60 * (i + 1), 0x1CEBFF00, packet) for i, packet in enumerate(packets)]


def log():
    """The lines, as candump writes them; what the trailer says is on an interface of its own."""
    frames = claims() + identification(2_000) + identification(1_000_000)
    frames += [(at, identifier, data(at)) for phase, (identifier, period, data) in enumerate(PERIODIC)
               for at in range(100 + 7 * phase, 1_800_000, period) if at not in STOPPED]
    lines = [(at, f"can0 {identifier:08X}#{data.hex().upper()}") for at, identifier, data in frames]
    lines += [(at, f"can1 18FEF1C8#{speed(at).hex().upper()}") for at in range(550, 1_800_000, 15_000)]
    return "".join(f"({(BEGIN + at) / 1000:.6f}) {frame}\n" for at, frame in sorted(lines))
