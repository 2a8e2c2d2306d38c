#!/usr/bin/env python3
"""Writes the study files of this folder from the tables below. The files are committed; this says how they were made."""
import struct


def header(echelons, resources):
    return struct.pack(">cBB21x", b"N", echelons, resources)


def component(number, parent, needs, rate):
    return struct.pack(">cBB3B2xI12x", b"C", number, parent, *needs, rate)


def option_charge(number, echelon, letter, cents, minutes=0):
    return struct.pack(">cBBc4xqQ", b"T", number, echelon, letter.encode(), cents, minutes)


def resource_charge(resource, echelon, cents, minutes=0):
    return struct.pack(">cBB5xqQ", b"F", resource, echelon, cents, minutes)


def study_x():
    out = [header(2, 1), component(0, 255, (0, 1, 0), 2000), component(1, 0, (0, 0, 0), 1000)]
    for number, echelon, letter, cents, minutes in [
        (0, 1, "D", 500, 0), (0, 1, "R", 100, 30), (0, 1, "M", 10, 0), (0, 2, "D", 500, 0), (0, 2, "R", 80, 90),
        (1, 1, "D", 60, 0), (1, 1, "M", 5, 0), (1, 2, "D", 50, 0), (1, 2, "R", 20, 0),
    ]:
        out.append(option_charge(number, echelon, letter, cents, minutes))
    out += [resource_charge(0, 1, 300), resource_charge(0, 2, 100)]
    return b"".join(out)


# Resources: name, and a year's charge in cents aboard the ships, at the base, at the maker's plant (None: not to be had).
BENCHES = [
    ("microwave bench", (None, 4_800_000, 2_600_000)),
    ("high-voltage bench", (None, 3_900_000, 2_200_000)),
    ("circuit card tester", (9_500_000, 1_300_000, 1_500_000)),
    ("near-field antenna range", (None, None, 7_500_000)),
]

# Components: name, parent, failures per thousand years over all ships, benches that a repair needs, discard charge,
# repair charges at the three echelons (None: cannot be repaired there), move charges from ship to base and base to plant,
# minutes of a repair. Charges are cents per failure. A discard at the plant returns a tenth as scrap.
PARTS = [
    ("antenna group", None, 9_600, [], 5_200_000, (45_000, 40_000, 38_000), (60_000, 90_000), 240),
    ("transmitter group", None, 24_000, [], 6_800_000, (38_000, 36_000, 35_000), (40_000, 70_000), 180),
    ("receiver group", None, 19_200, [], 3_900_000, (22_000, 21_000, 20_000), (25_000, 45_000), 120),
    ("signal processor", None, 14_400, [], 4_400_000, (18_000, 17_000, 16_000), (15_000, 30_000), 90),
    ("display console", None, 16_800, [], 1_900_000, (15_000, 14_000, 14_000), (20_000, 35_000), 60),
    ("reflector and feed", 0, 2_400, [3], 2_700_000, (None, None, 320_000), (55_000, 80_000), 900),
    ("rotary joint", 0, 4_000, [0], 640_000, (None, 95_000, 80_000), (9_000, 16_000), 300),
    ("drive and gearbox", 0, 3_200, [], 880_000, (None, 160_000, 130_000), (30_000, 50_000), 480),
    ("magnetron", 1, 12_000, [], 950_000, (None, None, 410_000), (12_000, 22_000), 360),
    ("modulator", 1, 7_200, [1], 1_350_000, (None, 120_000, 105_000), (18_000, 32_000), 300),
    ("high-voltage supply", 1, 4_800, [1], 720_000, (None, 85_000, 78_000), (11_000, 20_000), 240),
    ("low-noise amplifier", 2, 6_400, [0], 480_000, (None, 70_000, 52_000), (3_000, 6_000), 200),
    ("mixer and oscillator", 2, 5_600, [0], 390_000, (None, 64_000, 50_000), (3_000, 6_000), 200),
    ("intermediate-frequency strip", 2, 7_200, [2], 260_000, (42_000, 34_000, 30_000), (2_500, 5_000), 120),
    ("timing card", 3, 4_000, [2], 210_000, (39_000, 31_000, 28_000), (2_000, 4_000), 100),
    ("filter card", 3, 5_600, [2], 280_000, (41_000, 33_000, 29_000), (2_000, 4_000), 100),
    ("target tracker card", 3, 4_800, [2], 340_000, (44_000, 35_000, 31_000), (2_000, 4_000), 110),
    ("deflection unit", 4, 7_200, [1], 310_000, (None, 47_000, 43_000), (8_000, 14_000), 150),
    ("cathode-ray tube", 4, 5_600, [], 420_000, (None, None, None), (14_000, 24_000), 0),
    ("thyratron switch", 9, 4_000, [], 190_000, (None, None, 88_000), (2_500, 5_000), 90),
    ("pulse transformer", 9, 1_600, [1], 260_000, (None, 58_000, 49_000), (6_000, 11_000), 160),
]


def radar():
    out = [header(3, len(BENCHES))]
    for number, (_, parent, rate, benches, *_) in enumerate(PARTS):
        mask = sum(1 << bench for bench in benches)
        out.append(component(number, 255 if parent is None else parent, (0, mask, 0), rate))
    for number, (_, _, _, _, discard, repairs, moves, minutes) in enumerate(PARTS):
        for echelon in (1, 2, 3):
            scrap = discard // 10 if echelon == 3 else 0
            out.append(option_charge(number, echelon, "D", discard - scrap))
            if repairs[echelon - 1] is not None:
                out.append(option_charge(number, echelon, "R", repairs[echelon - 1], minutes))
            if echelon < 3:
                out.append(option_charge(number, echelon, "M", moves[echelon - 1]))
    for bench, (_, charges) in enumerate(BENCHES):
        for echelon, cents in enumerate(charges, 1):
            if cents is not None:
                out.append(resource_charge(bench, echelon, cents))
    return b"".join(out)


def table():
    def show(cents):
        return "–" if cents is None else f"{cents:,}"

    print("| number | component | parent | rate | repair needs | discard at 1, 2 | discard at 3 | repair at 1 | at 2 | at 3 | move from 1 | from 2 | repair minutes |")
    print("|---" * 13 + "|")
    for number, (name, parent, rate, benches, discard, repairs, moves, minutes) in enumerate(PARTS):
        cells = [number, name, "–" if parent is None else parent, f"{rate:,}", ", ".join(map(str, benches)) or "–",
                 show(discard), show(discard - discard // 10), *map(show, repairs), *map(show, moves), minutes]
        print("| " + " | ".join(map(str, cells)) + " |")
    print()
    print("| number | resource | at 1 | at 2 | at 3 |")
    print("|---|---|---|---|---|")
    for bench, (name, charges) in enumerate(BENCHES):
        print(f"| {bench} | {name} | " + " | ".join(map(show, charges)) + " |")


if __name__ == "__main__":
    for name, data in (("x.study", study_x()), ("radar.study", radar())):
        with open(name, "wb") as file:
            file.write(data)
    table()
