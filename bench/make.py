#!/usr/bin/env python3
"""Writes the three study files of this folder: 60 components, 4 echelons and 16 pairs of a resource and an echelon each."""
import os
import random
import sys

sys.path.insert(0, os.path.join(os.path.dirname(os.path.abspath(__file__)), "..", "examples"))
from make import component, header, option_charge, resource_charge


# The discard of component 0 at echelon 1 alone has minutes and needs no resource, so that the walks of a search can be counted.
def study(parents, needs, rates, charge, resource):
    out = [header(4, 4)]
    out += [component(i, parents[i], needs[i], rates[i]) for i in range(60)]
    for i in range(60):
        for echelon in range(1, 5):
            for letter in "DRM":
                if letter == "M" and echelon == 4:
                    continue
                cents = charge(i, echelon, letter)
                if cents is not None:
                    minutes = 1 if (i, echelon, letter) == (0, 1, "D") else 0
                    out.append(option_charge(i, echelon, letter, cents, minutes))
    out += [resource_charge(r, e, resource(r, e)) for r in range(4) for e in range(1, 5)]
    return b"".join(out)


def ordinary():
    draw = random.Random(7)
    parents = [255 if i < 6 else draw.randrange(max(0, (i - 6) // 4), max(1, i // 4)) for i in range(60)]
    needs = [(0, 0 if i < 6 else 1 << draw.randrange(4), 0) for i in range(60)]
    rates = [draw.randrange(500, 20_000) for _ in range(60)]
    price = [draw.randrange(100_000, 3_000_000) for _ in range(60)]

    def charge(i, echelon, letter):
        if letter == "D":
            return price[i]
        if letter == "R":
            return price[i] // (3 + echelon) + 1_000
        return price[i] // 60 + 500

    return study(parents, needs, rates, charge, lambda r, e: 9_000_000 // e + 50_000 * r)


def tied():
    parents = [255 if i < 10 else i % 10 for i in range(60)]
    needs = [(0, 1 << (i % 4), 0) for i in range(60)]

    def charge(i, echelon, letter):
        return {"D": 4, "R": 3, "M": 0}[letter]

    return study(parents, needs, [1_000] * 60, charge, lambda r, e: 10)


def hard():
    """Three parts share each of the 16 pairs, and together save exactly its cost."""
    pair = [(i // 3) % 16 for i in range(60)]
    needs = [(0, 1 << (pair[i] // 4) if i < 48 else 0, 0) for i in range(60)]

    def charge(i, echelon, letter):
        saving = 1 + pair[i]
        if letter == "D":
            return 100 if echelon == 1 else None
        if letter == "R":
            return 100 - saving if i < 48 and echelon == pair[i] % 4 + 1 else None
        return 0

    return study([255] * 60, needs, [1_000] * 60, charge, lambda r, e: 3 * (1 + 4 * r + e - 1))


if __name__ == "__main__":
    here = os.path.dirname(os.path.abspath(__file__))
    for name, data in (("ordinary", ordinary()), ("tied", tied()), ("hard", hard())):
        with open(os.path.join(here, name + ".study"), "wb") as file:
            file.write(data)
