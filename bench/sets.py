#!/usr/bin/env python3
"""sets.py COUNT [known] [format1]: writes so many lines of mixed sets of data of format 2, in hexadecimal, always the same ones.
With the word `known`, none has an addition or a category of vehicle that came later than the module; with the word `format1`
they are sets of format 1.

The encoder follows docs/FORMATS.md and shares nothing with the program that it measures."""
import random
import sys

ALPHABET = "0123456789ABCDEFGHJKLMNPRSTUVWXYZ"
MOST_OCTETS = 140


def bits(value, width):
    return format(value, f"0{width}b") if width else ""


def octets(data):
    return bits(len(data), 8) + "".join(bits(octet, 8) for octet in data)


def additions(draw):
    present = [draw.random() < 0.5 for _ in range(draw.randint(1, 4))]
    present[-1] = True
    parts = "".join(octets(draw.randbytes(draw.randint(1, 6))) for here in present if here)
    return bits(len(present) - 1, 7) + "".join("1" if here else "0" for here in present) + parts


def delta(draw):
    return bits(draw.randint(0, 1023), 10) + bits(draw.randint(0, 1023), 10)


def set_of_data(draw, later, form):
    has = lambda chance: draw.random() < chance
    came_later = lambda: has(0.05 if later else 0)
    extra, first, second, passengers = has(0.2), has(0.5), has(0.4), has(0.6)
    more, message_more, fuel_more = has(0.1 if later else 0), came_later(), came_later()
    text = bits(form, 8) + ("1" if message_more else "0") + ("1" if extra else "0")
    text += ("1" if more else "0") + "".join("1" if here else "0" for here in (first, second, passengers))
    text += bits(draw.randint(1, 255), 8) + bits(draw.getrandbits(3), 3)
    text += "1" + bits(draw.randint(0, 63), 7) if came_later() else "0" + bits(draw.randint(0, 12), 4)
    text += "".join(bits(ALPHABET.index(draw.choice(ALPHABET)), 6) for _ in range(17))
    stored = [has(0.3) for _ in range(5 + form)]
    text += ("1" if fuel_more else "0") + "".join("1" if here else "0" for here in stored)
    text += "".join("1" for here in stored if here)
    text += additions(draw) if fuel_more else ""
    text += bits(draw.getrandbits(32), 32)
    text += bits(draw.randint(-324000000, 324000000) + 2**31, 32)
    text += bits(draw.randint(-648000000, 648000000) + 2**31, 32)
    text += bits(draw.choice((255, draw.randint(0, 179))), 8)
    text += delta(draw) if first else ""
    text += delta(draw) if second else ""
    text += bits(draw.randint(0, 255), 8) if passengers else ""
    text += additions(draw) if more else ""
    if extra:
        oid = bytes([draw.randint(0, 127) for _ in range(draw.randint(1, 3))])
        text += octets(oid) + octets(draw.randbytes(draw.randint(0, 40)))
    text += additions(draw) if message_more else ""
    text += "0" * (-len(text) % 8)
    assert len(text) <= 8 * MOST_OCTETS
    return bytes(int(text[i:i + 8], 2) for i in range(0, len(text), 8))


def main(count, words):
    draw = random.Random(112)
    for _ in range(count):
        print(set_of_data(draw, "known" not in words, 1 if "format1" in words else 2).hex())


if __name__ == "__main__":
    main(int(sys.argv[1]), sys.argv[2:])
