#!/usr/bin/env python3
"""facts.py COUNT: facts with COUNT `write` lines, each behind one or two facts that changed; always the same ones."""
import random
import sys

ALPHABET = "0123456789ABCDEFGHJKLMNPRSTUVWXYZ"
CAUSES = ("auto", "manual", "test")


def place(random):
    return f"place {random.randint(-324000000, 324000000)} {random.randint(-648000000, 648000000)}"


def way(random):
    return f"{random.randint(-512, 511)} {random.randint(-512, 511)}"


CHANGES = (
    lambda random: f"time {random.randint(0, 2**32 - 1)}",
    place,
    place,
    lambda random: f"heading {random.randint(0, 255)}",
    lambda random: f"trusted {random.choice(('yes', 'no'))}",
    lambda random: f"before1 {way(random)}",
    lambda random: f"before2 {way(random)}",
    lambda random: f"passengers {random.randint(0, 255)}",
    lambda random: f"kind {random.randint(1, 13)}",
    lambda random: f"fuel {random.randint(0, 127):07b}",
    lambda random: f"vin {''.join(random.choice(ALPHABET) for _ in range(17))}",
)


def main(count):
    numbers = random.Random(2)
    print("vin WM9VDSVDSYA123456\nkind 1\ntime 1577836800")
    # Additional data that never fits beside others, and some that always does.
    print(f"extra 01 {'a5' * 109}\nextra 813403 {'0f' * 30}")
    for number in range(count):
        for _ in range(numbers.randint(1, 2)):
            print(numbers.choice(CHANGES)(numbers))
        print(f"write {numbers.choice(CAUSES)} {number % 256}")


if __name__ == "__main__":
    if len(sys.argv) != 2 or not sys.argv[1].isdecimal():
        sys.exit(__doc__)
    main(int(sys.argv[1]))
