#!/usr/bin/env python3
"""stream.py [short] COUNT: writes a stream of frames in hexadecimal, COUNT times one of each kind, in pieces that seldom end
with a frame; or, with the word `short`, COUNT frames of one octet, ten a line. It is always the same for the same words."""
import sys

SET = "02000681d54970d65c3597ca0420c414640af05f080452e9960413e2550168".ljust(280, "0")
PIECE = 250


def main(count):
    kept = ""
    for k in range(count):
        r = f"{1 + k % 255:02x}"
        kept += f"0102{r}03{r}00{SET}04{r}05{r}06{r}0106{r}02"
        end = len(kept) - len(kept) % PIECE
        sys.stdout.writelines(f"{kept[at:at + PIECE]}\n" for at in range(0, end, PIECE))
        kept = kept[end:]
    if kept:
        print(kept)


def short(count):
    for written in range(0, count, 10):
        print("01" * min(10, count - written))


if __name__ == "__main__":
    if len(sys.argv) == 3 and sys.argv[1] == "short":
        short(int(sys.argv[2]))
    elif len(sys.argv) == 2:
        main(int(sys.argv[1]))
    else:
        sys.exit(__doc__)
