#!/usr/bin/env python3
"""Writes an OPB instance whose 2^K names collide under the kit's FoldHasher with its fixed seed. With `other` it writes one
with as many names of the same length that do not collide.

    bench/collide.py K [other] > FILE

`pb tidy --normal` and `pb check`, with a proof that claims nothing, should take the same time for both:
their tables use random keys. A name is K pairs of blocks of 16 bytes. The hasher multiplies the two words of a block, each after an
exclusive or: the first with the state, the second with a constant. So a block and the one with the two factors exchanged
leave one state, and the block before them is chosen so that both are bytes of a name.
"""
import random
import sys

WORD = (1 << 64) - 1
SEED = 0x243F_6A88_85A3_08D3
CONSTANT = 0x9E37_79B9_7F4A_7C15
LETTERS = b"abcdefghijklmnopqrstuvwxyzABCDEFGHIJKLMNOPQRSTUVWXYZ"
NAME_BYTES = LETTERS + b"0123456789_[]{}^"
ALLOWED = set(NAME_BYTES)


def mixed(state, block):
    """The state after a block."""
    product = (number(block[:8]) ^ state) * (number(block[8:]) ^ CONSTANT)
    return (product & WORD) ^ (product >> 64)


def number(word):
    return int.from_bytes(word, "little")


def exchanged(state, rng):
    """Two blocks that leave the same state, where there are such: the one has the factors of the other exchanged."""
    change = (state ^ CONSTANT).to_bytes(8, "little")
    words = []
    for _ in range(2):
        choices = [[byte for byte in NAME_BYTES if byte ^ mask in ALLOWED] for mask in change]
        if not all(choices):
            return None
        words.append(bytes(rng.choice(bytes_of) for bytes_of in choices))
    first, second = words
    other_first = bytes(a ^ b for a, b in zip(second, change))
    other_second = bytes(a ^ b for a, b in zip(first, change))
    return first + second, other_first + other_second


def colliding(levels, rng):
    """For each level a block, and the two that may follow it."""
    state = (SEED + 32 * levels) & WORD
    parts = []
    while len(parts) < levels:
        block = bytes([rng.choice(LETTERS)]) + bytes(rng.choice(NAME_BYTES) for _ in range(15))
        after = mixed(state, block)
        pair = exchanged(after, rng)
        if pair is None:
            continue
        assert mixed(after, pair[0]) == mixed(after, pair[1])
        state = mixed(after, pair[0])
        parts.append((block, pair))
    return parts


def names_of(levels, other):
    rng = random.Random(2012)
    if other:
        for _ in range(1 << levels):
            yield bytes([rng.choice(LETTERS)]) + bytes(rng.choices(NAME_BYTES, k=32 * levels - 1))
        return
    parts = colliding(levels, rng)
    for choice in range(1 << levels):
        yield b"".join(block + pair[choice >> level & 1] for level, (block, pair) in enumerate(parts))


def main():
    levels = int(sys.argv[1])
    names = list(names_of(levels, "other" in sys.argv[2:]))
    assert len(set(names)) == len(names)
    out = sys.stdout.buffer
    out.write(b"* #variable= %d #constraint= %d\n" % (len(names), len(names)))
    for name in names:
        out.write(b"+1 %s >= 1 ;\n" % name)


if __name__ == "__main__":
    main()
