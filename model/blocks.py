#!/usr/bin/env python3
"""Blocks by the rules of docs/FORMATS.md, one bit at a time and by plain lists.

It shares nothing with the Rattle code. The stored output of the program `walkthrough`
was compared with what this prints.
"""

CODES = {256: "000", 257: "001", 258: "010", 261: "101"}


def weight_first(number, count):
    return [number >> k & 1 for k in range(count)]


def block_of(characters):
    controls = [k for k, c in enumerate(characters) if c > 255]
    if not controls:
        return [0] + list(characters)
    bits = []
    start = 0
    for place, position in enumerate(controls):
        more = place + 1 < len(controls)
        bits += weight_first(position + 16 * more, 5)
        for c in characters[start:position]:
            bits += weight_first(c, 8)
        bits += [int(b) for b in CODES[characters[position]]]
        start = position + 1
    for c in characters[start:]:
        bits += weight_first(c, 8)
    assert len(bits) == 80
    return [1] + [sum(b << k for k, b in enumerate(bits[n:n + 8])) for n in range(0, 80, 8)]


def read(block):
    """The ten characters, or the number and octet of the first invalid field."""
    header, bits = block[0], [b for octet in block[1:] for b in weight_first(octet, 8)]
    if header > 1:
        return (8, 0)
    if header == 0:
        return list(block[1:])
    at, characters = 0, []

    def take(count):
        nonlocal at
        at += count
        return bits[at - count:at]

    def octet():
        return sum(b << k for k, b in enumerate(take(8)))

    while True:
        n = len(characters)
        pointer = sum(b << k for k, b in enumerate(take(5)))
        position, more = pointer % 16, pointer > 15
        if not n <= position <= 9 or (position == 9 and more):
            return (8, n)
        characters += [octet() for _ in range(position - n)]
        code = "".join(map(str, take(3)))
        found = [c for c, name in CODES.items() if name == code]
        if not found:
            return (9, position)
        characters += found
        if not more:
            return characters + [octet() for _ in range(9 - position)]


def main():
    assert block_of([258] * 10) == [1, *range(80, 89), 73]
    assert block_of([*range(1, 10), 257]) == [1, 41, 64, 96, 128, 160, 192, 224, 0, 33, 129]
    tail = [0xde, 0xad, 0xbe, 0xef, 0x10, 0x20, 0x30, 0x40, 0x50, 257]
    block = block_of(tail)
    print("characters", *tail)
    print("header", block[0], "payload", *block[1:])
    print("characters", *read(block))
    for start in ([2], [1, 10], [1, 25], [1, 16], [1, 192]):
        block = start + [0] * (11 - len(start))
        print("header", block[0], "payload", *block[1:], "refused", *read(block))


if __name__ == "__main__":
    main()
