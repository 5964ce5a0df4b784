#!/usr/bin/env python3
"""A word of the code completed by long division, with a product that shifts and reduces bit by bit.

It shares nothing with the Rattle code. The check symbols that the program `walkthrough` prints
were compared with what this prints.
"""


def product(a, b):
    total = 0
    for k in range(9):
        if b >> k & 1:
            total ^= a << k
    for k in range(17, 8, -1):
        if total >> k & 1:
            total ^= 529 << (k - 9)
    return total


def generator(count):
    """The product of x + 2^j for j below count, highest coefficient first."""
    polynomial, root = [1], 1
    for _ in range(count):
        longer = polynomial + [0]
        for k, c in enumerate(polynomial):
            longer[k + 1] ^= product(c, root)
        polynomial, root = longer, product(root, 2)
    return polynomial


def completed(message):
    divisor, rest = generator(44), list(message) + [0] * 44
    for k in range(len(message)):
        factor = rest[k]
        for i, c in enumerate(divisor):
            rest[k + i] ^= product(factor, c)
    return list(message) + rest[-44:]


def check_sums(word):
    sums = []
    for j in range(44):
        root = 1
        for _ in range(j):
            root = product(root, 2)
        total = 0
        for c in word:
            total = product(total, root) ^ c
        sums.append(total)
    return sums


def main():
    word = completed([7 * i % 512 for i in range(406)])
    assert not any(check_sums(word))
    print("the last symbols are", *word[-3:])


if __name__ == "__main__":
    main()
