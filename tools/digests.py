#!/usr/bin/env python3
"""Prints what the program hashes prints, computed from FIPS 202 bit by bit and apart from the program.

The permutation and the sponge follow the standard's text; with the bits 01 behind the message the digests must be those
of Python's hashlib. `tools/digests.py > crates/hashes/stdout`.
"""
import hashlib

WIDTH = 64


def bits_of(data):
    return [byte >> at & 1 for byte in data for at in range(8)]


def bytes_of(bits):
    return bytes(sum(bits[at + k] << k for k in range(8)) for at in range(0, len(bits), 8))


def theta(a):
    c = [[a[x][0][z] ^ a[x][1][z] ^ a[x][2][z] ^ a[x][3][z] ^ a[x][4][z] for z in range(WIDTH)] for x in range(5)]
    d = [[c[(x - 1) % 5][z] ^ c[(x + 1) % 5][(z - 1) % WIDTH] for z in range(WIDTH)] for x in range(5)]
    return [[[a[x][y][z] ^ d[x][z] for z in range(WIDTH)] for y in range(5)] for x in range(5)]


def rho(a):
    result = [[list(a[x][y]) for y in range(5)] for x in range(5)]
    x, y = 1, 0
    for t in range(24):
        result[x][y] = [a[x][y][(z - (t + 1) * (t + 2) // 2) % WIDTH] for z in range(WIDTH)]
        x, y = y, (2 * x + 3 * y) % 5
    return result


def pi(a):
    return [[list(a[(x + 3 * y) % 5][x]) for y in range(5)] for x in range(5)]


def chi(a):
    return [
        [[a[x][y][z] ^ ((a[(x + 1) % 5][y][z] ^ 1) & a[(x + 2) % 5][y][z]) for z in range(WIDTH)] for y in range(5)]
        for x in range(5)
    ]


def constant_bit(t):
    if t % 255 == 0:
        return 1
    register = [1, 0, 0, 0, 0, 0, 0, 0]
    for _ in range(t % 255):
        register = [0] + register
        for at in (0, 4, 5, 6):
            register[at] ^= register[8]
        register = register[:8]
    return register[0]


def iota(a, index):
    constant = [0] * WIDTH
    for j in range(7):
        constant[2**j - 1] = constant_bit(j + 7 * index)
    result = [[list(lane) for lane in sheet] for sheet in a]
    result[0][0] = [bit ^ other for bit, other in zip(a[0][0], constant)]
    return result


def keccak_f(string):
    a = [[string[WIDTH * (5 * y + x) : WIDTH * (5 * y + x) + WIDTH] for y in range(5)] for x in range(5)]
    for index in range(24):
        a = iota(chi(pi(rho(theta(a)))), index)
    return [bit for y in range(5) for x in range(5) for bit in a[x][y]]


def sponge(bits, capacity, length):
    rate = 1600 - capacity
    padded = bits + [1] + [0] * ((-len(bits) - 2) % rate) + [1]
    state = [0] * 1600
    for at in range(0, len(padded), rate):
        block = padded[at : at + rate] + [0] * capacity
        state = keccak_f([bit ^ other for bit, other in zip(state, block)])
    assert length <= rate
    return bytes_of(state[:length])


def sha3_256(data):
    digest = sponge(bits_of(data) + [0, 1], 512, 256)
    assert digest == hashlib.sha3_256(data).digest()
    return digest


def keccak_256(data):
    return sponge(bits_of(data), 512, 256)


message = bytes(i % 251 for i in range(500))
rows = [("abc", b"abc")] + [(str(n), message[:n]) for n in (0, 135, 136, 137, 200, 500)]
for name, data in rows:
    print("sha3_256", name, sha3_256(data).hex())
    print("keccak_256", name, keccak_256(data).hex())
