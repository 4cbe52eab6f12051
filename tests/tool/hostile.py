"""Damaged and random input: the tool ends with 0, 1 or 2, and without a crash."""
import random

from stream import SIZE, UNIT, good


def damaged(chance, data):
    """Some bytes changed, dropped or doubled."""
    data = bytearray(data)
    for _ in range(chance.randrange(1, 6)):
        at = chance.randrange(len(data))
        kind = chance.randrange(4)
        if kind == 0:
            data[at] = chance.choice([0, 1, 3, 0x47, 0xFF, chance.randrange(256)])
        elif kind == 1:
            data[at] ^= 1 << chance.randrange(8)
        elif kind == 2:
            del data[at:at + chance.choice([1, 4, SIZE])]
        else:
            data[at:at] = data[at:at + chance.choice([1, 4, SIZE])]
        if not data:
            data = bytearray(b'\x47')
    return bytes(data)


def run(tests):
    chance = random.Random(2026)
    whole = good(5).data

    def ends(name, *args):
        ran = tests.run(*args)
        tests.holds(name, ran.returncode in (0, 1, 2) and b'panicked' not in ran.stderr, ran)
    for index in range(60):
        data = damaged(chance, whole)
        ends(f'damaged segment {index}', 'check', data, '--units', '--json')
        ends(f'damaged segment {index}, trimmed', 'check', data, '--trim')
        ends(f'damaged segment {index}, as a page', 'check', data, '--html', '-', '--rate', chance.choice(['1', '100000', '2000000']))
        ends(f'damaged segment {index}, a packet', 'packet', data, chance.randrange(12))
        ends(f'damaged segment {index}, the buffer', 'buffer', data, '--rate', '1000')
        ends(f'damaged unit {index}', 'list', damaged(chance, UNIT), '--headers')
    for index in range(30):
        noise = bytes(chance.choice([0, 0, 1, 3, 0x47, chance.randrange(256)]) for _ in range(SIZE * chance.randrange(1, 6)))
        packets = b''.join(b'\x47' + noise[at + 1:at + SIZE] for at in range(0, len(noise), SIZE))
        ends(f'noise {index}', 'check', noise, '--trim')
        ends(f'packets of noise {index}', 'check', packets)
        ends(f'a unit of noise {index}', 'list', b'\0\0\1' + noise, '--json')
