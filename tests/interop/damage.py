"""Damaged segments get the right number."""
SIZE = 188


def indices(data, pid, start=None):
    """The packets of a PID that have payload."""
    for at in range(0, len(data), SIZE):
        found = (data[at + 1] & 0x1F) << 8 | data[at + 2]
        if found == pid and data[at + 3] & 0x10 and (start is None or bool(data[at + 1] & 0x40) == start):
            yield at // SIZE


def changed(data, at, value):
    return data[:at] + bytes([value]) + data[at + 1:]


def payload_at(data, index):
    at = index * SIZE
    return at + 4 + (1 + data[at + 4] if data[at + 3] & 0x20 else 0)


def numbers(tests, name, data):
    def of(what, damaged, number, place):
        answer = tests.json(f'{name}: {what}', 'check', damaged, '--json')['refusal']
        found = (answer['number'], answer['place']) if answer else None
        tests.holds(f'{name}: {what} is {number} at {place}, found {found}', found == (number, place))
    inner = list(indices(data, 0x100, False))
    lost = next(k for k in inner if k + 1 in inner)
    of('a lost packet', data[:lost * SIZE] + data[(lost + 1) * SIZE:], 24, lost)
    start = list(indices(data, 0x100, True))[1]
    head = payload_at(data, start)
    of('a PES length', changed(data, head + 5, data[head + 5] ^ 1), 32, start)
    of('a marker bit', changed(data, head + 9, data[head + 9] ^ 1), 29, start)
    for pid, number in ((0, 25), (0x1000, 26)):
        table = next(indices(data, pid)) * SIZE
        length = (data[table + 6] & 15) << 8 | data[table + 7]
        of(f'a CRC of PID {pid}', changed(data, table + 7 + length, data[table + 7 + length] ^ 0xFF), number, table // SIZE)
    packet = data[lost * SIZE:(lost + 1) * SIZE]
    twice = data[:lost * SIZE] + packet + data[lost * SIZE:]
    accepted = tests.run('check', twice).returncode == 0
    if not accepted:
        of('a packet twice', twice, 24, lost + 1)
    of('a packet three times', data[:lost * SIZE] + packet * 2 + data[lost * SIZE:], 24, lost + (2 if accepted else 1))
