"""av1ts buffer: traces and segments through the transport buffer."""
from fractions import Fraction

from stream import Stream, carried, good, pes


def fills(arrivals, rate):
    """The fill in bytes behind each arrival, reckoned here."""
    fill, last, found = Fraction(0), None, []
    for time, count in arrivals:
        if last is not None:
            fill = max(Fraction(0), fill - Fraction((time - last) * rate, 8 * 27_000_000))
        fill, last = fill + count, time
        found.append(fill)
    return found


def trace(arrivals):
    return ('# time bytes\n' + ''.join(f'{time} {count}\n' for time, count in arrivals)).encode()


def run(tests):
    calm = [(1000 + 27000 * k, 188) for k in range(30)]
    hasty = calm[:10] + [(calm[9][0] + 100 * k, 188) for k in range(1, 6)]
    ran = tests.status('a trace', 0, 'buffer', trace(calm), '--rate', 2_000_000, has=[
        '30 arrivals at 2000000 bits a second', 'highest fill 188.00 bytes of 512', 'no overrun'])
    tests.holds('a bar a span', ran.stdout.count(b'  ####') == 20, ran)
    index = next(k for k, fill in enumerate(fills(hasty, 2_000_000)) if fill > 512)
    ran = tests.status('an overrun', 1, 'buffer', trace(hasty), '--rate', 2_000_000, has=f'first overrun: arrival {index}, at {hasty[index][0]} (')
    ran = tests.status('a line an arrival', 1, 'buffer', trace(hasty), '--rate', 2_000_000, '--all')
    shown = [line.split()[-1] for line in ran.stdout.decode().splitlines() if line.startswith('  arrival')]
    due = [f'{int(fill * 100) // 100}.{int(fill * 100) % 100:02}' for fill in fills(hasty, 2_000_000)]
    tests.holds('the fills, reckoned anew', shown == due, ran)
    answer = tests.json('as JSON', 'buffer', trace(hasty), '--rate', 2_000_000, '--json')
    tests.holds('its keys', list(answer) == ['file', 'rate', 'arrivals', 'refusal', 'highest', 'highest_bytes', 'overrun'])
    tests.holds('its overrun', (answer['overrun']['arrival'], answer['overrun']['time'], answer['overrun']['packet']) == (index, hasty[index][0], None))
    tests.holds('its highest fill', answer['highest'] == max(fills(hasty, 2_000_000)) * 8 * 27_000_000)
    tests.status('a time that goes back', 1, 'buffer', trace(calm[::-1]), '--rate', 1, has='refused 46: arrival out of time, at arrival 1')
    tests.status('189 bytes', 1, 'buffer', trace([(0, 189)]), '--rate', 1, has='refused 47: replay out of bounds, at arrival 0')
    tests.status('a rate of 0', 1, 'buffer', trace(calm), '--rate', 0, has='refused 47')
    tests.status('no arrivals', 0, 'buffer', b'# nothing\n', '--rate', 1, has='0 arrivals')
    tests.status('no rate', 2, 'buffer', trace(calm), error='--rate is needed')
    tests.status('a rate in words', 2, 'buffer', trace(calm), '--rate', 'fast', error='fast is no whole number')
    tests.status('a bad line', 2, 'buffer', b'1 2\n3\n', '--rate', 1, error='line 2: a time and a byte count are due')
    tests.status('no text', 2, 'buffer', b'\xFF\xFE\0', '--rate', 1, error='neither packets')
    segments(tests)


def segments(tests):
    stream = Stream().tables().clock(0)
    stream.pes(pes(carried(b'\x30' + b'\xAA' * 800))).null(4).clock(270000).pes(pes(carried(b'\x30' + b'\xAA' * 100), 93600))
    answer = tests.json('a segment', 'buffer', stream.data, '--rate', 1_000_000, '--json')
    times = [(27000 * k, 188) for k in (0, 1, 2, 3, 4, 5)] + [(270000, 188), (297000, 188)]
    tests.holds('packets stand evenly between PCRs', answer['arrivals'] == 8 and answer['highest'] == max(fills(times, 1_000_000)) * 8 * 27_000_000)
    overrun = tests.json('a slow drain', 'buffer', stream.data, '--rate', 100_000, '--json')['overrun']
    tests.holds('its packet', (overrun['arrival'], overrun['packet'], overrun['time']) == (2, 4, 54000))
    tests.status('one PCR alone', 2, 'buffer', good().data, '--rate', 1, error='fewer than two PCRs')
    tests.status('no AV1', 2, 'buffer', Stream().null(9).data, '--rate', 1, error='no AV1 stream')
