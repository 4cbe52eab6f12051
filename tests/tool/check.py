"""av1ts check of accepted segments, and what of a file is checked."""
from stream import FRAME, NEXT, SIZE, UNIT, Stream, carried, good, pes

KEYS = ['file', 'bytes', 'packets', 'first_packet', 'left_out', 'edition', 'verdict', 'refusal', 'program', 'pid', 'totals', 'unit_count', 'unit_bytes',
        'comparison', 'units']
UNIT_KEYS = ['index', 'bytes', 'pts', 'pts_seconds', 'dts', 'dts_seconds', 'dropped', 'first_packet', 'obus']


def run(tests):
    accepted(tests)
    packets(tests)
    trim(tests)


def accepted(tests):
    data = good().data
    tests.status('an accepted segment', 0, 'check', data, has=[
        'input.ts: accepted\n', 'program 1, AV1 PID 256 (0x0100)', '9 packets: 3 null, 2 section, 4 AV1, 0 other listed, 0 unlisted',
        f'3 units, {len(UNIT) + 2 * len(NEXT)} bytes', 'PTS 90000 (1.000000 s) to 97200 (1.080000 s)', 'DTS 90000'])
    tests.status('its units', 0, 'check', data, '--units', has=[
        f'unit 0  bytes {len(UNIT)}  PTS 90000 (1.000000 s)  DTS 90000 (1.000000 s)  OBU types 2 1 6  dropped 1  first packet 3',
        'unit 1 ', 'OBU types 2 6  dropped 0  first packet 5', 'unit 2 '])
    tests.status('from standard input', 0, 'check', '-', given=data, has='-: accepted')
    answer = tests.json('as JSON', 'check', data, '--json')
    tests.holds('the keys of the JSON', list(answer) == KEYS)
    tests.holds('its figures', (answer['verdict'], answer['program'], answer['pid'], answer['unit_count'], answer['packets']) == ('accepted', 1, 256, 3, 9))
    tests.holds('its totals', answer['totals'] == {'null': 3, 'section': 2, 'av1': 4, 'other_listed': 0, 'unlisted': 0})
    tests.holds('no units unless they are asked for', answer['units'] is None and answer['refusal'] is None)
    units = tests.json('units as JSON', 'check', data, '--json', '--units')['units']
    tests.holds('the keys of a unit', list(units[0]) == UNIT_KEYS)
    tests.holds('a unit', (units[1]['pts'], units[1]['pts_seconds'], units[1]['first_packet'], units[1]['bytes']) == (93600, 1.04, 5, len(NEXT)))
    tests.holds('its OBUs', units[0]['obus'][1] == {'type': 1, 'name': 'sequence header', 'bytes': 13})
    both = tests.run('check', tests.file(data, 'a.ts'), tests.file(data[:SIZE * 3] + data[SIZE * 4:], 'b.ts'), '--json')
    tests.holds('two files are two objects, refused where one is', both.stdout.count(b'\n') == 2 and both.returncode == 1, both)
    empty = Stream().tables().data
    tests.status('no unit at all', 0, 'check', empty, has='0 units, 0 bytes')
    dts = Stream().tables().clock(0).pes(pes(carried(FRAME), 93600, 90000)).data
    tests.status('a DTS of its own', 0, 'check', dts, '--units', has='PTS 93600 (1.040000 s)  DTS 90000 (1.000000 s)')
    tests.status('an edition by its name', 0, 'check', data, '--edition', 'current', has='accepted')
    tests.status('the other edition by its name', 1, 'check', data, '--edition', 'draft', has='refused 28 (draft): ')


def packets(tests):
    data = good().data
    answer = tests.json('a range', 'check', data, '--packets', '2..', '--json')
    tests.holds('a range begins where it says', (answer['first_packet'], answer['packets'], answer['refusal']['number']) == (2, 7, 33))
    tests.holds('a range says what it left out', len(answer['left_out']) == 1)
    lost = data[:SIZE * 5] + data[SIZE * 6:]
    answer = tests.json('a place in the file', 'check', Stream().null(4).data + lost, '--packets', '4..', '--json')['refusal']
    tests.holds('packet and byte are those of the file', (answer['number'], answer['place'], answer['packet'], answer['byte']) == (24, 6, 10, 10 * SIZE))
    tests.status('a range that ends', 0, 'check', data, '--packets', '0..3', has='3 packets:')
    tests.status('a range of standard input', 0, 'check', '-', '--packets', '0..0x3', given=data, has='3 packets:')
    for text in ['3', '5..5', '7..2', 'a..b', '-1..4', '..0']:
        tests.status(f'no range: {text}', 2, 'check', data, '--packets', text)
    tests.status('a range behind the end', 2, 'check', data, '--packets', '100..200', error='there is no packet 100')
    long = Stream().tables().clock(0).pes(pes(UNIT)).null(65540).data
    answer = tests.json('a long file', 'check', long, '--json')['refusal']
    tests.holds('over 65,535 packets', answer['number'] == 20 and '--packets 0..65535' in answer['hints'][0])
    tests.status('its front', 0, 'check', long, '--packets', '..65535', has='accepted')


def trim(tests):
    stream = good(4)
    big = carried(b'\x30' + bytes([0xAA]) * 700)
    stream.pes(pes(big, 104400)).tables().clock(14000000).pes(pes(big, 108000)).pes(pes(NEXT, 111600)).null(2).pes(pes(big, 115200))
    data = stream.data
    tests.status('the whole', 0, 'check', data, has='8 units')
    cut = data[SIZE * 12 + 50:-2 * SIZE - 10]
    tests.status('a cut from the middle', 1, 'check', cut, has='refused 20')
    ran = tests.status('trimmed', 0, 'check', cut, '--trim', has=[
        'accepted', 'left out: 138 bytes before the first whole packet', 'behind the last whole packet', 'before the first PAT',
        'from the last PES on, which is not whole', '2 units'])
    tests.holds('the first packet is the PAT in the file', b'accepted' in ran.stdout, ran)
    tests.status('nothing to trim', 0, 'check', data, '--trim', has='8 units')
    inside = Stream()
    inside.counters[0x100] = 3
    inside.tables().packet(0x100, b'\xAA' * 184).packet(0x100, b'\xAA' * 100, pcr=900).clock(13500000).pes(pes(UNIT)).pes(pes(NEXT, 93600))
    tests.status('a PES from before the cut', 1, 'check', inside.data, has='refused 29')
    tests.status('it is left out', 0, 'check', inside.data, '--trim', has=['2 packets of a PES that began before the cut', '2 units'])
    open_end = Stream().tables().clock(0).pes(pes(UNIT, length=0)).pes(pes(NEXT, 93600, length=0))
    tests.status('a last PES without a length', 0, 'check', open_end.data, '--trim', has=['of which no length says', '1 units'])
    tests.status('no PAT to begin with', 1, 'check', Stream().null(9).data, '--trim', has='refused 33')
