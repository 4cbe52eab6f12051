"""The commands on one OBU, unit, descriptor, content, packet or number."""
from stream import SIZE, UNIT, good


def run(tests):
    payloads(tests)
    listing(tests)
    descriptor(tests)
    mastering(tests)
    packet(tests)
    explain(tests)


def payloads(tests):
    tests.status('escape', 0, 'escape', '--hex', '32', '04', '00', '00', '01', '80', has='32 04 00 00 03 01 80\n')
    tests.status('escape in one word', 0, 'escape', '--hex', '0000000000', has='00 00 03 00 00 03 00\n')
    tests.status('unescape', 0, 'unescape', '--hex', '00 00 03', has='00 00\n', error='dropped 1')
    tests.status('unescape refuses', 1, 'unescape', '--hex', '41000000', error='refused 10: illegal payload bytes, at byte 1')
    ran = tests.status('from a file to standard output', 0, 'escape', b'\0\0\1')
    tests.holds('the bytes', ran.stdout == b'\0\0\3\1', ran)
    target = tests.work / 'payload'
    tests.status('to a file', 0, 'escape', '-', '-o', target, given=b'\0\0\0')
    tests.holds('the bytes of the file', target.read_bytes() == b'\0\0\3\0')
    tests.status('not twice', 2, 'escape', '-', '-o', target, given=b'\0', error='--force overwrites it')
    tests.status('too long an OBU', 1, 'escape', bytes(1048577), error='refused 2')
    tests.status('no digits', 2, 'escape', '--hex', 'zz', error='z is no hexadecimal digit')
    tests.status('half a byte', 2, 'escape', '--hex', '123', error='two hexadecimal digits')
    tests.status('two files', 2, 'escape', 'a', 'b', error='one file is needed')
    tests.status('no such file', 2, 'escape', tests.work / 'nothing', error='No such file')


def listing(tests):
    tests.status('list', 0, 'list', '--hex', '00000112000000013 0AA0000'.replace(' ', ''), has=[
        'obus 2 removed 0\n', '0 type 2 size 2 removed 0 width 1  temporal delimiter\n', '1 type 6 size 4 removed 0 width 0  frame\n'])
    tests.status('list a file with headers', 0, 'list', UNIT, '--headers', has=['max_frame_width           176', 'seq_profile               0', 'removed 1'])
    tests.status('list a shown-again frame', 0, 'list', '--hex', '0000011880', has='frame header, shows a frame again')
    tests.status('list refuses', 1, 'list', '--hex', '000001 1200 000001 3202AA', has=[
        'refused 5: OBU size wrong, at OBU 1', 'its size says 2, 1 byte remain'])
    tests.status('list without start code', 1, 'list', '-', given=b'', has='refused 9: no start code at the head\n')
    answer = tests.json('list as JSON', 'list', '--json', UNIT)
    keys = ['unit', 'bytes', 'verdict', 'refusal', 'obu_bytes', 'dropped', 'obus']
    tests.holds('its keys', list(answer) == keys and answer['dropped'] == 1 and answer['bytes'] == len(UNIT))
    obu = answer['obus'][1]
    tests.holds('an OBU', (obu['type'], obu['bytes'], obu['removed'], obu['width'], obu['payload_at'], obu['payload_bytes']) == (1, 13, 1, 1, 8, 14))
    answer = tests.json('a refused unit as JSON', 'list', '--json', '--hex', '000001 1200')
    tests.holds('its refusal', (answer['verdict'], answer['refusal']['number'], answer['refusal']['place'], answer['dropped']) == ('refused', 7, 1, None))


def descriptor(tests):
    tests.status('descriptor', 0, 'descriptor', '80 04 81 08 0C C0', has=[
        'seq_level_idx_0                       8', 'hdr_wcg_idc                           3', 'initial_presentation_delay_minus_one  none'])
    tests.status('with a delay', 0, 'descriptor', '8004', '81080CDF', has='initial_presentation_delay_minus_one  15')
    tests.status('written', 0, 'descriptor', 'seq_level_idx_0=8', 'chroma_subsampling_x=1', 'chroma_subsampling_y=1', 'hdr_wcg_idc=3',
                 has='80 04 81 08 0C C0\n')
    tests.status('rewritten', 0, 'descriptor', '--rewrite', '800481080CDF', has='80 04 81 08 0C C0\n', error='dropped its presentation delay')
    ran = tests.status('rewritten without a delay', 0, 'descriptor', '--rewrite', '800481080CC0', has='80 04 81 08 0C C0\n')
    tests.holds('nothing is said then', ran.stderr == b'', ran)
    tests.status('not refused only here', 1, 'descriptor', '800482080CC0', error='refused 40')
    tests.status('refused rewrite', 1, 'descriptor', '--rewrite', '8004', error='refused 40')
    tests.status('a field too large', 1, 'descriptor', 'seq_profile=8', error='refused 41')
    tests.status('no such field', 2, 'descriptor', 'profile=1', error='no field profile')
    tests.status('a field twice', 2, 'descriptor', 'seq_profile=1', 'seq_profile=1', error='twice')
    tests.status('no number', 2, 'descriptor', 'seq_profile=-1', error='0 to 255')
    answer = tests.json('descriptor as JSON', 'descriptor', '--json', '800481080CC0')
    found = (answer['bytes'], answer['seq_level_idx_0'], answer['initial_presentation_delay_minus_one'], len(answer))
    tests.holds('its fields', found == ('80 04 81 08 0C C0', 8, None, 12))


def mastering(tests):
    values = ['34000', '16000', '13250', '34500', '7500', '3000', '15635', '16450', '10000000', '50']
    ran = tests.status('mastering written', 0, 'mastering', *values)
    digits = ran.stdout.decode().strip()
    tests.holds('26 bytes', len(bytes.fromhex(digits)) == 26, ran)
    tests.status('and read', 0, 'mastering', digits, has=[
        'luminance_max               1000\n', 'primary_chromaticity_x[0]   0.67999267578125\n', 'luminance_min               0.0050048828125\n'])
    answer = tests.json('as JSON', 'mastering', '--json', digits)
    tests.holds('ten figures', len(answer) == 10 and answer['luminance_max'] == 1000 and answer['primary_chromaticity_x[0]'] * 65536 == round(0.68 * 65536))
    tests.status('refused content', 1, 'mastering', digits + ' 80', error='refused 48')
    tests.status('refused value', 1, 'mastering', '50001', *values[1:], error='refused 49')
    tests.status('no whole number', 2, 'mastering', '0.68', *values[1:], error='0.68 is no whole number')


def packet(tests):
    data = good().data
    tests.status('a PAT', 0, 'packet', data, '0', has=[
        'packet 0, byte 0\n', 'PID                           0 (0x0000)', 'program 1                     map PID 4096', '47 40 00 10'])
    tests.status('a PMT', 0, 'packet', data, '1', has=['PCR_PID', "'AV01'"])
    tests.status('a PCR', 0, 'packet', data, '2', has=[
        'PCR                           45000 * 300 + 0 = 13500000 (0.500000 s)', 'payload                       none'])
    tests.status('a PES', 0, 'packet', data, '3', has=['stream_id', 'PTS                           90000 (1.000000 s)'])
    tests.status('from standard input', 0, 'packet', '-', '4', given=data, has='PID                           8191')
    answer = tests.json('a packet as JSON', 'packet', data, '3', '--json')
    tests.holds('its keys', list(answer) == ['packet', 'byte', 'fields', 'bytes'] and answer['byte'] == 3 * SIZE and len(answer['bytes']) == 3 * SIZE - 1)
    tests.status('no such packet', 2, 'packet', data, '100', error='no whole packet 100')
    tests.status('half a packet', 2, 'packet', data[:-1], str(len(data) // SIZE - 1), error='no whole packet')
    tests.status('no number', 2, 'packet', data, 'x', error='x is no packet')
    tests.status('one argument', 2, 'packet', data, error='2 arguments are needed')
    tests.status('a number that is none of a packet', 2, 'packet', data, 1 << 48, error=f'{1 << 48} is no packet')


def explain(tests):
    for number in [*range(1, 11), *range(20, 35), *range(40, 54)]:
        tests.status(f'explain {number}', 0, 'explain', number, has=[f'{number}: ', '  rule: ', '  place: ', '  do: '])
    ran = tests.status('explain all', 0, 'explain', has=' 24  continuity counter wrong\n')
    tests.holds('one line a number', ran.stdout.count(b'\n') == 39, ran)
    for word in ['11', '0', 'x', '99999999999999999999']:
        tests.status(f'explain {word}', 2, 'explain', word, error='no refusal')
