"""Commands and answers of the requests. Those that the library may not have yet are tried where the tool has them."""
from stream import AV1_ENTRY, DELIMITER, DRAFT, FRAME, NEXT, REGISTRATION, SEQUENCE, SIZE, UNIT, VIDEO, Stream, carried, entry, good, pes, pmt


def run(tests):
    commands = tests.run('--help').stdout.decode()
    salvage(tests)
    mux(tests)
    mux_times(tests)
    editions(tests)
    if '\n  sheet ' in commands:
        sheet(tests)
    other = pmt(entry(6, 0x100, REGISTRATION + bytes.fromhex('8004 8104 0CC0')))
    data = Stream().tables(None, other).clock(0).pes(pes(UNIT)).data
    found = tests.json('a descriptor of another channel', 'check', data, '--json')
    if found.get('comparison'):
        comparison(tests, data, found['comparison'])
    twice = good().data
    if tests.run('check', twice[:4 * SIZE] + twice[3 * SIZE:]).returncode == 0:
        repeated(tests, twice)


def salvage(tests):
    damaged = b'\xAA\xBB' + carried(DELIMITER, b'\x30\0\0\0\2', b'\xB2\x01', FRAME + b'') + b''
    target = tests.work / 'salvaged'
    tests.status('salvage', 0, 'salvage', damaged, '-o', target, has=[
        '2 of 4 OBUs kept, 2 bytes before the first start code dropped; reading accepts what is left', '0 kept\n',
        '1 dropped, 10: illegal payload bytes', '2 dropped, 4: '])
    tests.holds('what is left', target.read_bytes() == carried(DELIMITER, FRAME))
    tests.status('salvage a closing 03', 0, 'salvage', '--hex', '000001 30AA000003', has=['0 kept, a closing 03 removed', '00 00 01 30 AA 00 00\n'])
    tests.status('nothing to salvage', 1, 'salvage', '--hex', 'AABB', has='0 of 0 OBUs kept')
    tests.status('too many OBUs', 1, 'salvage', carried(*[FRAME] * 65), '-o', '-', error='refused 1')
    tests.status('not overwritten', 2, 'salvage', damaged, '-o', target, error='--force')


def mux(tests):
    target = tests.work / 'muxed.ts'
    film = tests.file(DELIMITER + SEQUENCE + FRAME + 9 * (DELIMITER + FRAME), 'film.obu')
    tests.status('mux', 0, 'mux', film, '-o', target, '--descriptor', VIDEO.hex(), '--fps', '50', error='10 units')
    answer = tests.json('what mux wrote', 'check', target, '--json', '--units')
    tests.holds('it is accepted', (answer['verdict'], answer['unit_count'], answer['pid']) == ('accepted', 10, 256))
    tests.holds('its times', [unit['pts'] for unit in answer['units']] == [90000 + 1800 * k for k in range(10)])
    back = tests.run('units', target, '--obu', '-').stdout
    tests.holds('and comes back', back == (tests.work / 'film.obu').read_bytes())
    unit = tests.file(UNIT, 'one.unit')
    tests.status('mux of a carried unit', 0, 'mux', unit, '-o', target, '--force', '--descriptor', VIDEO.hex(),
                 '--pid', '0x111', '--program', '7', '--map-pid', '0x20')
    answer = tests.json('what that wrote', 'check', target, '--json')
    tests.holds('its PID and program', (answer['pid'], answer['program'], answer['unit_count']) == (0x111, 7, 1))
    tests.status('a wrong descriptor', 1, 'mux', unit, '-o', '-', '--descriptor', '8004', error='refused 52')
    tests.status('a broken unit', 1, 'mux', carried(DELIMITER), '-o', '-', '--descriptor', VIDEO.hex(), error='refused 51')
    tests.status('an OBU that is cut short', 2, 'mux', (DELIMITER + SEQUENCE)[:-1], '-o', '-', '--descriptor', VIDEO.hex(), error='goes past the end')
    tests.status('no descriptor', 2, 'mux', unit, '-o', '-', error='--descriptor is needed')
    tests.status('no frame rate', 2, 'mux', unit, '-o', '-', '--descriptor', VIDEO.hex(), '--fps', '0', error='no frame rate')


def ivf(frames, rate, scale):
    """An IVF file of frames with their times."""
    def word(number, size):
        return number.to_bytes(size, 'little')
    head = b'DKIF' + word(0, 2) + word(32, 2) + b'AV01' + word(176, 2) + word(144, 2) + word(rate, 4) + word(scale, 4) + word(len(frames), 8)
    return head + b''.join(word(len(frame), 4) + word(time, 8) + frame for time, frame in frames)


def mux_times(tests):
    target = tests.work / 'timed.ts'
    to = ['-o', target, '--force', '--descriptor', VIDEO.hex()]

    def times(name, *args):
        tests.status(name, 0, 'mux', *args, *to)
        answer = tests.json(f'{name}: what it wrote', 'check', target, '--json', '--units')
        tests.holds(f'{name}: it is accepted', answer['verdict'] == 'accepted')
        return [(unit['pts'], unit['dts']) for unit in answer['units']]

    first = tests.file(UNIT, 'first.unit')
    others = [tests.file(NEXT, f'{index}.unit') for index in range(9)]
    tests.holds('carried units by the frame rate', times('mux of ten units', first, *others, '--fps', '30000/1001')
                == [(90000 + 3003 * k, 90000 + 3003 * k) for k in range(10)])
    tests.holds('as they were', tests.run('units', target, '--obu', '-').stdout == DELIMITER + SEQUENCE + FRAME + 9 * (DELIMITER + FRAME))
    film = [(0, DELIMITER + SEQUENCE + FRAME), (1, DELIMITER + FRAME), (3, DELIMITER + FRAME)]
    tests.holds('the times of an IVF file', times('mux of an IVF file', tests.file(ivf(film, 25, 1), 'film.ivf'), '--fps', '50', '--pts', '0')
                == [(0, 0), (3600, 3600), (10800, 10800)])
    hidden = bytes.fromhex('3204 0000 AABB')
    shown = times('mux of a hidden frame', tests.file(ivf([(0, DELIMITER + SEQUENCE + hidden + FRAME)], 25, 1), 'hidden.ivf'))
    tests.holds('a hidden frame has its DTS as PTS, before the shown one', shown == [(88200, 88200), (90000, 90000)])
    cut = ivf(film, 25, 1)
    tests.status('an IVF frame that is cut short', 2, 'mux', cut[:-1], *to, error='an IVF frame is cut short')
    tests.status('an IVF header that is cut short', 2, 'mux', cut[:23], *to, error='no time base')
    tests.status('a PID that is none', 1, 'mux', first, *to, '--pid', '0x1FFF', error='refused 52')
    tests.status('a PTS past 33 bits', 1, 'mux', first, *to, '--pts', str(1 << 33), error='refused 51')


def sheet(tests):
    data = tests.file(good().data, 'sheeted.ts')
    target, unit = tests.work / 'sheet', tests.work / 'sought'
    tests.status('sheet', 0, 'sheet', data, '-o', target)
    tests.holds('its length', len(target.read_bytes()) == 8 * (3 + 2 * 1 + 4 * 3 + 4 * 7))
    tests.status('shown', 0, 'sheet', '--show', target, has=[
        'stream PID 256 (0x0100) stream_type 0x06', 'unit 1  first packet 5  bytes', 'type 1 (sequence header)  payload at 8'])
    tests.status('seek', 0, 'seek', target, '1', data, '-o', unit, error='PTS 93600 (1.040000 s)')
    tests.holds('the unit', unit.read_bytes() == NEXT)
    tests.status('seek behind the end', 1, 'seek', target, '3', data, '-o', '-', error='there is no unit 3')
    tests.status('a wrong sheet', 1, 'sheet', '--show', data, error='refused 45')
    tests.status('a sheet of another segment', 1, 'seek', target, '2', good(2).null(4).data, '-o', '-', error='is not the sheet')
    tests.status('no sheet of a refused segment', 1, 'sheet', good().data[SIZE:], '-o', '-', error='refused')


def editions(tests):
    data = Stream().tables(None, pmt(entry(6, 0x100, DRAFT))).clock(0).pes(pes(UNIT)).pes(pes(NEXT, flags=0)).data
    tests.status('a draft', 0, 'check', data, '--edition', 'draft', '--units', has=['accepted (draft)', 'PTS none  DTS none'])
    hints = tests.json('as current', 'check', data, '--json')['refusal']['hints']
    tests.holds('the hint names the edition', any('accepted by --edition draft' in hint for hint in hints))
    answer = tests.json('a draft as JSON', 'check', data, '--edition', 'draft', '--units', '--json')
    tests.holds('a unit without times', answer['edition'] == 'draft' and answer['units'][1]['pts'] is None)
    tests.status('a current one as draft', 1, 'check', good().data, '--edition', 'draft', has='refused 28')
    untimed = Stream().tables().clock(0).pes(pes(UNIT, flags=0)).data
    tests.status('no times as current', 1, 'check', untimed, has='refused 30')


def comparison(tests, data, found):
    tests.holds('a field that differs', found == {'unit': 0, 'number': None, 'field': 'seq_level_idx_0', 'descriptor': 4, 'stream': 0})
    tests.status('in words', 0, 'check', data, has='descriptor: seq_level_idx_0 is 4, the stream has 0 in unit 0')
    cut = Stream().tables().clock(0).pes(pes(carried(SEQUENCE[:1] + b'\1\0', FRAME))).data
    tests.status('a header that is cut short', 0, 'check', cut, has='the sequence header of unit 0 is cut short (43)')
    tests.holds('as JSON', tests.json('cut short', 'check', cut, '--json')['comparison']['number'] == 43)
    tests.holds('nothing where all agree', tests.json('agrees', 'check', good().data, '--json')['comparison'] is None and AV1_ENTRY)


def repeated(tests, data):
    again = data[:4 * SIZE] + data[3 * SIZE:]
    answer = tests.json('a packet sent twice', 'check', again, '--json', '--units')
    tests.holds('it starts no unit', (answer['unit_count'], [unit['first_packet'] for unit in answer['units']]) == (3, [3, 6, 8]))
    thrice = data[:4 * SIZE] + data[3 * SIZE:4 * SIZE] + data[3 * SIZE:]
    tests.status('sent three times', 1, 'check', thrice, has=['refused 24', 'the last packet sent again, copy 3', 'may be sent twice'])
