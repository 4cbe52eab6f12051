"""av1ts units: carried units, and units as decoders take them."""
from stream import DELIMITER, FRAME, NEXT, SEQUENCE, UNIT, Stream, carried, good, pes


def leb128_sized(obu):
    return bytes([obu[0] | 2, len(obu) - 1]) + obu[1:]


def run(tests):
    data = good(3).data
    folder = tests.work / 'units'
    tests.status('carried units', 0, 'units', data, '-o', folder)
    files = sorted(path.name for path in folder.iterdir())
    tests.holds('a file a unit', files == ['0000.unit', '0001.unit', '0002.unit'])
    tests.holds('the first is as carried', (folder / '0000.unit').read_bytes() == UNIT)
    tests.holds('so are the others', (folder / '0002.unit').read_bytes() == NEXT)
    tests.status('they are not overwritten', 2, 'units', data, '-o', folder, error='--force overwrites it')
    tests.status('but with --force', 0, 'units', data, '-o', folder, '--force')

    target = tests.work / 'all.obu'
    tests.status('OBUs', 0, 'units', data, '--obu', target)
    stream = DELIMITER + SEQUENCE + FRAME + 2 * (DELIMITER + FRAME)
    tests.holds('unescaped, with sizes', target.read_bytes() == stream)
    ran = tests.status('to standard output', 0, 'units', data, '--obu', '-')
    tests.holds('the same bytes', ran.stdout == stream, ran)

    plain = bytes.fromhex('30 10 AA')
    hidden = bytes.fromhex('30 00 AA')
    bare = Stream().tables().clock(0).pes(pes(carried(SEQUENCE.replace(b'\0\0\0', b'\0\0\3\0'), hidden), 90000)).pes(pes(carried(plain), 90000))
    bare.pes(pes(carried(plain), 93600))
    tests.status('without delimiters', 0, 'units', bare.data, '--obu', target, '--force')
    sized = DELIMITER + SEQUENCE + leb128_sized(hidden) + leb128_sized(plain) + DELIMITER + leb128_sized(plain)
    tests.holds('they are put in, and sizes too', target.read_bytes() == sized)

    film = tests.work / 'all.ivf'
    tests.status('IVF', 0, 'units', data, '--ivf', film)
    head = b'DKIF\0\0\x20\0AV01' + (176).to_bytes(2, 'little') + (144).to_bytes(2, 'little') + (90000).to_bytes(4, 'little')
    bytes_of = film.read_bytes()
    tests.holds('the header of the IVF file', bytes_of.startswith(head) and bytes_of[24:28] == (3).to_bytes(4, 'little'))
    first = len(DELIMITER + SEQUENCE + FRAME)
    tests.holds('its first frame', bytes_of[32:44] == first.to_bytes(4, 'little') + (90000).to_bytes(8, 'little'))

    ran = tests.status('a refused segment has none', 1, 'units', data[:-188 * 2 - 50], '--obu', '-', error='refused 20')
    tests.holds('and nothing on standard output', ran.stdout == b'', ran)
    tests.status('no form', 2, 'units', data, error='one of -o, --obu and --ivf')
    tests.status('two forms', 2, 'units', data, '--obu', 'a', '--ivf', 'b', error='one of -o, --obu and --ivf')
    tests.status('a folder that cannot be', 2, 'units', data, '-o', '/dev/null/x')
    tests.status('a cut, trimmed', 0, 'units', b'\0' * 30 + data, '--trim', '--obu', '-', error='left out: 30 bytes')
