"""Segments of units by this program; the library's queue and send write others, by av1ts mux."""
from obus import carried
from stream import REGISTRATION, Stream, entry, pes, pmt


def descriptor(tests, unit):
    """The video descriptor of a unit's sequence header, by the tool's own reading of it."""
    obus = tests.json('a first unit', 'list', '--json', tests.file(unit, 'first.unit'))['obus']
    fields = next(obu['headers'] for obu in obus if obu['type'] == 1)
    words = [f'{field["what"]}={field["value"]}' for field in fields[:9]]
    return tests.run('descriptor', *words, 'hdr_wcg_idc=3').stdout.decode().strip()


def mux(film, video):
    """All units, with tables and a clock before each eighth."""
    stream = Stream()
    tables = pmt(entry(6, 0x100, REGISTRATION + bytes.fromhex(video)))
    for index, (unit, pts, dts) in enumerate(film):
        if index % 8 == 0:
            stream.tables(None, tables).clock((dts - 45000) * 300)
        stream.pes(pes(carried(unit), pts, None if dts == pts else dts))
    return stream.data
