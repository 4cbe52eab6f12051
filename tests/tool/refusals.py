"""Each refusal of a segment: its number and place, and what the tool found there."""
from stream import AV1_ENTRY, DELIMITER, FRAME, NEXT, REGISTRATION, SIZE, UNIT, VIDEO, Stream, carried, entry, good, pat, pes, pmt


def refused(tests, name, data, number, place, *found):
    """The refusal and, each somewhere in what was found, some words."""
    answer = tests.json(name, 'check', data, '--json').get('refusal') or {}
    given = (answer.get('number'), answer.get('place'))
    tests.holds(f'{name}: {number} at {place}, found {given}', given == (number, place))
    lines = '\n'.join(f'{line["what"]}: {line["value"]} <-- {line["wrong"]}' for line in answer.get('found', []))
    for words in found:
        tests.holds(f'{name}: {words!r} in {lines!r}', words in lines)
    ran = tests.status(name, 1, 'check', data, has=[f'refused {number}: ', '  rule: '])
    tests.holds(f'{name}: the verdict is the first line', f'refused {number}: '.encode() in ran.stdout.split(b'\n')[0], ran)
    return answer


def run(tests):
    packets(tests)
    counters(tests)
    tables(tests)
    program_map(tests)
    pes_headers(tests)
    units(tests)
    ends(tests)


def patched(data, place, value):
    return data[:place] + bytes([value]) + data[place + 1:]


def packets(tests):
    data = good().data
    refused(tests, 'no bytes', b'', 20, 0, 'whole packets of 188 bytes: 0 <-- at least one')
    refused(tests, 'a byte more', data + b'\x47', 20, 0, 'bytes behind them: 1 <-- none is due')
    refused(tests, 'no sync byte', patched(data, 4 * SIZE, 0x48), 21, 4, 'sync_byte: 0x48 <-- 0x47 is due')
    refused(tests, 'a transport error', patched(data, 2 * SIZE + 1, 0x81), 22, 2, 'transport_error_indicator: 1 <-- the receiver')
    refused(tests, 'scrambled', patched(data, 3 * SIZE + 3, data[3 * SIZE + 3] | 0x80), 23, 3, 'transport_scrambling_control: 10 <-- scrambled')
    refused(tests, 'control 00', patched(data, 3 * SIZE + 3, 0), 23, 3, '00 is reserved')
    refused(tests, 'a short adaptation field', patched(data, 2 * SIZE + 4, 182), 23, 2, 'adaptation_field_length: 182 <-- 183 is due')
    refused(tests, 'a PCR extension of 300', patched(patched(data, 2 * SIZE + 10, 0x7F), 2 * SIZE + 11, 0x2C), 23, 2, 'the extension is above 299')
    short = Stream().tables().packet(0x100, b'\xAA' * 180)
    refused(tests, 'a PCR without room', patched(short.data, 2 * SIZE + 5, 0x10), 23, 2, 'no room for a PCR')


def counters(tests):
    many = good(8).data
    refused(tests, 'a lost packet', many[:7 * SIZE] + many[8 * SIZE:], 24, 8, 'counter due: 2', 'counter found: 3 <-- 1 packet is lost, or 17, 33',
            'the AV1 stream', 'last packet of this PID: 5, counter 1')
    refused(tests, 'three lost packets', many[:5 * SIZE] + many[11 * SIZE:], 24, 5, 'counter found: 4 <-- 3 packets are lost, or 19, 35')
    other = patched(many[:6 * SIZE] + many[5 * SIZE:], 7 * SIZE - 1, 0x55)
    refused(tests, 'the last counter again', other, 24, 6, 'the last counter again, with other bytes')
    again = many[:6 * SIZE] + many[5 * SIZE:6 * SIZE] * 2 + many[6 * SIZE:]
    answer = tests.json('sent three times', 'check', again, '--json')['refusal']
    tests.holds('a packet sent again', answer['number'] == 24 and 'sent again, copy' in answer['found'][-1]['wrong'])
    still = Stream().tables().clock(0).packet(0x100, pcr=300, counter=5)
    refused(tests, 'a counter without payload', still.data, 24, 3, 'counter due: 15', 'counter found: 5')
    tables_twice = Stream().tables().section(0, pat(), counter=5)
    refused(tests, 'the counter of the PAT', tables_twice.data, 24, 2, 'the PAT')


def tables(tests):
    def of(body, *found, **more):
        refused(tests, f'PAT, {found[0]}', Stream().section(0, body, **more).data, 25, 0, *found)
    body = pat()
    of(body[:-1] + bytes([body[-1] ^ 1]), 'CRC_32: ', ' is due')
    of(pat(((1, 0x1000), (2, 0x1001))), 'one program is due, there are 2')
    of(pat(((0, 0x10),)), 'programs: none')
    of(pat(((1, 0x1FFF),)), '0x0010 to 0x1FFE is due')
    of(pat(version=0xC0), 'current_next_indicator: 0 <-- 1 is due')
    of(pat(numbers=b'\0\1'), 'last_section_number: 1 <-- 0 is due')
    of(pat(numbers=b'\1\1'), 'section_number: 1 <-- 0 is due')
    of(b'\2' + body[1:], 'table_id: 0x02 <-- 0x00 is due')
    of(body, 'pointer_field: 1 <-- 0 is due', pointer=1)
    of(pat(length=400), 'does not stand whole in this packet')
    of(body + b'\0', 'fill: 0x00 at byte 0', '0xFF is due')
    refused(tests, 'a PAT without start', Stream().packet(0, b'\0' + body, fill=b'\xFF').data, 25, 0, 'a section begins in every such packet')
    later = Stream().tables().section(0, pat(version=0xC3))
    refused(tests, 'a later PAT', later.data, 25, 2, 'first one, in packet 0: byte 5: 0xC1 there, 0xC3 here <-- not the same')


def program_map(tests):
    def of(body, number, *found):
        refused(tests, f'PMT, {found[0]}', Stream().tables(None, body).data, number, 1, *found)
    of(pmt(program=2), 26, 'program_number: 2 <-- the PAT names program 1')
    of(pmt(AV1_ENTRY + entry(0x0F, 0x100)), 26, 'the PID stands twice')
    of(pmt(AV1_ENTRY + entry(0x0F, 0x1000)), 26, 'no PID of a stream')
    of(pmt(AV1_ENTRY + entry(0x0F, 0x101, b'\x0A\x09en')), 26, 'do not fill their loop')
    of(pmt(AV1_ENTRY + b'\x0F\xE1'), 26, "entries' lengths: do not fill the section")
    body = pmt()
    of(body[:-1] + bytes([body[-1] ^ 1]), 26, 'CRC_32')
    later = Stream().tables().section(0x1000, pmt(AV1_ENTRY + entry(3, 0x110)))
    refused(tests, 'a later PMT', later.data, 26, 2, 'first one, in packet 1', 'not the same')
    of(pmt(AV1_ENTRY + b''.join(entry(3, 0x200 + k) for k in range(12))), 27, 'entries: 13 <-- at most 12')
    of(pmt(entry(0x0F, 0x101)), 28, 'AV1 entries: 0 <-- exactly one is due')
    of(pmt(AV1_ENTRY + entry(6, 0x101, REGISTRATION)), 28, 'AV1 entries: 2')
    of(pmt(entry(0x1B, 0x100, REGISTRATION)), 28, 'this stands first in an entry of stream_type 0x06')
    of(pmt(entry(6, 0x100, REGISTRATION + VIDEO + VIDEO)), 28, 'video descriptors: 2 <-- at most one')
    of(pmt(entry(6, 0x100, REGISTRATION + VIDEO[:2] + b'\x82' + VIDEO[3:])), 28, 'refused 40')


def pes_headers(tests):
    def of(data, number, *found):
        refused(tests, f'PES, {found[0]}', Stream().tables().clock(0).pes(data).data, number, 3, *found)
    of(pes(UNIT, stream_id=0xE0), 29, 'stream_id: 0xE0 <-- 0xBD')
    of(pes(UNIT, bits=0x80), 29, 'data_alignment_indicator: 0')
    of(pes(UNIT, bits=0x44), 29, 'the bits behind it: 01 <-- 10 is due')
    of(pes(UNIT, bits=0x94), 29, 'PES_scrambling_control: 01')
    of(pes(UNIT, flags=0x40), 29, 'PTS_DTS_flags: 01 <-- 01 is forbidden')
    of(b'\0\0\2' + pes(UNIT)[3:], 29, 'packet_start_code_prefix: 00 00 02')
    marker = pes(UNIT)
    of(marker[:9] + bytes([marker[9] & 0xFE]) + marker[10:], 29, 'PTS: 90000 (1.000000 s) <-- prefix or marker bits wrong')
    of(marker[:8] + b'\4' + marker[9:], 29, 'PES_header_data_length: 4 <-- the time stamps take 5')
    of(marker[:8] + b'\xC8' + marker[9:], 29, 'it ends in the first packet')
    of(pes(UNIT, flags=0), 30, 'PTS_DTS_flags: 00 <-- each unit has a PTS')
    before = Stream().tables().clock(0).packet(0x100, b'\xAA' * 184).pes(pes(UNIT)).data
    refused(tests, 'payload before any start', before, 29, 3, 'no PES has begun yet', 'first start behind, in packet: 4')
    refused(tests, 'no PCR', Stream().tables().pes(pes(UNIT)).clock(0).data, 31, 2,
            'PCR_PID: 256', 'last PCR up to the PMT: none', 'first PCR behind: in packet 3')
    early = Stream().section(0, pat()).clock(0).section(0x1000, pmt()).pes(pes(UNIT))
    refused(tests, 'a PCR before the PMT', early.data, 31, 3, 'last PCR up to the PMT: in packet 1')
    long = pes(UNIT)
    of(long[:4] + b'\1\0' + long[6:], 32, 'PES_packet_length: 256', f'bytes behind that field: {len(long) - 6} <-- {256 - len(long) + 6} bytes too few')
    of(pes(UNIT, length=10), 32, 'bytes too many')


def units(tests):
    def of(unit, number, *found):
        data = Stream().tables().clock(0).null().pes(pes(unit)).pes(pes(NEXT, 93600)).data
        refused(tests, f'unit, {found[0]}', data, number, 4, *found)
    of(carried(DELIMITER, b'', FRAME), 3, 'OBU 1: no bytes')
    of(carried(DELIMITER, b'\xB2'), 4, 'the forbidden bit is set')
    of(carried(DELIMITER, b'\x34'), 4, 'OBU 1', 'its extension byte is missing')
    of(carried(b'\x12', FRAME), 5, 'its size is missing')
    of(carried(DELIMITER, b'\x32\x05\xAA'), 5, 'its size says 5, 1 byte remain')
    of(carried(b'\x12\x01\xAA', FRAME), 5, 'a delimiter with 1 byte of content')
    of(carried(b'\x32' + b'\xFF' * 9), 5, 'its size is no leb128')
    of(carried(DELIMITER, b'\x40'), 6, 'tile list')
    of(carried(DELIMITER), 7, 'end: of the unit', 'the frame has not begun')
    of(carried(FRAME, DELIMITER), 7, 'OBU 1: type 2', 'nothing may follow')
    of(carried(b'\x18\x20', b'\x78\x80'), 7, 'too soon: a tile group is due')
    of(FRAME, 9, 'first bytes: 32 04 10 00 AA BB <-- 00 00 01 is due')
    of(carried(DELIMITER, b'\x30\xAA\0\0\2'), 10, 'OBU 1: 00 00 02 at byte 2 of its payload')
    of(carried(b'\x30\0\0\3\4'), 10, 'OBU 0: 00 00 03 04 at byte 1')
    of(carried(b'\x08', FRAME), 42, 'no content')
    of(carried(b'\x08\x18', FRAME), 42, 'reduced_still_picture_header is set')
    of(carried(*[b'\x78\x80'] * 64, FRAME), 1, 'start codes: 65 <-- 1 to 64')
    last = Stream().tables().clock(0).pes(pes(UNIT)).pes(pes(carried(DELIMITER), 93600)).data
    refused(tests, 'the last unit, at the end', last, 7, 4, 'OBU 0: type 2 (temporal delimiter), 2 bytes: 12 00')


def ends(tests):
    refused(tests, 'no PAT', Stream().null(3).data, 33, 3, 'PAT: none', 'packets on PID 8191 (0x1FFF): 3')
    refused(tests, 'no PMT', Stream().section(0, pat()).null(2).data, 33, 3, 'PMT: none', 'no section on PID 4096 (0x1000)')
    stream = Stream().tables().clock(0)
    for index in range(1025):
        stream.pes(pes(NEXT, 90000 + index))
    refused(tests, 'a 1,025th unit', stream.data, 34, 1027, 'units before this packet: 1024')
