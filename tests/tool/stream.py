"""Segments made packet by packet, right or wrong. Nothing of the library or of the tool is used."""

SIZE = 188
NULL = 0x1FFF
REGISTRATION = b'\x05\x04AV01'
DRAFT = b'\x05\x04AV1 '
VIDEO = bytes.fromhex('8004 8100 0CC0')
CODE = b'\0\0\1'
DELIMITER = bytes.fromhex('1200')
SEQUENCE = bytes.fromhex('0A0B 0000 0003 BD7C 79B5 F200 80')  # 176 by 144, as an encoder wrote it
FRAME = bytes.fromhex('3204 1000 AABB')


def crc(data):
    register = 0xFFFFFFFF
    for byte in data:
        register ^= byte << 24
        for _ in range(8):
            register = (register << 1 ^ (0x04C11DB7 if register >> 31 else 0)) & 0xFFFFFFFF
    return register.to_bytes(4, 'big')


def section(table, number, content, version=0xC1, numbers=b'\0\0', length=None):
    size = 5 + len(content) + 4 if length is None else length
    head = bytes([table]) + (0xB000 | size).to_bytes(2, 'big') + number.to_bytes(2, 'big')
    body = head + bytes([version]) + numbers + content
    return body + crc(body)


def pat(programs=((1, 0x1000),), **more):
    entries = b''.join(n.to_bytes(2, 'big') + (0xE000 | p).to_bytes(2, 'big') for n, p in programs)
    return section(0, 0x1234, entries, **more)


def entry(stream_type, pid, descriptors=b''):
    return bytes([stream_type]) + (0xE000 | pid).to_bytes(2, 'big') + (0xF000 | len(descriptors)).to_bytes(2, 'big') + descriptors


AV1_ENTRY = entry(6, 0x100, REGISTRATION + VIDEO)


def pmt(entries=AV1_ENTRY, pcr_pid=0x100, program=1, **more):
    return section(2, program, (0xE000 | pcr_pid).to_bytes(2, 'big') + b'\xF0\0' + entries, **more)


def stamp(prefix, ticks):
    return bytes([prefix << 4 | (ticks >> 30 & 7) << 1 | 1]) + ((ticks >> 15 & 0x7FFF) << 1 | 1).to_bytes(2, 'big') \
        + ((ticks & 0x7FFF) << 1 | 1).to_bytes(2, 'big')


def pes(unit, pts=90000, dts=None, length=None, stream_id=0xBD, bits=0x84, flags=None):
    times = stamp(2, pts) if dts is None else stamp(3, pts) + stamp(1, dts)
    if flags == 0:
        times = b''
    flags = (0x80 if dts is None else 0xC0) if flags is None else flags
    size = 3 + len(times) + len(unit)
    length = (size if size < 65536 else 0) if length is None else length
    return CODE + bytes([stream_id]) + length.to_bytes(2, 'big') + bytes([bits, flags, len(times)]) + times + unit


def carried(*obus):
    """The carried unit of OBUs that need no escaping."""
    return b''.join(CODE + obu for obu in obus)


UNIT = carried(DELIMITER, SEQUENCE.replace(b'\0\0\0', b'\0\0\3\0'), FRAME)
NEXT = carried(DELIMITER, FRAME)


class Stream:
    """A segment that grows, with the counters of its PIDs."""

    def __init__(self):
        self.data = b''
        self.counters = {}

    def packet(self, pid, payload=b'', start=False, pcr=None, flags=0, counter=None, fill=None):
        """One packet; a short payload is filled up by an adaptation field, or behind by `fill`."""
        if fill is not None:
            payload += fill * (184 - len(payload))
        if counter is None:
            last = self.counters.get(pid, -1 if payload else 15)
            counter = (last + bool(payload)) % 16
        self.counters[pid] = counter
        field = b''
        if pcr is not None:
            flags |= 0x10
            field = (pcr // 300 << 15 | 0x7E00 | pcr % 300).to_bytes(6, 'big')
        room = 184 - len(payload)
        if room > 0 or flags:
            field = (bytes([flags]) + field) if room > 1 else b''
            field = bytes([room - 1]) + field + b'\xFF' * (room - 1 - len(field))
        control = (2 if field else 0) | (1 if payload else 0)
        head = bytes([0x47, (0x40 if start else 0) | pid >> 8, pid & 0xFF, control << 4 | counter])
        self.data += head + field + payload
        return self

    def section(self, pid, body, pointer=0, **more):
        return self.packet(pid, bytes([pointer]) + body, start=True, fill=b'\xFF', **more)

    def tables(self, pat_section=None, pmt_section=None):
        return self.section(0, pat_section or pat()).section(0x1000, pmt_section or pmt())

    def clock(self, ticks, pid=0x100):
        return self.packet(pid, pcr=ticks)

    def pes(self, data, pid=0x100):
        """A PES in as few packets as possible."""
        first = True
        while data:
            self.packet(pid, data[:184], start=first)
            data, first = data[184:], False
        return self

    def null(self, count=1):
        self.data += (bytes([0x47, 0x1F, 0xFF, 0x10]) + b'\xFF' * 184) * count
        return self


def good(units=3):
    """A segment that is right: tables, a clock, units, and other PIDs."""
    stream = Stream().tables().clock(13500000)
    for index in range(units):
        stream.pes(pes(UNIT if index == 0 else NEXT, 90000 + 3600 * index)).null()
    return stream
