"""OBUs of files, the units that they make, and the units as they are carried. Nothing of the library or of the tool is used."""
import struct

CODE = b'\0\0\1'


def leb128(data, at):
    value = width = 0
    while True:
        byte = data[at + width]
        value |= (byte & 0x7F) << 7 * width
        width += 1
        if not byte & 0x80:
            return value, width


def to_leb128(value):
    data = b''
    while value >= 0x80:
        data += bytes([value & 0x7F | 0x80])
        value >>= 7
    return data + bytes([value])


def split(data):
    """The OBUs of a temporal unit, each of which has a size."""
    at, found = 0, []
    while at < len(data):
        extended = data[at] >> 2 & 1
        size, width = leb128(data, at + 1 + extended)
        end = at + 1 + extended + width + size
        found.append(data[at:end])
        at = end
    return found


def kind(obu):
    return obu[0] >> 3 & 15


def content(obu):
    at = 1 + (obu[0] >> 2 & 1)
    return obu[at + leb128(obu, at)[1]:] if obu[0] & 2 else obu[at:]


def again(obu):
    """A frame header that shows a frame again."""
    return kind(obu) == 3 and content(obu)[0] & 0x80 != 0


def shown(unit):
    frames = [content(obu)[0] for obu in unit if kind(obu) in (3, 6)]
    return any(bits & 0x80 or bits & 0x10 for bits in frames)


def units(obus):
    """Access units of one frame each."""
    found, unit = [], []
    for index, obu in enumerate(obus):
        unit.append(obu)
        rest = [kind(other) for other in obus[index + 1:] if kind(other) not in (7, 15)]
        frames = [other for other in unit if kind(other) in (3, 6)]
        if frames and (kind(frames[0]) == 6 or again(frames[0]) or rest[:1] != [4]):
            found.append(unit)
            unit = []
    return found + ([unit] if unit else [])


def frames(ivf):
    """The frames of an IVF file, each with its time."""
    rate, scale = struct.unpack('<II', ivf[16:24])
    at, found = 32, []
    while at < len(ivf):
        size, time = struct.unpack('<IQ', ivf[at:at + 12])
        found.append((ivf[at + 12:at + 12 + size], time * 90000 * scale // rate))
        at += 12 + size
    return found


def film(ivf):
    """The units of an IVF file with PTS and DTS: those of a temporal unit are decoded in turn within the frame before it."""
    found = []
    for data, time in frames(ivf):
        group = units(split(data))
        for index, unit in enumerate(group):
            dts = 90000 + time - 3600 * (len(group) - 1 - index) // len(group)
            found.append((unit, 90000 + time if shown(unit) else dts, dts))
    return found


def escape(obu):
    out = bytearray()
    for byte in obu:
        if byte <= 3 and out[-2:] == b'\0\0':
            out.append(3)
        out.append(byte)
    return bytes(out)


def carried(unit):
    return b''.join(CODE + escape(obu) for obu in unit)


def with_extension(obu, byte=0):
    """The same OBU with an extension byte, but a delimiter."""
    if kind(obu) == 2:
        return obu
    body = content(obu)
    return bytes([obu[0] | 6, byte]) + to_leb128(len(body)) + body


def without_size(obu):
    return bytes([obu[0] & ~2]) + obu[1:1 + (obu[0] >> 2 & 1)] + content(obu)
