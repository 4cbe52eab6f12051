"""The hints: files of other kinds, and streams as others write them."""
from stream import AV1_ENTRY, DRAFT, DELIMITER, FRAME, SIZE, UNIT, VIDEO, Stream, carried, entry, good, pat, pes, pmt


def run(tests):
    data = good(12).data

    def hinted(name, segment, words):
        answer = tests.json(name, 'check', segment, '--json').get('refusal') or {}
        tests.holds(f'{name}: {answer.get("hints")}', any(words in hint for hint in answer.get('hints', [])))

    packets = [data[at:at + SIZE] for at in range(0, len(data), SIZE)]
    hinted('M2TS', b''.join(b'\0\0\1\2' + packet for packet in packets), '0x47 stands every 192 bytes: these are M2TS packets')
    hinted('M2TS of whole packets', b''.join(b'\0\0\1\2' + packet for packet in packets) + bytes(188 - len(packets) * 192 % 188), 'every 192 bytes')
    hinted('204 bytes', b''.join(packet + bytes(16) for packet in packets), 'every 204 bytes')
    hinted('begins in a packet', data[100:-88], '--trim leaves out')
    hinted('bytes lost', data[:5 * SIZE] + data[5 * SIZE + 20:] + bytes(20), f'from byte {6 * SIZE - 20} on 0x47 stands every 188 bytes again')
    hinted('a rest', data + b'\x47', '--trim')
    hinted('IVF', b'DKIF\0\0\x20\0AV01' + bytes(100), 'an IVF file')
    hinted('MP4', b'\0\0\0\x20ftypisom' + bytes(200), 'an MP4 file')
    hinted('Matroska', b'\x1A\x45\xDF\xA3' + bytes(184), 'a Matroska')
    hinted('OBUs', bytes.fromhex('12000A0B') + bytes(184), 'a file of OBUs')
    hinted('two programs', Stream().tables(pat(((1, 0x1000), (2, 0x1001)))).data, 'one program')
    hinted('a draft', Stream().tables(None, pmt(entry(6, 0x100, DRAFT + VIDEO))).clock(0).pes(pes(UNIT)).data, 'the 2018 draft')
    hinted('private data', Stream().tables(None, pmt(entry(6, 0x100))).data, "without the registration 'AV01'")
    hinted('AVC', Stream().tables(None, pmt(entry(0x1B, 0x100))).data, 'the video of this program is AVC')
    hinted('audio alone', Stream().tables(None, pmt(entry(0x0F, 0x100))).data, 'no private data stream')
    hinted('a video stream_id', Stream().tables().clock(0).pes(pes(UNIT, stream_id=0xE0)).data, 'private_stream_1')
    hinted('begins in a PES', Stream().tables().clock(0).packet(0x100, b'\xAA' * 184).data, '--trim')
    hinted('no PCR yet', Stream().tables().pes(pes(UNIT)).clock(1).data, '--trim')

    def in_unit(name, unit, words):
        hinted(name, Stream().tables().clock(0).pes(pes(unit)).data, words)
    in_unit('OBUs as files have them', DELIMITER + FRAME, 'as files have it')
    in_unit('four-byte start codes', b'\0' + UNIT, 'four-byte start codes')
    in_unit('trimmed zeros', carried(b'\x12', FRAME), 'were they trimmed')
    in_unit('not escaped', carried(b'\x30\0\0\0\2'), 'carried without escaping')
    in_unit('two frames', carried(DELIMITER, FRAME, FRAME), '2 frames in one PES')
    in_unit('no frame', carried(DELIMITER), 'no frame in this PES')
    other = Stream().tables(None, pmt(AV1_ENTRY, program=7)).data
    tests.holds('no hint where none is known', tests.json('none', 'check', other, '--json')['refusal']['hints'] == [])
