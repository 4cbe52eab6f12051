"""What is refused: pictures that are not carried, an order broken on purpose, and segments as other programs write them."""
import encoders
import muxing
import obus

PADDING = bytes.fromhex('7A0180')


def number(tests, name, segment, due, hint=None):
    answer = tests.json(name, 'check', segment, '--json')['refusal'] or {}
    tests.holds(f'{name}: {due}, found {answer.get("number")}', answer.get('number') == due)
    if hint is not None:
        tests.holds(f'{name}: the hint {answer.get("hints")}', any(hint in words for words in answer.get('hints', [])))


def refused(tests):
    still = obus.film(encoders.still(tests.work).read_bytes())
    number(tests, 'a reduced still picture', muxing.mux(still, '8004 8100 0CC0'), 42)
    path = encoders.Source(tests.work).aom('plain', '--lag-in-frames=0', count=6)
    film = obus.film(path.read_bytes())
    padded = [(unit + [PADDING], pts, dts) for unit, pts, dts in film]
    number(tests, 'padding behind the frame', muxing.mux(padded, '8004 8100 0CC0'), 7)
    pairs = [(film[k][0] + film[k + 1][0], film[k][1], film[k][2]) for k in range(0, 6, 2)]
    number(tests, 'two frames in a PES', muxing.mux(pairs, '8004 8100 0CC0'), 7, '2 frames in one PES')
    trimmed = [([unit[0][:1], *unit[1:]], pts, dts) for unit, pts, dts in film]
    number(tests, 'delimiters without their zero', muxing.mux(trimmed, '8004 8100 0CC0'), 5, 'were they trimmed')
    written = tests.work / 'ffmpeg.ts'
    encoders.run('ffmpeg', '-v', 'error', '-i', path, '-c', 'copy', '-f', 'mpegts', '-y', written)
    number(tests, "ffmpeg's own segment", written, 28, "without the registration 'AV01'")
    moved = tests.work / 'ffmpeg.m2ts'
    encoders.run('ffmpeg', '-v', 'error', '-i', path, '-c', 'copy', '-f', 'mpegts', '-mpegts_m2ts_mode', '1', '-y', moved)
    tests.holds("ffmpeg's M2TS", tests.run('check', moved).returncode == 1 and b'M2TS' in tests.run('check', moved).stdout)
    number(tests, 'an IVF file', path, 20, 'an IVF file')
