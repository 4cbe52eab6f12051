"""What other programs read in a segment, beside what was sent."""
import re
import subprocess

SIZE = 188


def output(*args):
    ran = subprocess.run([str(arg) for arg in args], capture_output=True, timeout=120)
    return ran.stdout.decode(errors='replace'), ran.stderr.decode(errors='replace')


def packets(data):
    """PID, counter and whether it has payload, of each packet."""
    for at in range(0, len(data), SIZE):
        yield (data[at + 1] & 0x1F) << 8 | data[at + 2], data[at + 3] & 15, data[at + 3] >> 4 & 1


def read_by_all(tests, name, path, film, video):
    data = path.read_bytes()
    ffprobe(tests, name, path, film)
    tshark(tests, name, path, data)
    tsinfo(tests, name, path, video)
    dvbinfo(tests, name, path, data)


def ffprobe(tests, name, path, film):
    out, err = output('ffprobe', '-v', 'error', '-show_programs', '-show_packets', path)
    tests.holds(f'{name}: ffprobe complains: {err}', err == '')
    for fact in ('program_num=1', 'pmt_pid=4096', 'pcr_pid=256', 'id=0x100', 'codec_tag_string=AV01'):
        tests.holds(f'{name}: ffprobe reads {fact}', fact in out)
    times = [tuple(int(n) for n in pair) for pair in re.findall(r'^pts=(\d+)$.*?^dts=(\d+)$', out, re.M | re.S)]
    tests.holds(f'{name}: ffprobe reads the times {times[:3]}', times == [(pts, dts) for _, pts, dts in film])


def tshark(tests, name, path, data):
    fields = ['mp2t.pid', 'mp2t.cc', 'mpeg_sect.crc.status', '_ws.expert.message']
    wanted = [word for field in fields for word in ('-e', field)]
    out, _ = output('tshark', '-r', path, '-o', 'mpeg_sect.verify_crc:TRUE', '-T', 'fields', '-E', 'separator=|', *wanted)
    rows = [line.split('|') for line in out.splitlines()]
    due = [(pid, counter) for pid, counter, _ in packets(data)]
    tests.holds(f'{name}: tshark reads PIDs and counters', [(int(row[0], 16), int(row[1])) for row in rows] == due)
    tests.holds(f'{name}: tshark finds every CRC right', all(row[2] == '1' for row in rows if int(row[0], 16) in (0, 0x1000)))
    complaints = {row[3] for row in rows if row[3]}
    tests.holds(f'{name}: tshark complains: {complaints}', not complaints)


def tsinfo(tests, name, path, video):
    out, _ = output('tsinfo', path)
    digits = bytes.fromhex(video).hex(' ')
    for fact in ('Program 1 -> PID 1000 (4096)', 'PCR PID 0100 (256)', 'PID 0100 ( 256) -> Stream type 06', f'05 04 41 56 30 31 {digits}',
                 'Registration AV01'):
        tests.holds(f'{name}: tsinfo reads {fact}', fact in out)
    tests.holds(f'{name}: tsinfo complains', '###' not in out and '!!!' not in out)


def dvbinfo(tests, name, path, data):
    out, err = output('dvbinfo', '-f', path)
    text = out + err
    for fact in ('PAT: Program Association Table', '1 @ pid: 0x1000 (4096)', 'PMT: Program Map Table', 'PCR_PID        : 0x100 (256)'):
        tests.holds(f'{name}: dvbinfo reads {fact}', fact in text)
    # It takes a packet without payload, whose counter stays, for a lost one; every other complaint counts.
    bare = [index for index, (_, _, payload) in enumerate(packets(data), 1) if not payload]
    lines = text.splitlines()
    wrong = [lines[k - 1] for k, line in enumerate(lines) if 'discontinuity' in line and not any(f'packet {index} pid' in lines[k - 1] for index in bare)]
    tests.holds(f'{name}: dvbinfo complains: {wrong}', not wrong and 'ERROR' not in text)
