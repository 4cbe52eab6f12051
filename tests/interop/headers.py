"""Sequence headers and mastering figures, beside what ffmpeg's trace_headers prints."""
import re
import subprocess

# ffmpeg's names that are ours, and those that we call otherwise
SAME = ['seq_profile', 'high_bitdepth', 'twelve_bit', 'chroma_sample_position', 'color_primaries', 'transfer_characteristics', 'matrix_coefficients']
NAMES = {**{name: name for name in SAME}, 'seq_level_idx[0]': 'seq_level_idx_0', 'seq_tier[0]': 'seq_tier_0', 'mono_chrome': 'monochrome',
         'subsampling_x': 'chroma_subsampling_x', 'subsampling_y': 'chroma_subsampling_y'}
SIZES = {'max_frame_width_minus_1': 'max_frame_width', 'max_frame_height_minus_1': 'max_frame_height'}
DIVISORS = {'luminance_max': 256, 'luminance_min': 16384}


def traced(path):
    """The first value of each name that ffmpeg prints."""
    words = ['ffmpeg', '-hide_banner', '-loglevel', 'trace', '-i', str(path), '-c', 'copy', '-bsf:v', 'trace_headers', '-f', 'null', '-']
    text = subprocess.run(words, capture_output=True).stderr.decode(errors='replace')
    found = {}
    for name, value in re.findall(r'trace_headers @ \w+\] \d+ +(\S+) +[01]+ = (\d+)', text):
        found.setdefault(name, int(value))
    return found


def compared(tests, name, path, unit):
    """The headers of a film's first unit."""
    due = traced(path)
    obus = tests.json(f'{name}: headers', 'list', '--json', tests.file(unit, 'first.unit'))['obus']
    fields = {field['what']: field['value'] for obu in obus for field in obu['headers']}
    for theirs, ours in NAMES.items():
        if theirs in due:
            tests.holds(f'{name}: {ours} is {due[theirs]}, {fields.get(ours)} shown', fields.get(ours) == str(due[theirs]))
    for theirs, ours in SIZES.items():
        tests.holds(f'{name}: {ours}', fields.get(ours) == str(due.get(theirs, -2) + 1))
    figures = [key for key in due if 'chromaticity' in key or key in DIVISORS]
    for key in figures:
        tests.holds(f'{name}: {key}', float(fields.get(key, -1)) == due[key] / DIVISORS.get(key, 65536))
    return figures
