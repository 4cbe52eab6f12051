"""Runs the tool and counts what holds."""
import json
import subprocess
import sys
import tempfile
from pathlib import Path

sys.path.append(str(Path(__file__).resolve().parents[1]))

from counted import ROOT, Counted  # noqa: E402

TOOL = ROOT / 'build/cargo/release/av1ts'


def build():
    """Builds the tool; where it cannot be built, the test ends."""
    if subprocess.run(['cargo', 'build', '--quiet', '--release', '--package', 'av1ts-tool'], cwd=ROOT).returncode != 0:
        print('0 passed, 1 failed')
        sys.exit(1)


class Tests(Counted):
    def __init__(self, tool=None):
        """Another program by its name, or the tool, which is built first."""
        super().__init__()
        if tool is None:
            build()
        self.tool = str(Path(tool).resolve() if tool else TOOL)
        self.folder = tempfile.TemporaryDirectory()
        self.work = Path(self.folder.name)

    def run(self, *args, given=b'', **more):
        """The tool with arguments, of which bytes become a file."""
        words = [self.file(word) if isinstance(word, bytes) else str(word) for word in args]
        return subprocess.run([self.tool, *words], input=given, capture_output=True, timeout=120, **more)

    def file(self, data, name='input.ts'):
        path = self.work / name
        path.write_bytes(data)
        return str(path)

    def holds(self, name, condition, ran=None):
        shown = '' if condition or ran is None else f'  status {ran.returncode}\n  {ran.stdout[:1500]!r}\n  {ran.stderr[:500]!r}'
        super().holds(name, condition, shown)

    def status(self, name, status, *args, has=(), error=(), **more):
        """The tool ends with a status; each text of `has` stands on standard output, of `error` on standard error."""
        ran = self.run(*args, **more)
        self.holds(f'{name}: status {status}', ran.returncode == status, ran)
        out, err = ran.stdout.decode(errors='replace'), ran.stderr.decode(errors='replace')
        for text in [has] if isinstance(has, str) else has:
            self.holds(f'{name}: {text!r}', text in out, ran)
        for text in [error] if isinstance(error, str) else error:
            self.holds(f'{name}: {text!r} on standard error', text in err, ran)
        if status == 2:
            self.holds(f'{name}: one line on standard error', err.startswith('av1ts: ') and err.count('\n') == 1, ran)
        return ran

    def json(self, name, *args, **more):
        """The one JSON object that the tool prints."""
        ran = self.run(*args, **more)
        try:
            lines = ran.stdout.decode().splitlines()
            self.holds(f'{name}: one line of JSON', len(lines) == 1, ran)
            return json.loads(lines[0])
        except (ValueError, IndexError):
            self.holds(f'{name}: JSON', False, ran)
            return {}

    def end(self):
        self.folder.cleanup()
        return super().end()
