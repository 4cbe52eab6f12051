"""Real AV1 by each encoder, as IVF files."""
import subprocess

TOOLS = {'ffmpeg': 'ffmpeg', 'aomenc': 'aom-tools', 'SvtAv1EncApp': 'svt-av1', 'rav1e': 'rav1e', 'dav1d': 'dav1d', 'tshark': 'tshark', 'tsinfo': 'tstools',
         'dvbinfo': 'dvbpsi-utils'}
DISPLAY = 'G(0.265,0.69)B(0.15,0.06)R(0.68,0.32)WP(0.3127,0.329)L(1000,0.005)'
AOM = ['--passes=1', '--cpu-used=8', '--end-usage=q', '--cq-level=48', '--ivf']
HDR = ['--color-primaries', '9', '--transfer-characteristics', '16', '--matrix-coefficients', '9']
LIGHT = ['--mastering-display', DISPLAY, '--content-light', '1000,400']


def run(*args):
    ran = subprocess.run([str(arg) for arg in args], capture_output=True)
    if ran.returncode != 0:
        raise RuntimeError(f'{args[0]}: {ran.stderr.decode(errors="replace")[-400:]}')
    return ran.stdout


class Source:
    """Test pictures in a form, made once."""

    def __init__(self, work):
        self.work = work

    def picture(self, form, count=16, size='176x144'):
        path = self.work / f'{form}-{count}-{size}.y4m'
        if not path.exists():
            run('ffmpeg', '-v', 'error', '-f', 'lavfi', '-i', f'testsrc2=s={size}:r=25', '-frames:v', count, '-pix_fmt', form, '-strict', '-1', '-y', path)
        return path

    def aom(self, name, *options, **more):
        path = self.work / f'{name}.ivf'
        run('aomenc', self.picture(more.pop('form', 'yuv420p'), **more), *AOM, *options, '-o', path)
        return path

    def svt(self, name, *options, **more):
        path = self.work / f'{name}.ivf'
        run('SvtAv1EncApp', '-i', self.picture(more.pop('form', 'yuv420p'), **more), '-b', path, '--preset', '10', '-q', '50', *options)
        return path

    def rav1e(self, name, *options, **more):
        path = self.work / f'{name}.ivf'
        run('rav1e', self.picture(more.pop('form', 'yuv420p'), **more), '-o', path, '-y', '--speed', '10', '--quantizer', '180', *options)
        return path


def films(work):
    """Name and file of each; what they are for stands in the name."""
    source = Source(work)
    yield 'aom, hidden frames', source.aom('hidden', '--lag-in-frames=19', '--auto-alt-ref=1', '--enable-fwd-kf=0', count=34)
    yield 'aom, tiles in several OBUs', source.aom('tiles', '--lag-in-frames=0', '--num-tile-groups=4', '--tile-columns=1', '--tile-rows=1',
                                                           size='256x256', count=5)
    yield 'aom, 4:4:4', source.aom('full', '--profile=1', '--lag-in-frames=0', form='yuv444p')
    yield 'aom, monochrome', source.aom('mono', '--monochrome', '--lag-in-frames=0')
    yield 'aom, 4:2:2 of 12 bits', source.aom('twelve', '--profile=2', '--bit-depth=12', '--lag-in-frames=0', form='yuv422p12le', count=5)
    yield 'aom, error resilient', source.aom('resilient', '--error-resilient=1', '--lag-in-frames=0')
    yield 'svt', source.svt('svt', count=34)
    yield 'svt, 10 bits, HDR with mastering figures', source.svt('svt_hdr', '--enable-hdr', '1', *LIGHT, *HDR, form='yuv420p10le')
    yield 'rav1e', source.rav1e('rav1e', count=20)
    yield 'rav1e, HDR with mastering figures', source.rav1e('rav1e_hdr', *LIGHT, form='yuv420p10le')


def still(work):
    """A reduced still picture, which is not carried."""
    return Source(work).aom('still', '--limit=1', '--lag-in-frames=0', count=1)
