"""What all commands have in common: status, streams, help, arguments, pipes."""
import re
import subprocess

from stream import good

COMMANDS = ['check', 'units', 'list', 'escape', 'unescape', 'salvage', 'descriptor', 'mastering', 'mux', 'sheet', 'seek', 'buffer', 'packet', 'explain']


def run(tests):
    data = good().data
    tests.status('--version', 0, '--version', has=['av1ts 0.', 'over libav1ts with interface version '])
    ran = tests.status('--help', 0, '--help', has='usage: av1ts COMMAND')
    listed = re.findall(r'^  (\w+) ', ran.stdout.decode(), re.M)
    tests.holds(f'--help lists the commands: {listed}', listed == COMMANDS)
    for command in COMMANDS:
        tests.status(f'{command} --help', 0, command, '--help', has=f'usage: av1ts {command} ')
        tests.status(f'help {command}', 0, 'help', command, has=f'usage: av1ts {command} ')
        tests.status(f'{command} with a wrong option', 2, command, '--nothing', error=[
            f'av1ts: {command}: there is no option --nothing', f'see av1ts {command} --help'])
    tests.status('no command', 2, error='a command is missing')
    tests.status('no such command', 2, 'chekc', error='there is no command chekc')
    tests.status('help of nothing', 2, 'help', 'chekc', error='there is no command chekc')
    tests.status('no file', 2, 'check', error='an argument is missing')
    tests.status('a file that is not there', 2, 'check', tests.work / 'nothing.ts', error='nothing.ts: No such file')
    tests.status('a folder', 2, 'check', tests.work, error='is a folder')
    tests.status('an option without value', 2, 'check', data, '--packets', error='--packets needs a value')
    tests.status('an option twice', 2, 'check', data, '--packets', '0..', '--packets', '0..', error='--packets stands twice')
    tests.status('a value too many', 2, 'check', data, '--json=1', error='--json takes no value')
    tests.status('a value behind =', 0, 'check', data, '--packets=0..3', has='accepted')
    tests.status('an argument too many', 2, 'explain', '1', '2', error='2 is one argument too many')
    tests.status('an unknown edition', 2, 'check', data, '--edition', 'old', error='old is neither current nor draft')
    tests.file(data, '-odd.ts')
    tests.status('a name with a dash, behind --', 0, 'check', '--', '-odd.ts', has='-odd.ts: accepted', cwd=tests.work)
    tests.status('a name with a dash', 2, 'check', '-odd.ts', error='there is no option -odd.ts', cwd=tests.work)
    strange = tests.work / 'a"b\\c\nd.ts'
    strange.write_bytes(data)
    tests.holds('a strange name in JSON', tests.json('a strange name', 'check', strange, '--json')['file'] == str(strange))
    ran = tests.status('a refusal is no error', 1, 'check', data[188:])
    tests.holds('nothing on standard error', ran.stderr == b'', ran)
    pipes(tests, data)


def pipes(tests, data):
    path = tests.file(data)
    shell = f'{tests.tool} check {path} {path} --json --units; echo $? >{tests.work}/status'
    for name, reader in (('a reader that goes away', 'true'), ('a reader that reads a line', 'head -c 1')):
        ran = subprocess.run(['bash', '-c', f'({shell}) | {reader}'], capture_output=True)
        status = (tests.work / 'status').read_text().strip()
        tests.holds(f'{name} is no error: {status}, {ran.stderr!r}', status == '0' and ran.stderr == b'')
    ran = subprocess.run(['bash', '-c', f'{tests.tool} check {path} >/dev/full'], capture_output=True)
    tests.holds('a full disk is an error', ran.returncode == 2 and b'standard output: ' in ran.stderr)
    ran = subprocess.run(['bash', '-c', f'{tests.tool} check {tests.work}/none 2>&-'], capture_output=True)
    tests.holds('no standard error is no crash', ran.returncode == 2, ran)
