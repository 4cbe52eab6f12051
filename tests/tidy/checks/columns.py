"""Lines past 120 columns in src/ and specs/, and past 140 in proofs/; functions with more than seven parameters, or with more than 40 lines between their
braces, blank lines and comments left out."""
import re

from functions import FUNCTION, body, closing

COLUMNS = {'src': 120, 'specs': 120, 'proofs': 140}
PARAMETERS = 7
BODY = 40


def parameters(text):
    """How many there are between the brackets of a function."""
    text = re.sub(r'->|\s', '', text)
    while re.search(r'[(\[<{][^][(){}<>]*[])>}]', text):
        text = re.sub(r'[(\[<{][^][(){}<>]*[])>}]', '', text)
    return len([part for part in text.split(',') if part])


def of_functions(source):
    """(line, what is wrong) of each function of a file."""
    for function in FUNCTION.finditer(source.text):
        left = source.text.index('(', function.end())
        right = closing(source.text, left)
        count = parameters(source.text[left + 1:right - 1])
        lines = sum(1 for line in source.text[slice(*body(source.text, right))].split('\n') if line.strip())
        if count > PARAMETERS:
            yield source.line(function.start(1)), f'{count} parameters of {function[1]}, where {PARAMETERS} are allowed'
        if lines > BODY:
            yield source.line(function.start(1)), f'{lines} lines in the body of {function[1]}, where {BODY} are allowed'


def find(sources):
    for source in sources:
        most = COLUMNS[source.kind]
        for number, line in enumerate(source.raw.splitlines(), 1):
            if len(line) > most:
                yield source.path, number, f'{len(line)} columns, where {most} are allowed'
        if source.code:
            yield from ((source.path, line, what) for line, what in of_functions(source))
