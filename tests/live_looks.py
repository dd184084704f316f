"""The sessions of tests/live_looks.txt."""
import os
import re

LOOKS = os.path.join(os.path.dirname(os.path.realpath(__file__)), 'live_looks.txt')
MARK = re.compile('@[A-Z]')


def cases():
    """The sessions: the title, the words after `$`, the text, and the requests with the lines of their replies."""
    with open(LOOKS, encoding='utf-8') as file:
        parts = file.read().split('\n\n')
    for part in parts:
        rows = [(line[:1], line[2:]) for line in part.splitlines()]
        text, marks = marked(''.join(line + '\n' for begin, line in rows if begin == '|'))
        requests = []
        for begin, line in rows:
            if begin in '<>':
                line = MARK.sub(lambda mark, at=marks: str(at[mark[0]]), line)
                requests += [(line, [])] * (begin == '<')
                requests[-1][1].extend([line] * (begin == '>'))
        if text:
            yield rows[0][1], next(line for begin, line in rows if begin == '$').split(), text, requests


def marked(text):
    """The text without its marks, and the offset of each."""
    plain, marks = '', {}
    for piece in re.split('(@[A-Z])', text):
        if MARK.fullmatch(piece):
            marks[piece] = len(plain.encode())
        else:
            plain += piece
    return plain, marks
