"""What the program's `check` says of a text, for the language server."""
import pathlib
from typing import NamedTuple, Optional

from .advice import of_refusal
from .explain import Message
from .messages import page_path, read_answer, refusal
from .program import Killed, NoProgram, OutOfTime, Program
from .rules import PAGE

# (a text at every limit is checked in a tenth of this)
SECONDS = 20.0


class Refusal(NamedTuple):
    number: int
    name: str
    at: int


class Verdict(NamedTuple):
    """The first refusal, where there is one; or what is in the way, where the program gave no verdict."""

    refusal: Optional[Refusal] = None
    trouble: str = ''


def first_refusal(text: bytes) -> Verdict:
    try:
        program = Program.found()
        with program.folder() as folder:
            file = folder.name('text.rpp')
            with open(file, 'wb') as out:
                out.write(text)
            told = read_answer(program.call('check', file, timeout=SECONDS))
    except NoProgram as error:
        return Verdict(trouble=str(error))
    except (Killed, OutOfTime, OSError) as error:
        return Verdict(trouble=f'rpp: the program gave no verdict: {error or "it took too long"}')
    if told.kind == 'refused' and told.at is not None:
        return Verdict(Refusal(told.number, told.name, told.at))
    if told.kind == 'done':
        return Verdict()
    return Verdict(trouble=f'rpp: the program gave no verdict: status {told.status} {told.first_line}')


def message_of(text: bytes, found: Refusal) -> Message:
    return of_refusal(text, found.number, found.at)


def spoken(message: Message) -> str:
    """A message as an editor shows it: the sentence, what was expected, and what to write."""
    lines = [message.sentence, message.detail, f'Fix: {message.fix}' if message.fix else '']
    return '\n'.join(filter(None, lines))


def page_of(found: Refusal) -> str:
    """The page of the rule, as an editor opens it; empty where there is no page."""
    rule, path = refusal(found.number), page_path(PAGE)
    if rule is None or path is None:
        return ''
    return f'{pathlib.Path(path).as_uri()}#{rule.link.split("#", 1)[1]}'
