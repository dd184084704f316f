"""What `--json` prints, in parts that several commands share. docs/reference/editors.md has the fields; JSON_VERSION changes with
the meaning of one, not where one is added."""
from typing import Any, Dict

from .explain import Message
from .places import Text

JSON_VERSION = 1


def place_value(text: Text, at: int) -> Dict[str, Any]:
    """A place of a source: its byte from 0, and its line and column from 1."""
    place = text.place(text.shown(at))
    return {'at': at, 'line': place.line, 'column': place.column}


def message_value(message: Message) -> Dict[str, Any]:
    """A message: its sentence, what was expected, what to do, and the edits that do it."""
    value: Dict[str, Any] = {'message': message.sentence}
    if message.detail:
        value['expected'] = message.detail
    if message.fix:
        value['fix'] = message.fix
    if message.edits:
        value['edits'] = [{'title': message.title, **each._asdict()} for each in message.edits]
    return value
