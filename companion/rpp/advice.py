"""The message of a refusal as a reader sees it: the pages that it names are where the reader has them.

    said = of_refusal(text, 16, 1131)       # the bytes of the source, the number, the place

What it says is that of explain.py, which the playground has too.
"""
from typing import Optional

from .explain import Message
from .explain import of_refusal as refusal_in_general
from .messages import placed


def of_refusal(text: bytes, number: int, at: Optional[int]) -> Message:
    """The message, and how to fix it; a page that the reader does not have is left out."""
    found = refusal_in_general(text, number, at)
    return found._replace(fix=placed(found.fix))
