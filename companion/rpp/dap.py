"""`rpp dap`: The debug adapter, over standard input and output, as editors start it.

It steps through a run of a program, forward and backward, as an editor asks. It has breakpoints, changes of a value,
active calls, variables and objects."""
import sys
from typing import List

from .debug_adapter import Adapter
from .options import Parser
from .protocol import Inbox, Outbox


def main(words: List[str]) -> int:
    Parser(prog='rpp dap', description=__doc__.split(':', 1)[1].strip()).parse_args(words)
    return Adapter(Inbox(sys.stdin.fileno()), Outbox(sys.stdout.buffer)).serve()
