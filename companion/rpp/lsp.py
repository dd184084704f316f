"""`rpp lsp`: The language server, over standard input and output, as editors start it.

It checks each open source by the program's `check`. It answers what a name or a statement is, where it is declared and used, and
what can be written at a location. It also has an outline, folds, formatting, and the edits of a rename."""
import sys
from typing import List

from .language_server import Server
from .options import Parser
from .protocol import Inbox, Outbox


def main(words: List[str]) -> int:
    parser = Parser(prog='rpp lsp', description=__doc__.split(':', 1)[1].strip())
    parser.add_argument('--stdio', action='store_true', help='the default; some editors name it')
    parser.parse_args(words)
    return Server(Inbox(sys.stdin.fileno()), Outbox(sys.stdout.buffer)).serve()
