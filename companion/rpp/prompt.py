"""A prompt over commands, from a terminal, a script or standard input: what the prompts for sources and for images share."""
import cmd
import difflib
import os
import sys
from typing import List, Optional

from .complete import matching
from .options import Unfit
from .program import Interrupted, Killed, OutOfTime
from .screen import say, wrapped
from .trace import Refused

HISTORY = os.path.join('~', '.rpp_history')
# What other debuggers call a command.
OF_OTHERS = {'run': 'continue', 'start': 'continue', 'backtrace': 'where', 'info': 'print', 'delete': 'clear', 'exit': 'quit'}


class Prompt(cmd.Cmd):
    """Reads commands and prints what they give. `aliases` maps short words to commands; an empty line repeats the last
    command where a person types."""

    prompt = '(rpp) '
    aliases = {}

    def __init__(self, echo: bool):
        super().__init__()
        self.echo = echo
        self.failed = False
        self.noted = 0
        self.use_rawinput = not echo

    def say(self, lines: List[str]) -> None:
        self.wipe()
        say(lines)

    def wipe(self) -> None:
        """Takes the progress away, and the ^C after it, so that what follows begins its line."""
        if self.noted:
            print('\r' + ' ' * (self.noted + len('^C')) + '\r', end='', file=sys.stderr, flush=True)
        self.noted = 0

    def notify(self, text: str) -> None:
        """Progress of a long search, only on a terminal."""
        if sys.stderr.isatty():
            said = f'{text}; ^C ends it '
            print(f'\r{said}', end='', file=sys.stderr, flush=True)
            self.noted = max(self.noted, len(said))

    def onecmd(self, line: str) -> bool:
        """Carries one command out; what goes wrong is printed, and the prompt stays."""
        try:
            return bool(super().onecmd(line))
        except Unfit as wrong:
            self.fail(str(wrong))
        except Refused as refused:
            self.fail(f'the program answered: {refused}')
        except (Killed, OutOfTime) as wrong:
            self.fail(str(wrong) or 'it took too long')
        except (Interrupted, KeyboardInterrupt):
            self.say(['stopped by ^C, and nothing has moved'])
        finally:
            self.wipe()
        return False

    def fail(self, text: str) -> None:
        self.failed = True
        self.say([text])

    def precmd(self, line: str) -> str:
        """Spells short words out."""
        words = line.split(None, 1)
        if not words:
            return line
        return ' '.join([self.aliases.get(words[0], words[0]).replace('-', '_')] + words[1:])

    def default(self, line: str) -> bool:
        word, names = line.split()[0].replace('_', '-'), [each.replace('_', '-') for each in self.commands()]
        meant = next(iter(difflib.get_close_matches(OF_OTHERS.get(word, word), names, 1, 0.75)), '')
        self.fail(f'there is no command {word}; ' + (f'did you mean `{meant}`?' if meant else '`help` names them all'))
        return False

    def commands(self) -> List[str]:
        """The names of the commands, as methods have them."""
        return [name[3:] for name in dir(self) if name.startswith('do_') and name != 'do_EOF']

    def completenames(self, text: str, *_ignored) -> List[str]:
        """The commands that begin so, for the key Tab."""
        return matching(text, [name.replace('_', '-') for name in self.commands()])

    def completedefault(self, text: str, line: str, begin: int, _end: int) -> List[str]:
        """What a word after a command can be, for the key Tab."""
        return matching(text, self.choices(self.precmd(line[:begin]).split(), text))

    def choices(self, words: List[str], text: str) -> List[str]:
        """What can follow these words of a line, in a word that begins with this text."""
        raise NotImplementedError

    def do_help(self, arg: str) -> None:
        """help [COMMAND]: what the commands do."""
        names = [arg.replace('-', '_')] if arg else self.commands()
        for name in names:
            name = self.aliases.get(name, name).replace('-', '_')
            action = getattr(self, f'do_{name}', None)
            if action is None or name == 'EOF':
                self.fail(f'there is no command {arg}')
                continue
            short = sorted(each for each, full in self.aliases.items() if full.replace('-', '_') == name)
            self.say(wrapped(action.__doc__.split('\n')[0].rstrip('.') + (f' ({", ".join(short)})' if short else ''), '', '  '))

    def do_quit(self, _arg: str) -> bool:
        """quit: end the session."""
        return True

    def do_EOF(self, _arg: str) -> bool:
        """The end of the commands."""
        if not self.echo:
            print()
        return True

    def here(self) -> None:
        """Shows where the session is."""
        raise NotImplementedError

    def converse(self) -> None:
        """Reads commands from standard input to its end."""
        if self.echo:
            self.obey(sys.stdin.read().split('\n'))
            return
        remember(self)
        while True:
            try:
                self.cmdloop()
                return
            except KeyboardInterrupt:
                print('^C')

    def obey(self, lines: List[str]) -> bool:
        """Carries out the lines of a script, each shown after the prompt; whether one of them ended the session."""
        for line in lines:
            line = line.split('//')[0].strip()
            if line:
                say([f'{self.prompt}{line}'])
                if self.onecmd(self.precmd(line)):
                    return True
        return False


def hold(prompt: Prompt, lines: List[str], greeting: str) -> int:
    """Holds the session; the status is 1 where a command of a script was wrong."""
    if not prompt.echo:
        say([greeting])
    prompt.here()
    if lines:
        prompt.obey(lines)
    else:
        prompt.converse()
    return int(prompt.echo and prompt.failed)


def remember(prompt: Prompt) -> None:
    """Keeps what was typed for the next session, where the terminal's library is there."""
    try:
        import atexit
        import readline
    except ImportError:
        return
    # (a path and a command with a hyphen are each one word)
    readline.set_completer_delims(' \t\n()=<>!&|^+*')
    path = os.path.expanduser(HISTORY)
    try:
        readline.read_history_file(path)
    except OSError:
        pass

    def keep() -> None:
        try:
            readline.write_history_file(path)
        except OSError:
            pass
    atexit.register(keep)


def number_of(arg: str, default: Optional[int] = None) -> int:
    """The number that a command is given."""
    if not arg.strip() and default is not None:
        return default
    if not arg.strip().isdigit():
        raise Unfit(f'a number is needed here{", not " + arg.strip() if arg.strip() else ""}')
    return int(arg)
