"""What a person sees who types at a shell in a terminal."""
import os
import pty
import re
import select
import signal
import time

# A shell that has not answered after so many seconds never will.
SECONDS = 120
CONTROLS = re.compile(r'\x1b\[[0-9;?>=]*[a-zA-Z]|\x1b[()][0-9A-B]|\x1b\][^\x07]*\x07|\x1b[=>]')


def completed(words, line, prompt):
    """The line to which a shell, which these words start, completes what is typed: a tab is the key for that. The shell's prompt shows
    when it is ready. In front of the line comes `echo` before it is entered, so the shell prints it; what is printed has no quotes."""
    process, terminal = pty.fork()
    if process == 0:
        os.execvp(words[0], words)
    try:
        said = until(terminal, re.escape(prompt))
        if said is not None:
            os.write(terminal, f'{line}\x01echo GO""T \r'.encode())
            said = until(terminal, r'GOT ([^\r\n]*)\r?\n')
        return said
    finally:
        os.close(terminal)
        os.kill(process, signal.SIGKILL)
        os.waitpid(process, 0)


def until(terminal, pattern):
    """Reads until the pattern was printed; its group, all of it, or nothing."""
    printed, end = b'', time.monotonic() + SECONDS
    while time.monotonic() < end:
        if not select.select([terminal], [], [], 1)[0]:
            continue
        try:
            printed += os.read(terminal, 65536)
        except OSError:
            return None
        found = re.search(pattern, CONTROLS.sub('', printed.decode(errors='replace')))
        if found:
            return found[1] if found.re.groups else found[0]
    return None
