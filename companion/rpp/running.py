"""A short run of a text, for editors: what `rpp run` says of it."""
from .messages import read_answer
from .options import DEPTH, HEAP
from .program import Killed, NoProgram, OutOfTime, Program
from .run import Wanted, said

STEPS = 10_000_000
SECONDS = 20.0


def run_text(text: bytes, name: str, is_back: bool) -> str:
    """What is said of a run of the text, with no input and with fewer steps than `rpp run` takes."""
    try:
        program = Program.found()
        with program.folder() as folder:
            source = folder.name(name or 'text.rpp')
            with open(source, 'wb') as out:
                out.write(text)
            command = 'turn' if is_back else 'go'
            told = read_answer(program.call(command, source, HEAP, DEPTH, STEPS, timeout=SECONDS))
            lines = said(program, Wanted(source, HEAP, DEPTH, STEPS, None, is_back), told)
            return '\n'.join(lines).replace(source, name)
    except NoProgram as missing:
        return str(missing)
    except (Killed, OutOfTime) as error:
        return f'the program did not end the run: {error or "it took too long"}'
