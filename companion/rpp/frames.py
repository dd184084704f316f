"""What a debugger shows of a text and of a moment: where statements begin and end, and which variables are fields.

Positions and values are those that the program printed; the text is asked only what is written at a place."""
from typing import Dict, List, Optional, Tuple

from .source import Source, Statement, parsed
from .trace import Moment

Pair = Tuple[str, str]


class Statements:
    """The statements of a text by their places, and the parameters and locals that are visible at each."""

    def __init__(self, text: bytes):
        self.source: Source = parsed(text)
        self.by_place: Dict[int, Statement] = {}
        self.visible: Dict[int, List[str]] = {}
        for method in self.source.methods():
            self._enter(method.body, [each.name for each in method.parameters])

    def _enter(self, block: List[Statement], names: List[str]):
        for each in block:
            place = self.source.tokens[each.first].at
            own = [each.variable.name] if each.variable is not None else []
            self.by_place[place] = each
            # (the points of a `construct` are those of its `new` and `delete`, where its variable is there)
            self.visible[place] = names + own if each.form == 'construct' else names
            for inner in each.blocks:
                self._enter(inner, names + own)

    def end_of_head(self, place: int) -> int:
        """Where the statement ends; of one with blocks, where its head does."""
        tokens, each = self.source.tokens, self.by_place.get(place)
        if each is None:
            return place
        if each.variable is not None:
            return tokens[each.variable.name_at].end
        heads = [at for at in each.closers if tokens[at].text in ('then', 'do')]
        return tokens[heads[0] if heads else each.last].end

    def begin_between(self, first: int, last: int) -> List[int]:
        """The places of statements that begin between two bytes, in order."""
        return sorted(each for each in self.by_place if first <= each < last)

    def names_within(self, place: int) -> List[str]:
        """The parameters and locals that are visible in the blocks of the statement at a place."""
        each = self.by_place.get(place)
        return self.visible.get(place, []) + ([each.variable.name] if each is not None and each.form == 'local' else [])

    def parted(self, moment: Moment, names: Optional[List[str]] = None) -> Tuple[List[Pair], List[Pair]]:
        """The fields of the current object, and the parameters and locals, of a moment; `names` are the latter where they are not
        those of its place."""
        every = list(moment.variables)
        if names is None:
            names = self.visible.get(moment.point.place, []) if moment.point.place is not None else []
        cut = len(every) - len(names)
        if cut < 0 or [name for name, _ in every[cut:]] != names:
            return every, []
        return every[:cut], every[cut:]


def statement_on(statements: Statements, first: int) -> Optional[int]:
    """The place of the first statement that begins at this byte or after it."""
    return min((each for each in statements.by_place if each >= first), default=None)
