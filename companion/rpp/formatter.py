"""Lays out a source text: the tokens and comments stay, indentation, spaces and blank lines are set.

The author's line breaks between statements are kept. A statement that is on one line stays on one line; the words
of one that is not begin lines of their own, and its blocks are indented by two spaces. A text that the grammar does not
derive is left as it is."""
from typing import Dict, List, NamedTuple, Optional, Tuple

from .source import Method, Source, Statement, parsed
from .tokens import Token, words

_NO_SPACE_BEFORE = frozenset([')', ']', ',', '::', '['])
_NO_SPACE_BEHIND = frozenset(['(', '[', '::'])


class Spot(NamedTuple):
    """How a token begins: always on a new line or where the author broke the line, how far in, after which gap."""

    is_first: bool
    level: int
    gap: str = '  '
    has_blank: bool = False


class Edit(NamedTuple):
    """What is written before a token, in the place of what is from byte to byte."""

    at: int
    begin: int
    end: int
    text: bytes


def column_of(text: bytes, at: int) -> int:
    return at - (text.rfind(b'\n', 0, at) + 1)


class _Layout:
    """Where lines begin, for each token that begins a part of a text that the grammar derives."""

    def __init__(self, source: Source):
        self.source = source
        self.spots: Dict[int, Spot] = {}
        self.joined = set()
        self.heads = set()
        for each in source.classes:
            self.spots[each.first] = Spot(True, 0, has_blank=True)
            for number, variable in enumerate(each.fields):
                self.spots[variable.type_at] = Spot(number == 0, 1)
            for method in each.methods:
                self.method(method)

    def method(self, method: Method):
        self.spots[method.first] = Spot(True, 0, has_blank=True)
        self.heads.add(method.name_at + 1)
        self.block(method.body, 1, True)

    def line_breaks(self, first: int, last: int) -> bool:
        tokens = self.source.tokens
        return self.source.text.find(b'\n', tokens[first].at, tokens[last].at) >= 0

    def block(self, block: List[Statement], level: int, is_broken: bool):
        """The statements of a block; `is_broken` if the block is not on the line of its head."""
        before_is_long = is_broken
        for number, each in enumerate(block):
            is_long = self.line_breaks(each.first, each.last)
            gap = '  ' if number else ' '
            self.spots[each.first] = Spot(is_broken and (number == 0 or is_long or before_is_long), level, gap)
            self.statement(each, level, is_long)
            before_is_long = is_long

    def statement(self, each: Statement, level: int, is_long: bool):
        tokens = self.source.tokens
        if each.form in ('call', 'uncall'):
            method = next(use.at for use in each.uses if use.kind == 'method')
            self.heads.add(method + 1)
        for at in each.closers:
            if tokens[at].text in ('then', 'do'):
                self.joined.add(at)
            else:
                self.spots[at] = Spot(is_long, level, ' ')
        for block in each.blocks:
            self.block(block, level + (not self.is_flat(each, block)), is_long)

    def is_flat(self, each: Statement, block: List[Statement]) -> bool:
        """Whether the author wrote one local below another, and not further in."""
        if each.variable is None or len(block) != 1 or block[0].variable is None:
            return False
        text, tokens = self.source.text, self.source.tokens
        return column_of(text, tokens[block[0].first].at) <= column_of(text, tokens[each.first].at)


class _Writer:
    """What is between the tokens: spaces, line feeds and comments, as the layout has them, token by token."""

    def __init__(self, layout: _Layout):
        self.layout = layout
        self.source = layout.source
        self.spots = layout.spots
        self.level = 0
        self.line_end = b'\r\n' if self.source.text.count(b'\r\n') * 2 > self.source.text.count(b'\n') else b'\n'
        # What is written since the last token, whether its line goes on, and how the line before began: None before the first.
        self.gap: List[str] = []
        self.is_open = False
        self.before: Optional[str] = None

    def edits(self) -> List[Edit]:
        """Where the text is not as the layout has it. Most tokens are on the line of the last one or begin the next, with no comment
        between; these take little time."""
        text, spots, heads, made = self.source.text, self.spots, self.layout.heads, []
        comments, read = self.source.comments, 0
        end, last, comment_at = 0, '', comments[0].at if comments else len(text)
        for at, (_, word, begin) in enumerate(self.source.tokens):
            old, spot = text[end:begin], spots.get(at)
            if spot is not None and not spot.has_blank and begin < comment_at and old.count(b'\n') == 1:
                new = self.next_line(spot.level)
            elif spot is not None or begin > comment_at or b'\n' in old:
                first = read
                while read < len(comments) and comments[read].at < begin:
                    read += 1
                comment_at = comments[read].at if read < len(comments) else len(text)
                self.gap_before(at, word, comments[first:read], end)
                new = self.taken()
            else:
                new = b'' if word in _NO_SPACE_BEFORE or last in _NO_SPACE_BEHIND or at in heads else b' '
            if old != new:
                made.append(Edit(at, end, begin, new))
            end, last = begin + len(word), word
        self.comments(comments[read:], end, None)
        self.end_line()
        new = self.taken()
        return made + [Edit(len(self.source.tokens), end, len(text), new)] * (text[end:] != new)

    def next_line(self, level: int) -> bytes:
        """The gap before a token that begins the line after that of the last token."""
        self.level, self.before = level, 'line'
        return self.line_end + b'  ' * level

    def gap_before(self, at: int, word: str, comments: List[Token], end: int):
        """Writes what is between the end of a token and this one."""
        if comments:
            self.comments(comments, end, at)
        self.token(at, word, max(end, comments[-1].end) if comments else end)
        self.is_open = True

    def taken(self) -> bytes:
        """What is written since the last token."""
        made = ''.join(self.gap).encode('utf-8', 'surrogateescape')
        self.gap.clear()
        return made if self.line_end == b'\n' else made.replace(b'\n', self.line_end)

    # ---- lines

    def end_line(self, begin: str = ''):
        """Ends the line, if one is open; `begin` is what the line begins with if that matters."""
        if self.is_open:
            self.gap.append('\n')
            self.is_open, self.before = False, begin or 'line'

    def blank_line(self):
        self.end_line()
        if self.before:
            self.gap.append('\n')
            self.before = ''

    def between(self, begin: int, end: int) -> int:
        """How many line feeds are between two bytes."""
        return self.source.text.count(b'\n', begin, end)

    # ---- comments

    def comments(self, before: List[Token], end: int, at: Optional[int]):
        """The comments between the token that ends at `end` and the token `at`, or the end of the text."""
        if before and end and not self.between(end, before[0].at):
            first, before = before[0], before[1:]
            gap = self.source.text[end : first.at].decode('latin-1')
            self.gap += [gap if set(gap) == {' '} and len(gap) > 2 else '  ', self.shown(first)]
            self.end_line()
            end = first.end
        for number, each in enumerate(before):
            spot = self.spots.get(at) if at is not None else Spot(True, 0, has_blank=True)
            self.end_line()
            level = self.level + 2 if spot is None else self.comment_level(before, number, at, spot)
            is_head = spot is not None and spot.has_blank and level == 0 and number == self.first_of_head(before, at)
            if self.between(end, each.at) > 1 or is_head and self.before is not None and at is not None:
                self.blank_line()
            self.gap += ['  ' * level, self.shown(each)]
            self.is_open = True
            self.end_line('' if level else '//')
            end = each.end

    def shown(self, comment: Token) -> str:
        text = self.source.text[comment.at : comment.end]
        return text.decode('utf-8', 'surrogateescape').rstrip()

    def first_of_head(self, before: List[Token], at: Optional[int]) -> int:
        """Which of these comments is the first that belongs to the class or method after them."""
        begin = self.source.tokens[at].at if at is not None else len(self.source.text)
        number = len(before)
        while number and self.between(before[number - 1].end, begin) <= 1:
            number -= 1
            begin = before[number].at
        return number

    def comment_level(self, before: List[Token], number: int, at: Optional[int], spot: Spot) -> int:
        """How far in a comment on a line of its own is: as what follows it, or as the block that ends there."""
        if not spot.has_blank:
            is_closer = at is not None and self.source.tokens[at].kind == 'keyword' and self.is_closer(at)
            return spot.level + is_closer
        column = column_of(self.source.text, self.source.tokens[at].at) if at is not None else 0
        is_own = at is not None and number >= self.first_of_head(before, at)
        return 0 if is_own or column_of(self.source.text, before[number].at) <= column else 1

    def is_closer(self, at: int) -> bool:
        return self.source.tokens[at].text in ('else', 'fi', 'loop', 'until', 'delocal', 'destruct')

    # ---- tokens

    def token(self, at: int, word: str, end: int):
        """What is before a token, after what ends at `end`: a new line, or a gap."""
        spot = self.spots.get(at)
        feeds = self.between(end, self.source.tokens[at].at)
        if spot is not None and (spot.is_first or feeds or not self.is_open):
            self.begin_line(spot, feeds)
        elif spot is not None:
            self.gap.append(spot.gap)
        elif not self.is_open or feeds and at not in self.layout.joined:
            self.end_line()
            self.gap.append('  ' * (self.level + 2))
        elif self.has_space(at, word):
            self.gap.append(' ')

    def begin_line(self, spot: Spot, feeds: int):
        self.end_line()
        if self.before is not None and (feeds > 1 or spot.has_blank and not (feeds == 1 and self.before == '//')):
            self.blank_line()
        self.level = spot.level
        self.gap.append('  ' * spot.level)

    def has_space(self, at: int, word: str) -> bool:
        before = self.source.tokens[at - 1].text
        return not (at == 0 or before in _NO_SPACE_BEHIND or word in _NO_SPACE_BEFORE or at in self.layout.heads)


def formatted(text: bytes) -> bytes:
    """The text laid out, or as it was, where the grammar does not derive it."""
    parts, end = [], 0
    for begin, behind, new in layout_edits(text, parsed(text)):
        parts += [text[end:begin], new]
        end = behind
    made = b''.join([*parts, text[end:]])
    # (tokens are the same by the way that they are written; where they were not, nothing would be changed)
    return made if words(made) == words(text) else text


def layout_edits(text: bytes, source: Source) -> List[Tuple[int, int, bytes]]:
    """What the layout changes between the tokens: from byte to byte, and what is there afterwards. Nothing where the grammar does
    not derive the text, or where tokens would change."""
    if not source.is_whole:
        return []
    edits = _Writer(_Layout(source)).edits()
    if not all(each.text.isspace() or parts_tokens(source.tokens, each) for each in edits):
        return []
    return [(begin, end, new) for _, begin, end, new in edits]


def parts_tokens(tokens: List[Token], edit: Edit) -> bool:
    """Whether the tokens before and after a gap stay two tokens."""
    around = [tokens[at].text.encode('latin-1') if 0 <= at < len(tokens) else b'' for at in (edit.at - 1, edit.at)]
    return words(edit.text.join(around)) == [each for each in around if each]
