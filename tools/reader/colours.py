"""Code in colours, with its names as links."""
import html
import re

KEYWORDS = {
    'antt': 'use pub mod abbrev unfoldable opaque pattern record data where module mutual let in do infixl infixr infix as λ',
    'rt': 'as break const continue else enum false fn for if impl in let loop match mod move mut pub ref return self Self '
          + 'static struct super trait true type use where while crate dyn ghost requires ensures decreases invariant',
    'rpp': 'class inherits method int nil if then else fi from do loop until construct destruct local delocal call uncall new delete '
           'copy uncopy skip',
}
COMMENTS = {'antt': r'--(?=\s|$).*', 'rt': r'//.*', 'rpp': r'//.*', 'sh': r'(?<!\S)#.*', 'other': r'(?!)'}
TOKEN = r'(?P<comment>{})|(?P<text>"(?:[^"\\]|\\.)*")|(?P<number>\b\d[\d_]*(?:u\d+)?\b)|(?P<word>[A-Za-z_λ][\w\']*)'


def language_of(path):
    ending = path.rsplit('.', 1)[-1]
    return ending if ending in KEYWORDS else 'sh' if ending in ('sh', 'bash', 'console', 'shell') else 'other'


class Colours:
    """The colours of one language."""

    def __init__(self, language):
        self.keywords = set(KEYWORDS.get(language, '').split())
        self.token = re.compile(TOKEN.format(COMMENTS.get(language, COMMENTS['other'])))
        self.is_plain = language in ('other', 'sh')

    def kind(self, found):
        """The class of a token, or none."""
        if found.lastgroup != 'word':
            return None if self.is_plain and found.lastgroup != 'comment' else found.lastgroup
        word = found.group(0)
        return 'keyword' if word in self.keywords else 'type' if word[0].isupper() and not self.is_plain else None

    def spans(self, line):
        """(start, end, class) of the coloured tokens of a line."""
        for found in self.token.finditer(line):
            kind = self.kind(found)
            if kind:
                yield found.start(), found.end(), kind

    def line(self, line, links=()):
        """A line as HTML. `links` has (start, end, address, title) in any order; none lies across another."""
        links = sorted(links)
        spans = [it for it in self.spans(line) if not any(start < it[1] and it[0] < end for start, end, _, _ in links)]
        parts, at = [], 0
        for start, end, *rest in sorted([*spans, *links]):
            if start < at:
                continue
            parts.append(html.escape(line[at:start], quote=False))
            text = html.escape(line[start:end], quote=False)
            if len(rest) == 2:
                title = f' title="{html.escape(rest[1])}"' if rest[1] else ''
                parts.append(f'<a href="{html.escape(rest[0])}"{title}>{text}</a>')
            else:
                parts.append(f'<span class="{rest[0]}">{text}</span>')
            at = end
        return ''.join(parts) + html.escape(line[at:], quote=False)
