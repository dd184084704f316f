"""Turns the pages of the repository, which are Markdown, into HTML."""
import html
import re

LIST = re.compile(r'^(\s*)([-*]|\d+\.)\s+(.*)$')


def anchor_of(heading):
    """The name of a heading, as links write it."""
    plain = re.sub(r'\[([^]]*)\]\([^)]*\)', r'\1', heading)
    return re.sub(r'[^\w\- ]', '', plain.strip()).lower().replace(' ', '-')


class Page:
    """One page. `link(target)` gives the address of a link's target, and `code(text, language)` the HTML of a block of code."""

    def __init__(self, link, code):
        self.link, self.code, self.title, self.anchors = link, code, '', {}

    def inline(self, text):
        """A text with code, links, pictures and emphasis."""
        kept = []

        def keep(part):
            kept.append(part)
            return f'\0{len(kept) - 1}\0'

        text = re.sub(r'``(.+?)``|`([^`]+)`', lambda it: keep(f'<code>{html.escape((it[1] or it[2]).strip())}</code>'), text)
        text = html.escape(html.unescape(text), quote=False)
        text = re.sub(r'!\[([^\]]*)\]\(([^)\s]+)\)', lambda it: keep(f'<img src="{html.escape(self.link(it[2]))}" alt="{html.escape(it[1])}">'), text)
        text = re.sub(r'\[([^\]]*)\]\(([^)\s]+)\)', lambda it: f'{keep(self.opening(it[2]))}{it[1]}{keep("</a>")}', text)
        text = re.sub(r'\*\*(.+?)\*\*', r'<strong>\1</strong>', text)
        text = re.sub(r'(?<![\w*])\*(?!\s)([^*]+?)\*(?![\w*])', r'<em>\1</em>', text)
        text = re.sub(r'(?<![\w"=(])(https?://[^\s<>),]+[\w/])', r'<a href="\1">\1</a>', text)
        while '\0' in text:
            text = re.sub('\0(\\d+)\0', lambda it: kept[int(it[1])], text)
        return text

    def opening(self, target):
        return f'<a href="{html.escape(self.link(html.unescape(target)))}">'

    def table(self, rows):
        cells = [[it.replace('\\|', '|') for it in re.split(r'(?<!\\)\|', self.pipes(row.strip())[1:-1])] for row in rows]
        head = ''.join(f'<th>{self.inline(it.strip())}</th>' for it in cells[0])
        body = ''.join('<tr>' + ''.join(f'<td>{self.inline(it.strip())}</td>' for it in row) + '</tr>' for row in cells[2:])
        head = f'<thead><tr>{head}</tr></thead>' if any(it.strip() for it in cells[0]) else ''
        return f'<div class="wide"><table>{head}<tbody>{body}</tbody></table></div>'

    @staticmethod
    def pipes(row):
        """A row of a table; a bar within code belongs to the code."""
        return re.sub(r'`[^`]*`', lambda it: it.group(0).replace('\\|', '|').replace('|', '\\|'), row)

    def items(self, lines):
        """A list, whose items may hold lists."""
        found = [LIST.match(line) for line in lines]
        depth = len(found[0][1])
        groups = []
        for line, it in zip(lines, found):
            if it and len(it[1]) <= depth:
                groups.append([it[3]])
            else:
                groups[-1].append(line)
        kind = 'ol' if found[0][2][0].isdigit() else 'ul'
        return f'<{kind}>' + ''.join(f'<li>{self.item(group)}</li>' for group in groups) + f'</{kind}>'

    def item(self, group):
        at = next((number for number, line in enumerate(group) if number and LIST.match(line)), len(group))
        words = self.inline(' '.join(it.strip() for it in group[:at]))
        return words + (self.items(group[at:]) if at < len(group) else '')

    def heading(self, line):
        marks, _, text = line.partition(' ')
        self.title = self.title or re.sub(r'[`*]', '', text)
        anchor = anchor_of(text)
        count = self.anchors[anchor] = self.anchors.get(anchor, -1) + 1
        anchor = html.escape(f'{anchor}-{count}' if count else anchor)
        return f'<h{len(marks)} id="{anchor}">{self.inline(text)}</h{len(marks)}>'

    def fence(self, lines, at):
        """A block of code, and the index after it."""
        end = next((number for number in range(at + 1, len(lines)) if lines[number].startswith('```')), len(lines))
        return self.code('\n'.join(lines[at + 1:end]), lines[at].strip('` ')), end + 1

    def block(self, lines):
        """A block of lines between empty ones."""
        first = lines[0]
        if first.startswith('|'):
            return self.table(lines)
        if LIST.match(first):
            return self.items(lines)
        if first.startswith('>'):
            return f'<blockquote><p>{self.inline(" ".join(it.lstrip("> ") for it in lines))}</p></blockquote>'
        at = next((number for number, line in enumerate(lines) if number and (LIST.match(line) or line.startswith('|'))), len(lines))
        words = f'<p>{self.inline(" ".join(it.strip() for it in lines[:at]))}</p>'
        return words + (self.block(lines[at:]) if at < len(lines) else '')

    def html(self, text):
        """The HTML of a page."""
        lines, parts, at, kept = [it for it in text.split('\n') if not re.match(r'<!--.*-->$', it)], [], 0, []

        def end_block():
            if kept:
                parts.append(self.block(kept[:]))
                kept.clear()

        while at < len(lines):
            line = lines[at]
            if line.startswith('```'):
                end_block()
                part, at = self.fence(lines, at)
                parts.append(part)
                continue
            if re.match(r'#{1,6} ', line):
                end_block()
                parts.append(self.heading(line))
            elif line.strip():
                kept.append(line)
            elif kept and LIST.match(kept[0]) and at + 1 < len(lines) and re.match(r'\s+\S|[-*] |\d+\. ', lines[at + 1]) \
                    and not lines[at + 1].lstrip().startswith('```'):
                pass
            else:
                end_block()
            at += 1
        end_block()
        return '\n'.join(parts)
