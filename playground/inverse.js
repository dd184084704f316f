// The inverse program next to the editor: each line with the number of the line that it undoes, and a curve to it.
'use strict';

// Parentheses leave no node in the tree, so the printed text may have others: they are not counted.
const isCounted = text => text !== '(' && text !== ')';

class InverseView {
  constructor(root, editor, onTake) {
    Object.assign(this, { root, editor, isPaired: false, firsts: [] });
    this.list = made('ol');
    this.links = svg('svg', { class: 'links', 'aria-hidden': 'true' });
    this.told = made('p', { className: 'caption' });
    this.pane = made('div', { className: 'scroll', tabIndex: 0 }, this.list);
    this.pane.setAttribute('role', 'region');
    this.pane.setAttribute('aria-label', 'The inverse program');
    const take = made('button', { type: 'button', className: 'quiet', textContent: 'Put it into the editor', onclick: () => onTake(this.text) });
    root.append(made('div', { className: 'subbar' }, this.told, take), this.links, this.pane);
    this.pane.onscroll = () => this.later();
    editor.code.on('scroll', () => this.later());
    new ResizeObserver(() => this.later()).observe(root);
    this.list.onpointerover = event => this.hover(event.target.closest('li'));
    this.list.onpointerleave = () => this.hover(undefined);
    this.list.onclick = event => {
      const line = event.target.closest('li')?.source ?? -1;
      if (line >= 0) editor.code.scrollIntoView({ line, ch: 0 }, 80);
    };
  }

  // `source` is the editor's text, `normal` and `inverse` are what the program wrote.
  load(source, normal, inverse) {
    const lines = RooplSide.lines({ program: normal, inverse });
    Object.assign(this, { source, text: inverse });
    this.counted = source.tokens.map((token, index) => (isCounted(token.text) ? index : -1)).filter(index => index >= 0);
    this.rank = new Map(this.counted.map((index, at) => [index, at]));
    let token = 0;
    this.firsts = lines.program.map(line => {
      const first = token;
      token += line.text.match(TOKEN).filter(isCounted).length;
      return first;
    });
    this.isPaired = token === this.counted.length;
    this.pairs = lines.program.map(line => line.partner);
    this.told.textContent = this.isPaired ? 'Each line undoes the line whose number it has.' : 'The lines cannot be paired.';
    this.items = lines.inverse.map(line => this.item(line));
    this.list.replaceChildren(...this.items);
    this.later();
  }

  item(line) {
    const at = this.isPaired ? this.source.tokens[this.counted[this.firsts[line.partner]]].at : -1, source = at < 0 ? -1 : this.source.lineOf(at);
    const code = made('code', { className: 'cm-s-default' }, '  '.repeat(line.indent), ...coloured(line.text));
    const kind = /^(class|method) /.test(line.text) ? 'section' : '';
    return made('li', { source, className: kind }, made('span', { className: 'number', textContent: source < 0 ? '' : source + 1 }), code);
  }

  // The line of the inverse that belongs to a token of the text.
  itemOf(token) {
    if (!this.isPaired || token === undefined) return undefined;
    return this.items[this.pairs[lastUpTo(this.firsts, this.rank.get(token))]];
  }

  // Shows the line of a place in bytes as the present one.
  go(place, isUndone) {
    for (const item of this.list.querySelectorAll('.here')) item.classList.remove('here', 'undone');
    this.here = this.itemOf(this.source?.first(place));
    this.here?.classList.add('here');
    this.here?.classList.toggle('undone', isUndone);
    if (this.here && !this.root.hidden) this.reveal(this.here);
    this.later();
  }

  reveal(item) {
    const box = this.pane.getBoundingClientRect(), row = item.getBoundingClientRect();
    if (row.top < box.top + 40 || row.bottom > box.bottom - 40) this.pane.scrollTop += row.top - box.top - box.height / 2;
  }

  hover(item) {
    this.hovered = item;
    this.editor.hover(item?.source ?? -1);
    this.later();
  }

  later() {
    this.frame ??= requestAnimationFrame(() => {
      this.frame = undefined;
      this.draw();
    });
  }

  // Draws the curves of the lines that are in sight on both sides.
  draw() {
    if (this.root.hidden || !this.items) return;
    const box = this.links.getBoundingClientRect(), code = this.editor.code.getWrapperElement().getBoundingClientRect();
    const paths = box.width && code.width ? this.items.filter(it => it.source >= 0).map(item => this.path(item, box, code)).filter(Boolean) : [];
    paths.sort((one, other) => one.getAttribute('class').length - other.getAttribute('class').length);
    this.links.replaceChildren(...paths);
  }

  path(item, box, code) {
    const row = item.getBoundingClientRect(), pane = this.pane.getBoundingClientRect(), end = row.top + row.height / 2;
    if (end < pane.top || end > pane.bottom) return undefined;
    const line = this.editor.code.charCoords({ line: item.source, ch: 0 }, 'window'), start = (line.top + line.bottom) / 2, half = box.width / 2;
    if (start < code.top || start > code.bottom) return undefined;
    const here = `link here${item.classList.contains('undone') ? ' undone' : ''}`;
    const kind = item === this.here ? here : item === this.hovered ? 'link hovered' : 'link';
    return svg('path', { class: kind, d: `M0 ${start - box.top}C${half} ${start - box.top} ${half} ${end - box.top} ${box.width} ${end - box.top}` });
  }
}
