// The editor: CodeMirror with the highlighting of the project's grammar, and what the page marks in the text.
'use strict';

const STYLES = [['comment', 'comment'], ['keyword.operator', 'operator'], ['keyword', 'keyword'], ['storage', 'type'],
  ['constant.language', 'atom'], ['constant.numeric', 'number'], ['invalid', 'error']];
const HANG = 2;

// A mode of CodeMirror with the patterns of a TextMate grammar.
function defineMode(name, patterns) {
  const style = scope => STYLES.find(([start]) => scope.startsWith(start))?.[1] ?? null;
  const rules = patterns.map(({ match, name: scope }) => ({ regex: new RegExp(match), token: style(scope) }));
  CodeMirror.defineSimpleMode(name, { start: rules, meta: { lineComment: '//' } });
}

// The pieces of a line with their colours.
function coloured(text) {
  const mode = CodeMirror.getMode({}, 'rpp'), state = CodeMirror.startState(mode), stream = new CodeMirror.StringStream(text), pieces = [];
  while (!stream.eol()) {
    const style = mode.token(stream, state);
    pieces.push(made('span', { textContent: stream.current(), className: style ? `cm-${style}` : '' }));
    stream.start = stream.pos;
  }
  return pieces;
}

class Editor {
  // `keys` has functions by the names of CodeMirror; `onEdit` hears each change, and whether it was typed.
  constructor(area, patterns, keys, onEdit) {
    defineMode('rpp', patterns);
    // The tabulator leaves the editor, so that the keyboard reaches all of the page.
    const extraKeys = { Tab: false, 'Shift-Tab': false, 'Ctrl-/': 'toggleComment', 'Cmd-/': 'toggleComment',
      F9: code => this.toggleBreak(code.getCursor().line), ...keys };
    this.code = CodeMirror.fromTextArea(area, { mode: 'rpp', extraKeys, lineNumbers: true, lineWrapping: true, matchBrackets: true, indentUnit: 2,
      screenReaderLabel: 'Program text', gutters: ['breaks', 'CodeMirror-linenumbers', 'ways'] });
    Object.assign(this, { marks: [], lines: [], widget: undefined, breaks: new Set(), hueLines: [] });
    this.code.on('change', (_, change) => onEdit(change.origin !== 'setValue'));
    this.code.on('renderLine', (code, line, element) => this.hang(line, element));
    this.code.on('gutterClick', (_, line) => this.toggleBreak(line));
    this.onBreak = () => undefined;
  }

  get text() { return this.code.getValue(); }

  set text(text) {
    for (const handle of this.breaks) this.code.setGutterMarker(handle, 'breaks', null);
    this.breaks.clear();
    this.code.setValue(text);
  }

  // The rest of a long line is indented.
  hang(line, element) {
    const indent = (CodeMirror.countColumn(line.text, null, this.code.getOption('tabSize')) + HANG) * this.code.defaultCharWidth();
    element.style.textIndent = `-${indent}px`;
    element.style.paddingLeft = `${indent + 4}px`;
  }

  // To be called where the editor may have been hidden: what it shows is then drawn again.
  refresh() { this.code.refresh(); }

  // ---- breakpoints

  toggleBreak(line) {
    const handle = this.code.getLineHandle(line), isOn = !this.breaks.delete(handle);
    if (isOn) this.breaks.add(handle);
    this.code.setGutterMarker(handle, 'breaks', isOn ? made('div', { className: 'break', title: 'Breakpoint' }) : null);
    this.onBreak(line, isOn);
  }

  get breakLines() {
    return new Set([...this.breaks].map(handle => this.code.getLineNumber(handle)).filter(line => line !== null));
  }

  // ---- marks

  clear() {
    this.code.operation(() => {
      for (const mark of this.marks.splice(0)) mark.clear();
      for (const [handle, kind] of this.lines.splice(0)) this.code.removeLineClass(handle, 'background', kind);
      this.code.clearGutter('ways');
      this.widget?.clear();
      this.widget = undefined;
    });
  }

  markLine(line, kinds) {
    for (const kind of kinds.split(' ')) this.lines.push([this.code.addLineClass(line, 'background', kind), kind]);
  }

  markSpan(at, end, className) {
    this.marks.push(this.code.markText(this.code.posFromIndex(at), this.code.posFromIndex(end), { className }));
  }

  // Marks a span and its line, with a sign in the gutter.
  mark({ at, end }, kind, sign) {
    const { line } = this.code.posFromIndex(at);
    this.markSpan(at, end, kind.split(' ').map(it => `${it}-place`).join(' '));
    this.markLine(line, kind.split(' ').map(it => `${it}-line`).join(' '));
    if (sign) this.code.setGutterMarker(line, 'ways', made('div', { className: `way-mark ${kind}`, textContent: sign }));
  }

  // Marks the token at a place as that of a mistake.
  markMistake({ line, column }) {
    const end = Math.max(this.code.getTokenAt({ line, ch: column + 1 }).end, column + 1);
    this.marks.push(this.code.markText({ line, ch: column }, { line, ch: end }, { className: 'mistake-place' }));
    this.markLine(line, 'mistake-line');
  }

  // Shows an element below a line.
  tell(line, element) { this.widget = this.code.addLineWidget(line, element, { coverGutter: false }); }

  // Puts texts in the place of parts of the text, as one change that can be undone.
  change(parts) {
    const spots = parts.map(([first, behind, text]) => [text, this.code.posFromIndex(first), this.code.posFromIndex(behind)]);
    this.code.operation(() => { for (const spot of spots.reverse()) this.code.replaceRange(...spot, '*write'); });
  }

  // Scrolls to a line where it is not in sight; `room` lines below it are to be seen too.
  reveal(line, room = 3) {
    const { top, clientHeight } = this.code.getScrollInfo(), at = this.code.heightAtLine(line, 'local'), row = this.code.defaultTextHeight();
    if (at < top + 2 * row || at > top + clientHeight - room * row) this.code.scrollTo(null, Math.max(0, at - clientHeight / 2.5));
  }

  // Marks one line while the pointer is on what belongs to it.
  hover(line) {
    this.code.operation(() => {
      if (this.hovered) this.code.removeLineClass(this.hovered, 'background', 'hover-line');
      this.hovered = line >= 0 ? this.code.addLineClass(line, 'background', 'hover-line') : undefined;
    });
  }

  // Gives lines the colours of their code; without any, takes them away.
  colour(hues = new Map()) {
    this.code.operation(() => {
      for (const [handle, kind] of this.hueLines) this.code.removeLineClass(handle, 'background', kind);
      this.hueLines = [...hues].filter(([line]) => line < this.code.lineCount())
        .map(([line, hue]) => [this.code.addLineClass(line, 'background', `hue-${hue}`), `hue-${hue}`]);
    });
  }
}
