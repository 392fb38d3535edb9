// The source with line numbers, colours and marks. The editor is a plain text area with clear letters; the coloured ones
// lie below it, and only the lines that are seen are made.
import { byId, make } from './dom.js';
import { outlineOf } from './pascal.js';
import { Scroller } from './scroller.js';

const INPUT_WORDS = new Set(['read', 'readln', 'eof', 'eoln', 'get']);
const NO_MARKS = { routine: null, counts: null, refusal: null, callLine: 0, faultLine: 0 };

export class SourceView {
  constructor({ onEdit, onLine }) {
    this.area = byId('source');
    this.gutter = byId('gutter');
    this.under = byId('under');
    this.marks = NO_MARKS;
    this.area.addEventListener('input', () => { this.read(); onEdit(); });
    this.gutter.addEventListener('click', (event) => {
      const line = Number(event.target.closest('[data-line]')?.dataset.line ?? 0);
      if (line > 0) onLine(line);
    });
    this.seen = new Scroller(this.area, () => this.paint());
    this.read();
  }

  get text() {
    return this.area.value;
  }

  set text(text) {
    this.area.value = text;
    this.seen.scrollTo(0);
    this.read();
  }

  read() {
    const text = this.area.value;
    this.starts = [0];
    for (let at = text.indexOf('\n'); at >= 0; at = text.indexOf('\n', at + 1)) this.starts.push(at + 1);
    this.outline = outlineOf(text);
    this.marks = NO_MARKS;
    this.seen.shrink();
    this.paint();
  }

  // Whether the program seems to read input.
  get readsInput() {
    return this.outline.tokens.some((token) => token.kind === 'word' && INPUT_WORDS.has(token.text));
  }

  // Marks some lines, and brings one of them into sight.
  mark(marks, line = 0) {
    this.marks = { ...NO_MARKS, ...marks };
    if (line > 0) this.bring(line);
    this.paint();
  }

  unmark() {
    if (this.marks === NO_MARKS) return;
    this.marks = NO_MARKS;
    this.paint();
  }

  lineText(line) {
    const end = line < this.starts.length ? this.starts[line] - 1 : this.area.value.length;
    return this.area.value.slice(this.starts[line - 1] ?? end, end);
  }

  // Brings a line into sight, near the top.
  bring(line) {
    const { top, height, lineHeight } = this.seen;
    const at = (line - 1) * lineHeight;
    const isSeen = at >= top && at + 3 * lineHeight <= top + height;
    if (!isSeen) this.seen.scrollTo(Math.max(0, at - 3 * lineHeight));
  }

  show(line) {
    this.bring(line);
    this.paint();
  }

  // Puts the caret on a line, for those who work by keys.
  focus(line) {
    this.area.focus();
    const at = this.starts[line - 1] ?? 0;
    this.area.setSelectionRange(at, at);
    this.show(line);
  }

  paint() {
    const { top, left, height, lineHeight } = this.seen;
    const first = Math.max(1, Math.floor(top / lineHeight));
    const last = Math.min(this.starts.length, Math.ceil((top + height) / lineHeight) + 1);
    const numbers = [];
    const lines = [];
    for (let line = first; line <= last; line += 1) {
      const kind = this.kindOf(line);
      numbers.push(make(`div${kind}`, { 'data-line': line, title: this.titleOf(line) }, this.noteOf(line), make('span', String(line))));
      lines.push(make(`div${kind}`, this.piecesOf(line)));
    }
    const from = (first - 1) * lineHeight - top;
    this.gutter.firstElementChild.replaceChildren(...numbers);
    this.gutter.firstElementChild.style.transform = `translateY(${from}px)`;
    this.under.firstElementChild.replaceChildren(...lines);
    this.under.firstElementChild.style.transform = `translate(${-left}px, ${from}px)`;
  }

  kindOf(line) {
    const { routine, counts, refusal, callLine, faultLine } = this.marks;
    if (refusal !== null && refusal.line === line) return '.refused';
    if (faultLine === line) return '.fault';
    if (callLine === line) return '.caller';
    if (counts !== null && counts.has(line)) return '.ran';
    return routine !== null && line >= routine.from && line <= routine.to ? '.asked' : '';
  }

  titleOf(line) {
    const { counts, callLine, faultLine, refusal } = this.marks;
    if (refusal !== null && refusal.line === line) return 'The program is refused here';
    if (faultLine === line) return 'The run broke off here';
    if (callLine === line) return 'The call is made here';
    return counts !== null && counts.has(line) ? `begun ${counts.get(line)} times` : `Find the calls of line ${line}`;
  }

  noteOf(line) {
    const { counts, callLine, faultLine, refusal } = this.marks;
    if (faultLine === line || (refusal !== null && refusal.line === line)) return make('em.bad', '!');
    if (counts !== null && counts.has(line)) return make('em', `\u00d7${counts.get(line)}`);
    return callLine === line ? make('em.from', '\u2192') : null;
  }

  // The coloured pieces of a line.
  piecesOf(line) {
    const from = this.starts[line - 1];
    const text = this.lineText(line);
    const to = from + text.length;
    const { refusal } = this.marks;
    const pieces = [];
    let at = from;
    const add = (end, kind) => {
      if (end > at) pieces.push(kind === '' ? text.slice(at - from, end - from) : make(`span.${kind}`, text.slice(at - from, end - from)));
      at = Math.max(at, end);
    };
    for (let place = this.firstToken(from); place < this.outline.tokens.length; place += 1) {
      const token = this.outline.tokens[place];
      if (token.from >= to) break;
      add(Math.max(from, token.from), '');
      const isRefused = refusal !== null && refusal.line === line && token.from - from <= refusal.column && token.to - from > refusal.column;
      add(Math.min(to, token.to), isRefused ? 'refusedToken' : `pascal-${token.kind}`);
    }
    add(to, '');
    return pieces.length === 0 ? ' ' : pieces;
  }

  // The first token that ends after a place.
  firstToken(from) {
    const { tokens } = this.outline;
    let low = 0;
    let high = tokens.length;
    while (low < high) {
      const middle = (low + high) >> 1;
      if (tokens[middle].to <= from) low = middle + 1; else high = middle;
    }
    return low;
  }
}
