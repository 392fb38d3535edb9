// The tree of calls, or the calls that a search found. Only the rows that are seen are made, so half a million calls are
// no more work than a page of them.
import { make } from './dom.js';
import { MARKS, nameOf } from './call_table.js';
import { Scroller } from './scroller.js';

const SIGNS = { unjudged: '\u00b7', right: '\u2713', wrong: '\u2717', unknown: '?', trusted: '\u2605', leftOut: '\u2013' };
const SAID = { unjudged: '', right: 'right', wrong: 'wrong', unknown: 'could not be judged', trusted: 'trusted', leftOut: 'left out: it had no part in what was wrong' };
const OPENED_AT_FIRST = 60;

export class TreeView {
  constructor(box, { onChoose }) {
    this.box = box;
    this.inside = box.firstElementChild;
    this.onChoose = onChoose;
    box.addEventListener('click', (event) => this.clicked(event));
    box.addEventListener('keydown', (event) => this.pressed(event));
    this.tree = null;
    this.seen = new Scroller(box, () => this.paint());
    this.clear();
  }

  clear() {
    this.tree = null;
    this.rows = new Int32Array(0);
    this.found = null;
    this.asked = -1;
    this.accused = -1;
    this.chosen = -1;
    this.cursor = 0;
    this.briefs = new Map();
    this.inside.replaceChildren();
    this.inside.style.height = '0';
    this.seen.scrollTo(0);
  }

  // A run's calls, which are shown with their marks. Of a small one all are open, of a large one the program's own.
  setTree(tree) {
    this.clear();
    this.tree = tree;
    this.open = new Uint8Array(tree.parent.length).fill(tree.parent.length <= OPENED_AT_FIRST ? 1 : 0);
    if (tree.parent.length > 0) this.open[0] = 1;
  }

  setMarks({ asked, accused }) {
    if (this.tree === null) return;
    this.asked = asked;
    this.accused = accused;
    this.reveal(asked >= 0 ? asked : accused);
  }

  // Opens all above a call and brings it into sight. -1 is no call.
  reveal(call) {
    if (this.found === null && call >= 0) {
      for (let at = this.tree.parent[call]; at >= 0; at = this.tree.parent[at]) this.open[at] = 1;
    }
    this.arrange();
    const place = this.rows.indexOf(call);
    if (place >= 0) this.moveTo(place); else this.paint();
  }

  choose(call) {
    this.chosen = call;
    if (this.tree !== null && call >= 0) this.reveal(call);
  }

  // Shows these calls alone, or the tree again.
  setFound(calls) {
    this.found = calls;
    this.cursor = 0;
    this.seen.scrollTo(0);
    this.arrange();
    this.paint();
  }

  // Which calls have a row, and how much room all rows take.
  arrange() {
    if (this.tree === null) return;
    this.rows = this.found ?? this.opened();
    this.inside.style.height = `${this.rows.length * this.seen.lineHeight}px`;
    this.seen.shrink();
    this.cursor = Math.min(this.cursor, Math.max(0, this.rows.length - 1));
  }

  // The calls of which all above are open, in order.
  opened() {
    const { last, parent } = this.tree;
    const rows = new Int32Array(parent.length);
    let count = 0;
    for (let call = 0; call < parent.length; call += 1) {
      rows[count] = call;
      count += 1;
      if (this.open[call] === 0) call = last[call];
    }
    return rows.slice(0, count);
  }

  paint() {
    if (this.tree === null) return;
    const { top, height, lineHeight } = this.seen;
    const first = Math.max(0, Math.floor(top / lineHeight) - 5);
    const last = Math.min(this.rows.length, Math.ceil((top + height) / lineHeight) + 5);
    const made = [];
    for (let place = first; place < last; place += 1) made.push(this.rowView(place));
    this.inside.replaceChildren(...made);
    this.box.setAttribute('aria-activedescendant', this.rows.length > 0 ? `row-${this.rows[this.cursor]}` : '');
  }

  rowView(place) {
    const call = this.rows[place];
    const { tree } = this;
    const hasKids = tree.last[call] > call;
    const isOpen = this.open[call] === 1;
    const mark = tree.leftOut?.has(call) ? 'leftOut' : MARKS[tree.mark[call]];
    const depth = this.found === null ? tree.depth[call] : 0;
    const classes = [call === this.asked ? 'asked' : '', call === this.accused ? 'accused' : '', call === this.chosen ? 'chosen' : '',
      place === this.cursor ? 'cursor' : ''].filter((it) => it !== '').map((it) => `.${it}`).join('');
    const notes = [SAID[mark], call === this.asked ? 'asked now' : '', call === this.accused ? 'the mistake is in it or below it' : ''].filter((it) => it !== '');
    const showsFold = this.found === null && hasKids;
    return make(`div.row${classes}`, {
      id: `row-${call}`, role: 'treeitem', 'data-call': call, 'aria-level': depth + 1, 'aria-selected': call === this.chosen ? 'true' : 'false',
      'aria-expanded': showsFold ? String(isOpen) : null,
      'aria-label': `${nameOf(tree, call)}${this.briefs.get(call) ?? ''}, call ${call}${notes.length > 0 ? `, ${notes.join(', ')}` : ''}`,
      style: `top: ${place * this.seen.lineHeight}px; --depth: ${Math.min(depth, 24)}`,
    }, make('span.twist', { 'aria-hidden': 'true' }, showsFold ? (isOpen ? '\u25be' : '\u25b8') : ''),
    make(`span.sign.${mark}`, { title: SAID[mark] }, SIGNS[mark]),
    make('span.name', nameOf(tree, call)), make('span.brief', this.briefs.get(call) ?? ''), make('span.space'),
    call === this.asked ? make('span.note', 'asked now') : null,
    call === this.accused ? make('span.note.bad', { title: 'It is wrong, so the mistake is in it or in a call below it' }, 'mistake in here') : null,
    make('span.number', String(call)));
  }

  // Where a row was made anew between press and release, the click is on what is around it.
  clicked(event) {
    const it = event.target.closest('.row') === null ? document.elementFromPoint(event.clientX, event.clientY) : event.target;
    const row = it?.closest('.row') ?? null;
    if (row === null) return;
    const call = Number(row.dataset.call);
    this.cursor = this.rows.indexOf(call);
    if (it.closest('.twist') !== null && this.tree.last[call] > call) this.setOpen(call, this.open[call] === 0);
    else this.onChoose(call);
  }

  setOpen(call, isOpen) {
    this.open[call] = isOpen ? 1 : 0;
    this.arrange();
    this.paint();
  }

  openAll(isOpen) {
    if (this.tree === null) return;
    this.open.fill(isOpen ? 1 : 0);
    this.open[0] = 1;
    this.reveal(this.asked >= 0 ? this.asked : this.accused);
  }

  moveTo(place) {
    this.cursor = Math.max(0, Math.min(this.rows.length - 1, place));
    const { top, height, lineHeight } = this.seen;
    const at = this.cursor * lineHeight;
    if (at < top) this.seen.scrollTo(at);
    else if (at + lineHeight > top + height) this.seen.scrollTo(at + lineHeight - height);
    this.paint();
  }

  pressed(event) {
    if (this.tree === null || this.rows.length === 0 || event.ctrlKey || event.metaKey || event.altKey) return;
    const call = this.rows[this.cursor];
    const page = Math.max(1, Math.floor(this.seen.height / this.seen.lineHeight) - 1);
    const hasKids = this.found === null && this.tree.last[call] > call;
    const acts = {
      ArrowDown: () => this.moveTo(this.cursor + 1),
      ArrowUp: () => this.moveTo(this.cursor - 1),
      PageDown: () => this.moveTo(this.cursor + page),
      PageUp: () => this.moveTo(this.cursor - page),
      Home: () => this.moveTo(0),
      End: () => this.moveTo(this.rows.length - 1),
      ArrowRight: () => (hasKids && this.open[call] === 0 ? this.setOpen(call, true) : this.moveTo(this.cursor + 1)),
      ArrowLeft: () => (hasKids && this.open[call] === 1 ? this.setOpen(call, false) : this.moveTo(this.rows.indexOf(this.tree.parent[call]))),
      Enter: () => this.onChoose(call),
      ' ': () => this.onChoose(call),
    };
    const act = acts[event.key];
    if (act === undefined) return;
    event.preventDefault();
    act();
  }
}
