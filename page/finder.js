// Finding calls: by name, value or output, for which cards are asked for, and by a line of the source, for which traces are.
import { briefOf } from './card_view.js';
import { button, byId, plural } from './dom.js';
import { RANK } from './engine.js';
import { callsFound, callsOfLine, lineAsked } from './find_calls.js';

// Of a run with so few calls all cards are asked for at once; of no run more than these.
const ALL_CARDS = 500;
const MOST_CARDS = 20_000;

export class Finder {
  constructor(desk) {
    this.desk = desk;
    // Whether somebody waits for the cards of all calls.
    this.isLoading = false;
  }

  get isSmall() {
    const { tree } = this.desk.dialog;
    return tree !== null && tree.parent.length <= ALL_CARDS;
  }

  // Whether calls are left whose cards can be asked for.
  get isPartial() {
    const { tree, dialog } = this.desk;
    return dialog.tree !== null && tree.briefs.size < Math.min(dialog.tree.parent.length, MOST_CARDS) - 1;
  }

  async loadBriefs(rank = RANK.asked) {
    const { dialog, tree } = this.desk;
    const { tree: calls } = dialog;
    if (!this.isPartial || this.isLoading) return;
    this.isLoading = rank !== RANK.later;
    const asks = [];
    for (let call = 0; call < Math.min(calls.parent.length, MOST_CARDS); call += 1) asks.push({ kind: 'show', call });
    const isThere = await dialog.fetch(asks, rank);
    if (rank !== RANK.later) this.isLoading = false;
    if (!isThere || dialog.tree !== calls) return;
    for (const [call, card] of dialog.cards) if (call > 0) tree.briefs.set(call, briefOf(card));
    tree.paint();
    this.find();
  }

  find() {
    const { dialog, tree, source } = this.desk;
    const query = byId('query').value.trim();
    const line = lineAsked(query);
    if (dialog.tree === null || query === '') {
      byId('foundCount').replaceChildren();
      if (tree.found !== null) tree.setFound(null);
      return;
    }
    const found = line > 0
      ? callsOfLine(dialog.tree, source.outline.routines, line, (call) => (dialog.traces.has(call) ? dialog.traces.get(call).counts.has(line) : null))
      : callsFound(dialog.tree, query, tree.briefs);
    tree.setFound(found);
    const isPartial = line === 0 && this.isPartial;
    byId('foundCount').replaceChildren(plural(found.length, 'call'),
      ...(isPartial ? [' ', button('.link', { onclick: () => this.loadBriefs() }, 'search values and output too')] : []));
    if (line > 0) this.loadTraces(found, query);
    else if (isPartial && this.isSmall) this.loadBriefs();
  }

  // Which calls ran a line is in their traces; of a small run these are asked for.
  async loadTraces(calls, query) {
    const { dialog } = this.desk;
    const asks = Array.from(calls, (call) => ({ kind: 'trace', call })).filter((ask) => !dialog.traces.has(ask.call));
    if (asks.length === 0 || asks.length > ALL_CARDS || !dialog.isQuick) return;
    if (await dialog.fetch(asks) && byId('query').value.trim() === query) this.find();
  }

  findLine(line) {
    if (this.desk.dialog.tree === null) return;
    byId('query').value = `line ${line}`;
    this.desk.showPane('calls');
    this.find();
  }
}
