// A whole session on paper: the program, its input, each answer with its card, and the verdict.
import { cardParts } from './card_view.js';
import { make } from './dom.js';
import { nameOf } from './call_table.js';
import { wrongView } from './history_view.js';
import { answerOf, leftOutBy, sharedWith } from './session.js';
import { REFERRED, SAID_OF, leftOutSaid, sharedSaid } from './words.js';
import { verdictView } from './verdict_view.js';

const MOST_CARDS = 200;

// The answers that stand; the other entries of one are told with it.
const answersIn = (dialog) => dialog.entries.filter((entry) => entry.standing && answerOf(entry) === undefined);

// The calls of which a report has the cards.
export function callsInReport(dialog) {
  const calls = answersIn(dialog).filter((entry) => entry.kind !== 'trust').map((entry) => entry.call);
  return [...new Set(calls)].slice(0, MOST_CARDS);
}

function listing(text) {
  return make('ol.listing', text.trimEnd().split('\n').map((line) => make('li', make('code', line === '' ? ' ' : line))));
}

function leftOutView({ number, call }, { entries, tree }) {
  const count = leftOutBy(entries, number).filter((entry) => entry.standing).length;
  return make('p', leftOutSaid(count, tree.last[call] > call));
}

// For how many other calls an answer is, in the words that follow it.
function sharedView({ number }, { entries }) {
  const count = sharedWith(entries, number).filter((entry) => entry.standing).length;
  return count === 0 ? null : ` (${sharedSaid(count)})`;
}

function entryView(entry, dialog, context) {
  const isTrust = entry.kind === 'trust';
  const name = isTrust ? dialog.tree.names[entry.routine] : nameOf(dialog.tree, entry.call);
  const card = isTrust ? undefined : dialog.cards.get(entry.call);
  return make('section.entry', make('h3', `${entry.number}. `, make('code', name), isTrust ? '' : `, call ${entry.call},`, ` ${SAID_OF[entry.kind]}${entry.isReferred ? REFERRED : ''}`, entry.output === undefined ? null : [': ', wrongView(entry)], sharedView(entry, dialog)),
    entry.output === undefined ? null : leftOutView(entry, dialog),
    entry.note === undefined ? null : make('p.noted', entry.note),
    card === undefined ? null : cardParts(card, context.cardContext(entry.call)));
}

export function reportView(dialog, context) {
  const { session } = dialog;
  return [make('h1', `${session.name}: a session with pasask`),
    make('p', new Date().toLocaleDateString('en', { dateStyle: 'long' })),
    make('h2', 'The answers'), answersIn(dialog).map((entry) => entryView(entry, dialog, context)),
    dialog.report.kind === 'ask' ? make('p', 'Not all questions are answered yet.') : [make('h2', 'The verdict'), verdictView(dialog.report, {}, dialog.leftOut, context)],
    make('h2', 'The program'), listing(session.source.text),
    session.input.text === '' ? null : [make('h2', 'Its input'), make('pre', session.input.text)]];
}
