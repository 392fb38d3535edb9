// A card for the eye: what a call was given, read, changed, printed and returned, and how it ended.
import { bytesOfQuoted, wordsOf } from './card.js';
import { textOfBytes } from './bytes.js';
import { button, fold, make, plural } from './dom.js';
import { cellsOf, foldCard } from './fold_card.js';
import { heapOf } from './heap.js';
import { heapView } from './heap_view.js';
import { lookForm, seenList, waiting } from './look_view.js';
import { rowsView, valueView } from './rows_view.js';
import { endOf } from './words.js';
import { wrongOf, wrongWord } from './wrong_view.js';

const part = (title, ...kids) => make('section.part', make('h3', title), kids);
// `act` is a button on the whole part, or null.
const partWith = (act, title, ...kids) => make('section.part', act === null ? make('h3', title) : make('div.acts', make('h3', title), act), kids);

const quotedText = (quoted) => textOfBytes(bytesOfQuoted(quoted)).text;

function inputView(card, act) {
  if (card.looks === null && card.takes === null && !card.sawEnd) return null;
  const taken = card.takes === null ? '' : quotedText(card.takes);
  const ahead = card.looks === null ? '' : quotedText(card.looks).slice(taken.length);
  const notes = [ahead === '' ? null : make('p', 'It looked ahead at ', make('code', JSON.stringify(ahead)), ', and left that there.'),
    card.sawEnd ? make('p', 'It saw that the input ends there.') : null];
  return partWith(act, 'It read from the input', taken === '' ? make('p.quiet', 'nothing') : make('pre.text', taken), notes);
}

// The drawing, in which a box that the call did not look at can be asked for; what came is drawn, and said below.
function heapPart(folded, card, { records, looking, sayWrong }, words) {
  const drawn = () => heapOf(cellsOf(card, looking?.cells), card.given, card.result, records);
  if (drawn() === null) return null;
  const list = make('div', { role: 'status' }, looking === null ? null : seenList(looking, 'box', rowsView));
  const drawing = make('div', { tabindex: -1 });
  const look = looking === null || !looking.hasButtons ? null : async (name) => {
    list.append(waiting());
    await looking.look(`box ${name}`, name);
    list.replaceChildren(...seenList(looking, 'box', rowsView));
    drawing.focus({ preventScroll: true });
  };
  const draw = () => drawing.replaceChildren(heapView(drawn(), look));
  draw();
  if (looking !== null) looking.onSeen = draw;
  const rows = [...folded.heapChanged, ...folded.heapRead];
  const wrong = wrongOf('the variables made by new', folded.heap, sayWrong, words.filter((word) => word === 'makes'));
  return partWith(wrong?.act ?? null, 'Variables made by new', wrong?.below ?? null, drawing, list,
    rows.length === 0 ? null : fold('.more.asRows', 'the same as a list',
      () => [rowsView(folded.heapChanged, true, looking, sayWrong), rowsView(folded.heapRead, false, looking, sayWrong)]));
}

// The parts of a card after its heading. `context` has `records`, the record types of the source, `looking`, what can be
// looked at besides, or null, and `sayWrong(name)`, which says that something that the call left is wrong, or null.
export function cardParts(card, context) {
  const { looking, sayWrong } = context;
  const folded = foldCard(card);
  const words = wordsOf(card);
  const wrong = (word) => wrongWord(word, words, sayWrong);
  const end = endOf(card.end);
  const isQuiet = folded.changed.length === 0 && folded.heapChanged.length === 0 && card.gives === null && card.result === null && !end.isBad;
  return [
    folded.given.length === 0 ? null : part('It was given', rowsView(folded.given, false, looking)),
    folded.read.length === 0 ? null : part('It read', rowsView(folded.read, false, looking)),
    inputView(card, wrong('takes')),
    folded.changed.length === 0 ? null : part('It changed', rowsView(folded.changed, true, looking, sayWrong)),
    folded.rewritten.length === 0 ? null
      : fold('.more', `${plural(folded.rewritten.length, 'variable')} set to the value of before`, () => rowsView(folded.rewritten, false, looking, sayWrong)),
    heapPart(folded, card, context, words),
    card.gives === null ? null : partWith(wrong('gives'), 'It printed', make('pre.text', quotedText(card.gives))),
    card.result === null ? null : partWith(wrong('result'), 'Its result', make('p.result', make('code', valueView(card.result)))),
    isQuiet ? make('p.quiet', 'It changed nothing and printed nothing.') : null,
    make(`p.end${end.isBad ? '.bad' : ''}`, end.said, ' ', end.line > 0 ? button('.link', { onclick: () => context.showLine(end.line) }, `Show line ${end.line}`) : null, ' ', wrong('way')),
    card.odd.length === 0 ? null : make('pre.text', card.odd.join('\n')),
    looking === null ? null : lookForm(looking, rowsView),
    fold('.raw', 'The card as it is printed', () => make('pre', card.text)),
  ];
}

function briefValue(row) {
  if (row.shape === 'value') return row.after.replace(/^at /, '');
  return row.shape === 'text' && row.after !== null ? `'${row.after}'` : '..';
}

// What a routine is called with and gives, in a few letters: `better(3, 4) = true`.
export function briefOf(card) {
  const given = new Map();
  for (const row of foldCard({ ...card, met: [], left: [] }).given) {
    const { root } = row.cells[0];
    given.set(root, given.has(root) ? '..' : briefValue(row));
  }
  const result = card.result === null ? '' : ` = ${card.result}`;
  const printed = card.gives === null ? '' : ` ${card.gives.length > 24 ? `${card.gives.slice(0, 24)}\u2026` : card.gives}`;
  return (given.size === 0 ? '' : `(${[...given.values()].join(', ')})`) + result + printed;
}
