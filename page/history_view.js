// The answers so far, each to look at or to take back.
import { button, fold, make, plural } from './dom.js';
import { nameOf } from './call_table.js';
import { answerOf } from './session.js';
import { OUTPUT_SAID, REFERRED, SAID_OF, sharedSaid } from './words.js';

// The entry that each session begins with: something is wrong, or nobody would ask.
export const isGiven = (entry) => entry.number === 1 && entry.kind === 'wrong' && entry.call === 0;

const MOST_CHARACTERS = 100;
// So many answers are shown at once, and so many of those before, or of the calls that one answer left out.
const MOST_SHOWN = 100;
const MOST_MORE = 1000;

// A field for the note on an entry: what you thought of it. It is saved with the session.
function noteForm(entry, context) {
  const field = make('input', { type: 'text', maxlength: MOST_CHARACTERS, 'aria-label': `Note on answer ${entry.number}` });
  field.value = entry.note ?? '';
  const put = (event) => {
    event.preventDefault();
    if (field.value.trim() !== '') context.say(`note ${entry.number} ${field.value.trim()}`);
  };
  return make('form', { onsubmit: put }, field, make('button.small', { type: 'submit' }, 'keep'));
}

const noteView = (entry, context) => [entry.note === undefined ? null : make('p.noted', entry.note),
  fold('.noting', entry.note === undefined ? 'add a note' : 'change the note', () => noteForm(entry, context))];

const callView = (call, tree, context) => button('.link', { onclick: () => context.choose(call), title: 'Look at this call' }, make('code', nameOf(tree, call)), ` call ${call}`);

// What an answer says to be wrong: a variable, or what a word stands for.
export const wrongView = ({ output, isVariable }) => (isVariable ? null : OUTPUT_SAID[output]) ?? make('code', output);

// The other calls that an answer is for or that it left out, each to look at or to be asked about after all.
function othersView({ sharedWith }, others, tree, context) {
  const isThere = others.filter((entry) => entry.standing && entry.call !== undefined);
  if (isThere.length === 0) return null;
  const askAgain = ({ number, call }) => button('.small', { onclick: () => context.takeBack(number), 'aria-label': `Ask about it after all: ${nameOf(tree, call)}, call ${call}` }, 'ask about it');
  const said = sharedWith === undefined ? `${plural(isThere.length, 'call')} left out` : sharedSaid(isThere.length);
  return fold('.noting', said, () => make(sharedWith === undefined ? 'ul.leftOut' : 'ul.shared',
    isThere.slice(0, MOST_MORE).map((entry) => make('li', callView(entry.call, tree, context), ' ', askAgain(entry))),
    isThere.length > MOST_MORE ? make('li.quiet', `and ${plural(isThere.length - MOST_MORE, 'more call')}`) : null));
}

function entryView(entry, others, tree, context) {
  const isTrust = entry.kind === 'trust';
  const name = isTrust ? (tree.names[entry.routine] ?? `#${entry.routine}`) : nameOf(tree, entry.call);
  const look = { onclick: () => context.choose(entry.call), title: 'Look at this call' };
  const about = isTrust ? make('code', name) : isGiven(entry) ? button('.link', look, 'the program ', make('code', name)) : callView(entry.call, tree, context);
  const what = isTrust ? name : `${name}, call ${entry.call}`;
  const takeBack = { onclick: () => context.takeBack(entry.number), 'aria-label': `Take back: ${what} ${SAID_OF[entry.kind]}` };
  return make(`li${entry.standing ? '' : '.gone'}`, { value: entry.number },
    make(`span.sign.${isTrust ? 'trusted' : entry.kind}`, { 'aria-hidden': 'true' }), about, ` ${SAID_OF[entry.kind]}${entry.isReferred ? REFERRED : ''}`, entry.output === undefined ? null : [': ', wrongView(entry)], isGiven(entry) && entry.standing ? ', to begin with' : '',
    entry.standing ? button('.small', takeBack, 'take back') : make('span.quiet', ' taken back'), othersView(entry, others, tree, context), noteView(entry, context));
}

// The other entries of an answer stand with it. Of very many answers the last ones are seen at once.
export function historyView(entries, tree, context) {
  const others = new Map();
  for (const entry of entries.filter((it) => answerOf(it) !== undefined)) {
    if (!others.has(answerOf(entry))) others.set(answerOf(entry), []);
    others.get(answerOf(entry)).push(entry);
  }
  const answers = entries.filter((entry) => answerOf(entry) === undefined);
  const views = (some) => some.map((entry) => entryView(entry, others.get(entry.number) ?? [], tree, context));
  const before = answers.slice(0, -MOST_SHOWN);
  return make('ol.history', before.length === 0 ? null : make('li.earlier', fold('.more', `${plural(before.length, 'answer')} before`, () => make('ol.history', views(before.slice(-MOST_MORE))))),
    views(answers.slice(-MOST_SHOWN)));
}
