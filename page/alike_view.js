// The calls that were asked just the same as the one that is asked about, and the offer to answer for all of them at once.
import { MARKS, nameOf } from './call_table.js';
import { button, fold, make, plural } from './dom.js';
import { judgedSaid, othersSaid } from './words.js';

const MOST_SHOWN = 1000;

// What is known of them: another view is made only where that changes.
export const alikeKnown = ({ alike, questionCall, others }) => (alike.has(questionCall) ? String(others) : '');

// How many calls were judged, by the mark that they have.
function judgedIn(calls, { mark, leftOut }) {
  const marks = {};
  for (const call of calls) {
    const said = MARKS[mark[call]];
    if (['right', 'wrong', 'unknown'].includes(said) && !leftOut.has(call)) marks[said] = (marks[said] ?? 0) + 1;
  }
  return marks;
}

function listView(calls, tree, context) {
  const callView = (call) => make('li', button('.link', { onclick: () => context.choose(call), title: 'Look at this call' }, make('code', nameOf(tree, call)), ` call ${call}`));
  return make('ul', calls.slice(0, MOST_SHOWN).map(callView), calls.length > MOST_SHOWN ? make('li.quiet', `and ${plural(calls.length - MOST_SHOWN, 'more call')}`) : null);
}

// A sentence on them with a list; a button to look for them, where a turn takes long; or nothing. Null where the command knows no
// such line.
export function alikeView(dialog, context) {
  const { knowsAlike, tree, questionCall, others, canShare, isQuick } = dialog;
  if (!knowsAlike || tree === null) return null;
  const view = make('div.alike', { 'data-known': alikeKnown(dialog) });
  const calls = dialog.askedTheSame.filter((call) => call !== questionCall);
  if (others > 0) {
    view.append(make('p', othersSaid(others, canShare), judgedSaid(judgedIn(calls, tree), others)), fold('.noting', others === 1 ? 'Which call?' : 'Which calls?', () => listView(calls, tree, context)));
  } else if (!isQuick && dialog.asksAlike.length > 0) {
    view.append(button('.small', { onclick: () => context.findAlike() }, 'Look for calls that were asked the same'));
  } else if (!isQuick && dialog.alike.get(questionCall) !== undefined) {
    view.append(make('p', dialog.alike.get(questionCall) === null ? 'The calls of this run did too much to compare them all.' : 'No other call was asked the same.'));
  }
  return view;
}
