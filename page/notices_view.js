// What the page has to tell beside the question: refusals, failures, and that the program was changed.
import { nameOf } from './call_table.js';
import { button, make, withCode } from './dom.js';
import { wrongView } from './history_view.js';
import { answersIn, isReferred, isShared, leavesOut, leftOutBy, readsRight, rightOf, sharedWith } from './session.js';
import { REFERRED, SAID_OF, leftOutSaid, replySaid, sharedSaid, statusSaid } from './words.js';

const CONTEXT_CHARACTERS = 60;

// `kind` is `.bad` or nothing.
export function notice(kind, ...said) {
  return make(`div.notice${kind}`, { role: kind === '.bad' ? 'alert' : 'status' }, make('p', said));
}

// A line of a text, and a caret under the place.
function placeView({ line, column }, text) {
  const shown = text.split('\n')[line - 1] ?? '';
  const start = Math.max(0, column - CONTEXT_CHARACTERS);
  return make('pre', `${shown.slice(start)}\n${shown.slice(start, column).replace(/[^\t]/g, ' ')}^`);
}

// The sentence, the line, and a caret under the place.
function refusedNotice(refusal, source, { showLine }) {
  const view = notice('.bad', make('strong', withCode(refusal.said)));
  view.append(make('p', button('.link', { onclick: () => showLine(refusal.line) }, `Line ${refusal.line}`), ':'), placeView(refusal, source.text));
  return view;
}

// The same of a text that was to be a right program.
function rightRefusedNotice(refusal, { name, file }) {
  const view = notice('.bad', make('strong', `This is no right program: ${name}. `), withCode(refusal.said));
  view.append(make('p', `Line ${refusal.line}:`), placeView(refusal, file.text));
  return view;
}

function problemNotice({ problem, session }, refusal, acts) {
  if (problem.kind === 'stopped') return notice('', session.lines.length > 0 ? 'Stopped. Your answers are all here.' : 'Stopped.');
  if (refusal !== null) return refusedNotice(refusal, session.source, acts);
  const isTrap = problem.kind === 'trap';
  const view = isTrap ? notice('.bad', make('strong', 'This was too much for the browser.'), ' Your answers are all here; a smaller number of steps may help.')
    : notice('.bad', make('strong', statusSaid(problem.status, problem.text)));
  view.append(make('pre', problem.text.trimEnd()));
  return view;
}

function staleNotice(session, { putBack }) {
  const hasAnswers = answersIn(session.lines).length > 0;
  const view = notice('', 'You changed the program, its input or the steps. Run it again, and questions begin anew',
    hasAnswers || session.saved !== null ? '; where one reads as it did, your answer is offered again.' : '.');
  if (hasAnswers) view.append(make('p', button('', { onclick: putBack }, 'Put back what the answers are about')));
  return view;
}

// What the last answer left out, if it was one on a wrong output; or null.
function leftOutNotice({ session, entries, tree }, { takeBack }) {
  if (tree === null || !leavesOut(session.lines.at(-1) ?? '')) return null;
  const answer = entries.filter((entry) => entry.output !== undefined).at(-1);
  const { number, call } = answer;
  return notice('', `Call ${call} of `, make('code', nameOf(tree, call)), ' is wrong: ', wrongView(answer), '. ',
    leftOutSaid(leftOutBy(entries, number).length, tree.last[call] > call), ' ', button('.small', { onclick: () => takeBack(number) }, 'Take this back'));
}

// For how many calls the last answer was, if it was one for all that were asked the same; or null.
function sharedNotice({ session, entries, tree }, { takeBack }) {
  if (tree === null || !isShared(session.lines.at(-1) ?? '')) return null;
  const { sharedWith: number } = entries.at(-1);
  const { call, kind } = entries.find((entry) => entry.number === number);
  return notice('', `Call ${call} of `, make('code', nameOf(tree, call)), ` ${SAID_OF[kind]}. Your answer is ${sharedSaid(sharedWith(entries, number).length)}. `,
    button('.small', { onclick: () => takeBack(number) }, 'Take this back'));
}

// What the right program said of a call, if it was asked last; or that there is one now; or null.
function referredNotice({ session, entries, tree }, { takeBack }) {
  const line = session.lines.at(-1) ?? '';
  if (readsRight(line)) return notice('', make('strong', rightOf(session).name), ' can answer for you now: press \u201cAsk the right program\u201d below a question.');
  if (tree === null || !isReferred(line)) return null;
  const { number, call, kind } = entries.at(-1);
  return notice('', `Call ${call} of `, make('code', nameOf(tree, call)), ` ${SAID_OF[kind]}${REFERRED}. `, button('.small', { onclick: () => takeBack(number) }, 'Take this back'));
}

// `isStale`: the editor holds another text than the session. `refusal`: where and why the program is refused, or the right program.
export function noticesOf(dialog, isStale, refusal, acts) {
  const { problem, note, session, isBusy } = dialog;
  const notices = [];
  if (isBusy) notices.push(make('p.working', { role: 'status' }, 'Running\u2026'));
  else if (problem !== null && !(isStale && problem.kind === 'refused')) notices.push(problemNotice(dialog, refusal.own, acts));
  if (dialog.shown !== null && dialog.shown.isRepliesOnly && session.lines.length === 0) {
    notices.push(notice('', 'These answers were given on another text of the program. Where a question reads as it did, its answer is offered.'));
  }
  if (refusal.right !== null) notices.push(rightRefusedNotice(refusal.right, dialog.unread));
  else if (note !== '') notices.push(notice('', replySaid(note)));
  if (!isBusy && dialog.shown !== null) {
    const referred = note === '' ? referredNotice(dialog, acts) : null;
    notices.push(...[leftOutNotice(dialog, acts), sharedNotice(dialog, acts), referred].filter((it) => it !== null));
  }
  if (isStale && dialog.shown !== null) notices.push(staleNotice(session, acts));
  if (!dialog.isKept) notices.push(notice('', 'This browser cannot keep your answers: save them before you close the page.'));
  return notices;
}
