// What stands in the middle: the question with its card, or the verdict, and what is left to ask.
import { alikeView } from './alike_view.js';
import { cardParts } from './card_view.js';
import { compareView } from './compare_view.js';
import { button, make, plural } from './dom.js';
import { nameOf } from './call_table.js';
import { lineOfCall } from './trace.js';
import { mostQuestions, questionOf } from './forecast.js';
import { traceView } from './trace_view.js';
import { verdictView } from './verdict_view.js';
import { KEPT_SAID, counted } from './words.js';

const JUDGE = 'Judge what this call did with what it got, and with all the calls that it made. How it is written does not matter yet.';
const JUDGE_ONE = ' If you see which value is wrong, press \u201cwrong\u201d beside it: then less is asked.';

const MANY = 5;
const MOST_SHARE = 0.5;

// The suspects, as the page counts them; null where that is not what the command says.
function ownSuspects(dialog) {
  if (dialog.tree === null || dialog.questionCall < 0) return null;
  return dialog.suspects.length === dialog.report.suspects ? dialog.suspects : null;
}

export function progressOf(dialog) {
  const { report, shown } = dialog;
  const first = shown.questions.length > 0 ? Math.max(...shown.questions.map((question) => question.suspects)) : 0;
  if (report === null || report.kind !== 'ask') return { text: 'No call is left to ask about.', share: 1 };
  const suspects = ownSuspects(dialog);
  const isOurs = suspects !== null && suspects.length <= 2000 && suspects[questionOf(dialog.tree, suspects).at] === report.call;
  const most = isOurs ? mostQuestions(dialog.tree, suspects) : null;
  const least = Math.ceil(Math.log2(report.suspects + 1));
  const forecast = most === 1 ? 'this is the last question' : `at most ${plural(most ?? 0, 'question')}, this one included`;
  const questions = most === null ? `${plural(least, 'question')} or more` : forecast;
  return { text: `${plural(report.suspects, 'call')} may be to blame \u00b7 ${questions}`, share: 1 - Math.log(report.suspects + 1) / Math.log(first + 2) };
}

// Where one routine makes most suspects, trusting it saves most questions.
export function hintView(dialog, context) {
  const suspects = ownSuspects(dialog);
  if (suspects === null || suspects.length < MANY) return null;
  const { routine: routines, names } = dialog.tree;
  const counts = new Int32Array(names.length);
  for (let at = 0; at < suspects.length; at += 1) counts[routines[suspects[at]]] += 1;
  const count = Math.max(...counts);
  const routine = counts.indexOf(count);
  if (count < suspects.length * MOST_SHARE || count === suspects.length) return null;
  const name = dialog.tree.names[routine];
  return make('p.hint', `${counted(count)} of these ${counted(suspects.length)} calls are of `, make('code', name), '. If you are sure of it, ',
    button('.link', { onclick: () => context.say(`trust #${routine}`) }, `trust ${name}`), '.');
}

// Who made a call, and on which line, once that is known.
export const whereView = (card, dialog, context) => make('p.where', madeBy(card, dialog, context));

function madeBy(card, dialog, context) {
  if (card.parent === null) return 'the program itself, from its first line to its last';
  const parent = dialog.tree === null ? '' : nameOf(dialog.tree, card.parent);
  const trace = dialog.traces.get(card.parent);
  const line = trace === undefined ? 0 : lineOfCall(trace, card.call);
  return [`call ${card.call}, made by `, button('.link', { onclick: () => context.choose(card.parent) }, make('code', parent)),
    line > 0 ? [' on ', button('.link', { onclick: () => context.showLine(line) }, `line ${line}`)] : null];
}

function commentView(routine) {
  if (routine === undefined || routine.comments.length === 0) return null;
  return make('blockquote.comment', make('span.label', 'its comment'), routine.comments.map((text) => make('p', text)));
}

export const routineOf = (dialog, outline, call) => (dialog.tree === null ? undefined : outline.routines[dialog.tree.routine[call]]);

// The answer that was given to this question before the program was changed. It is given again only on a press.
function keptView(report, context) {
  if (!report.kept) return null;
  return make('p.kept', `Before the program was changed, the answer to this question was \u201c${KEPT_SAID[report.kept]}\u201d. `,
    button('.small', { id: 'same', onclick: () => context.say(`${report.kept} ${report.call}`) }, 'The same again'));
}

export function questionView(dialog, outline, context) {
  const card = dialog.cards.get(dialog.questionCall);
  const routine = routineOf(dialog, outline, card.call);
  return make('article.card', { id: 'question', 'data-call': card.call, 'data-name': card.name },
    make('p.eyebrow', `Question ${dialog.shown.questions.length}`),
    make('h2', { tabindex: -1 }, 'Did ', make('code', card.name), ' do what it should?'),
    whereView(card, dialog, context),
    dialog.shown.questions.length === 1 ? make('p.judge', `${JUDGE}${dialog.knowsSlice ? JUDGE_ONE : ''}`) : null,
    commentView(routine),
    keptView(dialog.report, context),
    compareView(dialog, context),
    alikeView(dialog, context),
    cardParts(card, context.cardContext(card.call)));
}

// Who gave the answer that counts for a call.
function judgeOf(call, entries) {
  const last = entries.filter((entry) => entry.standing && entry.call === call).at(-1);
  return last?.isReferred ? 'the right program' : 'you';
}

export function resultView({ report, cards, entries, leftOut }, context) {
  return verdictView(report, { card: cards.get(report.call), judge: judgeOf(report.call, entries) }, leftOut, context);
}

// A call that was chosen in the tree.
export function detailView(call, dialog, outline, context) {
  const card = dialog.cards.get(call);
  const trace = dialog.traces.get(call);
  if (card === undefined) return make('article.card', make('p.quiet', 'One moment\u2026'));
  const answer = (word, said) => button(`.small.${word}`, { onclick: () => context.say(`${word} ${call}`) }, said);
  return make('article.card', { 'data-call': call },
    make('header.row', make('h2', { tabindex: -1 }, make('code', card.name)), button('.small', { onclick: context.close, 'aria-label': 'Close this call' }, 'Close')),
    whereView(card, dialog, context),
    commentView(routineOf(dialog, outline, call)),
    cardParts(card, context.cardContext(call)),
    make('section.part', make('h3', 'What its body did'), trace === undefined ? make('p.quiet', '\u2026') : traceView(trace, context)),
    make('section.part', make('h3', 'Judge this call'), make('div.answerRow', answer('right', 'Right'), answer('wrong', 'Wrong'), answer('unknown', 'Don\u2019t know'),
      context.hasRight ? button('.small', { onclick: () => context.askRight(call) }, 'Ask the right program') : null)));
}

