// A verdict for the eye.
import { cardParts } from './card_view.js';
import { button, fold, make } from './dom.js';
import { traceView } from './trace_view.js';

function doubtsView(doubts, context) {
  return make('ul.doubts', doubts.map(({ call, name }) => make('li', button('.link', { onclick: () => context.choose(call) }, make('code', name), ` call ${call}`))));
}

const printed = (report) => fold('.raw', 'The verdict as it is printed', () => make('pre', report.text));

// What can be said of the calls that a call at fault made.
function callsSaid({ trace }, leftOut) {
  if (trace.calls.length === 0) return 'and it made no other call';
  return trace.calls.some((call) => leftOut.has(call)) ? 'although each call that it made is right, or had no part in what was wrong' : 'although each call that it made is right';
}

function foundView(report, { card, judge }, leftOut, context) {
  return make('article.card.verdict', { id: 'verdict', 'data-name': report.name },
    make('p.eyebrow', 'Found'),
    make('h2', { tabindex: -1 }, 'The mistake is in the body of ', make('code', report.name)),
    make('p', `Call ${report.call} is wrong, ${callsSaid(report, leftOut)}. `
      + `So look at these lines of ${report.name}, one by one: which of them did the wrong thing, or which one is missing? `
      + 'Then mend the program, and run it again.'),
    traceView(report.trace, context), printed(report),
    card === undefined ? null : make('section.part.judged', make('h3', `Call ${report.call}, as ${judge} judged it`), cardParts(card, { ...context.cardContext(report.call), sayWrong: null })));
}

const SAID = {
  narrowed: (report) => ({
    title: ['The mistake is in ', make('code', report.name), ' or below it'],
    text: `Call ${report.call} is wrong. The mistake is in its body, or in one of these calls, which could not be judged, or below them. If you can judge one now, do:`,
  }),
  unclear: () => ({
    title: ['It stays unclear'],
    text: 'No call is left that is judged wrong. The mistake may be in one of these calls, which could not be judged, or below them:',
  }),
  nothing: () => ({
    title: ['By these answers, nothing is wrong'],
    text: 'No call is left that is judged wrong or that could not be judged. If something is wrong after all, take back an answer.',
  }),
};

// `judged` has the `card` of the call that was found and who was its `judge`, and `leftOut` the calls that were left out.
export function verdictView(report, judged, leftOut, context) {
  if (report.kind === 'found') return foundView(report, judged, leftOut, context);
  const { title, text } = SAID[report.kind](report);
  return make(`article.card.verdict${report.kind === 'nothing' ? '.calm' : ''}`, { id: 'verdict', 'data-name': report.name ?? '' },
    make('p.eyebrow', report.kind === 'narrowed' ? 'Narrowed down' : 'The end'),
    make('h2', { tabindex: -1 }, title), make('p', text), doubtsView(report.doubts, context), printed(report));
}
