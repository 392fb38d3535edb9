// What the page shows before a program runs.
import { button, make, plural, withCode } from './dom.js';
import { answersIn } from './session.js';

// The first example is the way in; a program of one's own comes after it.
export function welcomeView(examples, { open, pick }) {
  const exampleButton = (example, at) => button(`.example${at === 0 ? '.main' : ''}`, { onclick: () => pick(at) },
    make('strong', at === 0 ? `Try this one first: ${example.title.toLowerCase()}` : example.title), make('span', withCode(example.story.split('\n\n')[0])));
  return make('article.welcome',
    make('h2', 'Find the wrong procedure by answering questions'),
    make('p', 'Your program prints the wrong thing? pasask runs it, remembers every call, and asks you about a few of them: ',
      make('em', 'did this call do what it should?'), ' Your answers lead it to the procedure with the mistake.'),
    make('ul.examples', examples.map((example, at) => make('li', exampleButton(example, at)))),
    make('h3', 'Or use your own program'),
    make('p', button('', { onclick: open }, 'Open a Pascal program\u2026'), make('span.quiet', ' or drop it anywhere on this page. It stays on your computer.')));
}

// A program is there and has not run yet.
export function waitingView({ run, wantsInput }) {
  return make('article.welcome', make('p', button('.main', { onclick: run }, 'Run this program'), make('span.quiet', ' and let it ask.')),
    wantsInput ? make('p', 'It reads input, and there is none: put it in below the program first.') : null);
}

export function storyView(example, isOpen) {
  return make('details.story', { open: isOpen }, make('summary', example.title), example.story.split('\n\n').map((text) => make('p', withCode(text))));
}

// The offer of the last session, whose answers the browser kept.
export function offerView(kept, { goOn, close }) {
  return make('div.notice', { role: 'status' }, make('p', `Your answers on ${kept.name} are still here: ${plural(answersIn(kept.lines).length, 'answer')}.`),
    make('p', button('.main', { onclick: goOn }, 'Go on with them'), ' ', button('', { onclick: close }, 'Not now')));
}

const KEYS = [
  ['R', 'right: the call did what it should'], ['W', 'wrong: it did not'], ['D', 'don\u2019t know: ask about others'], ['T', 'trust this routine: all its calls are right'],
  ['A', 'the answer is for all calls that were asked the same'], ['P', 'ask the right program, or choose one'], ['B', 'take back the last answer'], ['/', 'find a call'], ['C', 'go to the calls; arrows move, Enter opens'], ['Q', 'go to the question'], ['S', 'go to the program; Escape leaves it'],
  ['Ctrl+Enter', 'run the program'],
];

// What stands around the program that was proved, see docs/PAGE.md.
function trustedView(isProved) {
  const proved = isProved ? 'Every question, card, trace and verdict is printed by a proved program. ' : 'This is a trial build: the program inside was not proved. ';
  return [make('h3', { id: 'trustedTitle', tabindex: -1 }, 'What is trusted'),
    make('p', proved, 'What stands around that program was only tested: the compiler that made it fit for browsers, the memory that it gets, the addresses, which are cut to 32 bits, the worker that hands its texts in '
      + 'and out, this page, which folds and draws them, and your browser. Your program, its input and your answers never leave this computer.')];
}

export function helpView(isProved, close) {
  return [make('h2', { id: 'helpTitle' }, 'How it works'),
    make('p', 'Each question shows what a call was given, what it read, and what it left. Judge only that: what the call did, with all the calls that it made, on what it was given. '
      + 'A call that got nonsense and made nonsense of it is right, if it did what it was written for. A call that was given good values and left bad ones is wrong.'),
    make('p', 'Do not judge its text. That is what your answers find out: in the end, one call is wrong although all that it called is right, and the mistake is in the body of that routine.'),
    make('p', 'A card tells what a call looked at. What it should have looked at and did not is not there.'),
    make('p', 'Of all that a call left, you may see that one value is wrong. Press \u201cwrong\u201d beside it: the call counts as wrong, and the calls below it that had no part in that value are left out, so that less is asked. '
      + 'Press it only beside what is there and wrong. Where something is missing, press Wrong below the card: the call that forgot it had no part in what is there, and would be left out.'),
    make('p', 'Where a routine was called several times on the same values, the question says so. Tick the box beside the answers, and your answer is for all these calls.'),
    make('p', 'If you have a program that does it right, choose it below the answers. It is then asked about a call by one press: its routine of the same name is run on what this call was given and found, '
      + 'and the call is right if it did the same. Where it has no such routine, or the call worked on something that only this program has, it says so, and you judge the call yourself. Whether that program is right, nobody checks.'),
    make('h3', 'Keys'),
    make('table.keys', make('tbody', KEYS.map(([key, said]) => make('tr', make('th', { scope: 'row' }, make('kbd', key)), make('td', said))))),
    trustedView(isProved),
    make('p', button('.main', { onclick: close }, 'Close'))];
}
