// The right program, which answers for the person where it can: choosing one, and what is said of it.
import { byId } from './dom.js';

const NONE = 'Do you have a program that does it right, such as your own solution, or last year\u2019s version? It can answer for you wherever it has a routine of the same name '
  + 'and with the same parameters, and the call worked on nothing but variables that both programs have. It stays on your computer.';
const ONE = 'It answers only when you ask it, one call at a time, and each of its answers can be taken back. It stays for the next program, too, until you choose another one or put it away.';

// What is seen where a question or a verdict is shown. `isShown`: whether the command can ask a right program; `isOpen`: whether it can be
// asked by now.
export function paintRight({ right, isForAll }, { isShown, isOpen }) {
  byId('rightBox').hidden = !isShown;
  byId('rightName').textContent = right === null ? '' : right.name;
  byId('rightSaid').textContent = right === null ? NONE : ONE;
  byId('putAway').hidden = right === null;
  for (const id of ['openRight', 'takeRight']) byId(id).setAttribute('aria-disabled', String(!isOpen));
  const ask = document.querySelector('#answers [data-say="refer"]');
  ask.hidden = !isShown || right === null;
  ask.title = isForAll ? 'It is asked about one call at a time' : `Let ${right?.name} judge this call`;
  if (isForAll) ask.setAttribute('aria-disabled', 'true');
}
