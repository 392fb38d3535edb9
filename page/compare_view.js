// The offer to compare a question with a call that was judged, and in words what came of it.
import { offerOf, outcomeOf } from './compare.js';
import { button, make } from './dom.js';
import { waiting } from './look_view.js';
import { ANSWER_OF, comparedSaid } from './words.js';

function outcomeView({ judged, asked, mark }, carries, { tree, cards }) {
  const outcome = outcomeOf(carries, tree, cards.get(asked), cards.get(judged));
  const { word, key } = ANSWER_OF[mark];
  const answer = outcome === 'same' ? [' ', make('strong', word), ' ', make('kbd', key)] : null;
  return make('p', { 'data-outcome': outcome }, comparedSaid(outcome, judged), answer);
}

// One line with a button, and below it what came; or null where there is nothing to compare with.
export function compareView(dialog, context) {
  const offer = offerOf(dialog);
  if (offer === null) return null;
  const { judged, asked, mark } = offer;
  const known = dialog.carryKnown(judged, asked);
  const said = make('div', { role: 'status' }, known === null ? null : outcomeView(offer, known, dialog));
  const act = button('.small', { 'aria-label': `Compare with call ${judged}`, 'aria-disabled': String(known !== null) }, 'Compare');
  const able = (is) => act.setAttribute('aria-disabled', String(!is));
  act.addEventListener('click', async () => {
    if (act.getAttribute('aria-disabled') === 'true') return;
    able(false);
    said.replaceChildren(waiting());
    const carries = await dialog.compare(judged, asked);
    said.replaceChildren(...(carries === null ? [] : [outcomeView(offer, carries, dialog)]));
    able(carries === null);
  });
  return make('div.compare', make('p', button('.link', { onclick: () => context.choose(judged), title: 'Look at this call' }, `Call ${judged}`), ' of ',
    make('code', dialog.cards.get(asked).name), ` was judged ${mark}. Did it do the same as this one? `, act), said);
}
