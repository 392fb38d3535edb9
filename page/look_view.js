// Looking at a variable: a button beside its row, and below it in words what the variable held before the call and after it,
// also where the call did not look at it.
//
// `rowsView` lays out rows, see rows_view.js.
import { button, make, makeSvg } from './dom.js';
import { cellsSeen, rowsOfCells } from './fold_card.js';
import { replySaid, stateSaid } from './words.js';

const WHY = 'what it held before this call and after it, also where the call did not look';

// The looks at a call's variables. `ask(name)` gives what the command says of a name, `{ name, cells, reply }`, or null where it
// could not. `shown` is what is shown, by the place where it was asked for. On paper there are no buttons.
export class Looking {
  constructor({ ask, shown, hasButtons }) {
    Object.assign(this, { ask, shown, hasButtons, onSeen: () => {} });
  }

  // What is there to be seen, after it was asked for; or null.
  async look(place, name) {
    const seen = await this.ask(name);
    if (seen === null) return null;
    this.shown.set(place, seen);
    this.onSeen();
    return seen;
  }

  // The cells of all looks.
  get cells() {
    return [...this.shown.values()].flatMap((seen) => seen.cells);
  }
}

const glass = () => makeSvg('svg', { viewBox: '0 0 16 16', width: 14, height: 14, 'aria-hidden': 'true' },
  makeSvg('circle', { cx: 6.5, cy: 6.5, r: 4.5 }), makeSvg('path', { d: 'M 10 10 L 14.5 14.5' }));

// Of a long run a look takes as long as an answer.
export const waiting = () => make('p.quiet', 'One moment\u2026');

// What came of a look, in words.
export function seenView({ name, cells, reply }, rowsView) {
  if (cells.length === 0) return make('p.quiet', replySaid(reply));
  if (cells.length === 1) return make('p', make('code', cells[0].name), ` ${stateSaid(cells[0])}`);
  const seen = cellsSeen(cells);
  const isChange = seen.some((cell) => cell.isSet);
  return [make('p', 'All of ', make('code', name), isChange ? ', before the call \u2192 after it:' : ', before the call and after it:'), rowsView(rowsOfCells(seen), isChange)];
}

// The button beside a row, and a row below it for what came.
export function lookOf(row, looking, rowsView) {
  const place = `row ${row.label}`;
  const said = make('div', { role: 'status' });
  const below = make('tr.looked', { hidden: true }, make('td', { colspan: 3 }, said));
  const show = (seen) => { below.hidden = false; said.replaceChildren(...[seenView(seen, rowsView)].flat(2).filter((it) => it !== null)); };
  if (looking.shown.has(place)) show(looking.shown.get(place));
  if (!looking.hasButtons) return { act: null, below };
  const act = button('.glass', { 'aria-label': `Look at ${row.name}`, title: `Look at ${row.name}: ${WHY}`, 'aria-expanded': String(!below.hidden), 'data-look': row.name }, glass());
  const open = (isOpen) => { below.hidden = !isOpen; act.setAttribute('aria-expanded', String(isOpen)); };
  act.addEventListener('click', async () => {
    if (!below.hidden) {
      looking.shown.delete(place);
      return open(false);
    }
    said.replaceChildren(waiting());
    open(true);
    const seen = await looking.look(place, row.name);
    if (seen === null) return open(false);
    // It may have been put away meanwhile.
    if (below.hidden) looking.shown.delete(place); else show(seen);
    return undefined;
  });
  return { act, below };
}

// What was looked at from a place of this kind, one below the other.
export function seenList(looking, kind, rowsView) {
  return [...looking.shown].filter(([place]) => place.startsWith(`${kind} `)).map(([, seen]) => make('div.seen', { 'data-seen': seen.name }, seenView(seen, rowsView)));
}

// A field for the name of any variable.
export function lookForm(looking, rowsView) {
  const list = make('div', { role: 'status' }, seenList(looking, 'form', rowsView));
  if (!looking.hasButtons) return list;
  const field = make('input', { type: 'text', size: 14, 'aria-label': 'Name of a variable', placeholder: 'such as a[1]', autocapitalize: 'off', autocomplete: 'off', spellcheck: 'false' });
  const ask = async (event) => {
    event.preventDefault();
    const name = field.value.trim();
    for (const [place, { cells }] of looking.shown) if (cells.length === 0) looking.shown.delete(place);
    list.append(waiting());
    if (name !== '') await looking.look(`form ${name}`, name);
    list.replaceChildren(...seenList(looking, 'form', rowsView));
  };
  return make('details.more.looking', { open: list.childElementCount > 0 }, make('summary', 'Look at a variable that is not here'),
    make('form.look', { onsubmit: ask }, make('label', 'Its name ', field), make('button.small', { type: 'submit' }, 'Look')), list);
}
