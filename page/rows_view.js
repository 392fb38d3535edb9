// Rows of a card for the eye: values, texts, lists and tables, each with a button that looks at the whole variable, and where it was
// changed with one that says that it is wrong.
import { fold, make, plural } from './dom.js';
import { ABSENT, differs, GONE, NO_VALUE, THERE } from './fold_card.js';
import { lookOf } from './look_view.js';
import { nameAt, variableSaid } from './names.js';
import { wrongOf } from './wrong_view.js';

const MOST_ROWS = 12;
const MOST_PARTS = 2000;

const SAID = { [NO_VALUE]: 'no value', [GONE]: 'disposed of', [THERE]: 'there, not read', [ABSENT]: 'not there' };

export function valueView(value, isText = false) {
  if (value === null) return make('span.untold', { title: 'The card does not tell what was there before.' }, '\u2013');
  if (SAID[value] !== undefined) return make('span.quiet', SAID[value]);
  if (isText) return make('span', make('span.quote', '\u201c'), value, make('span.quote', '\u201d'));
  return value.startsWith('at ') ? make('span', make('span.quiet', 'stands for '), value.slice(3)) : value;
}

function labelView(label) {
  const root = nameAt(label)?.root ?? label;
  const { name, owner } = variableSaid(root);
  return [make('code', name + label.slice(root.length)), owner === '' ? null : make('span.owner', ` ${owner}`)];
}

// What is so short stays on one line.
const SHORT = 28;

function changeView(row, isChange) {
  const isText = row.shape === 'text';
  const cell = `td${(row.before ?? '').length + (row.after ?? '').length <= SHORT ? '.short' : '.long'}`;
  if (!isChange || row.before === row.after) return make(cell, valueView(row.after ?? row.before, isText));
  if (row.before === null) return make(cell, make('span.quiet', row.after === GONE ? '' : 'set to '), make('strong', valueView(row.after, isText)));
  return make(cell, make('span.old', valueView(row.before, isText)), make('span.to', ' \u2192 '),
    make('strong', valueView(row.after, isText)));
}

function listView(row, isChange) {
  const isTwo = isChange && row.cells.some((it) => it.before !== null && differs(it));
  const kind = (it, which) => (isChange && which === 'after' && differs(it) ? '.changed' : '');
  const cell = (which) => (it) => make(`td${kind(it, which)}`, valueView(it[which] ?? (which === 'after' ? it.before : null)));
  const line = (head, which) => make('tr', make('th', { scope: 'row' }, head), row.cells.map(cell(which)));
  return make('td', make('div.scroll', make('table.list',
    make('thead', make('tr', make('td'), row.heads.map((head) => make('th', { scope: 'col' }, head)))),
    make('tbody', isTwo ? [line('before', 'before'), line('after', 'after')] : line(isChange ? 'set to' : '', 'after')))));
}

function partView(part, isChange) {
  if (part === null) return make('td');
  if (isChange && part.cells.some(differs)) {
    const before = part.before === null ? null : [make('span.old', valueView(part.before, part.isText)), ' \u2192 '];
    return make('td.changed', before, valueView(part.after, part.isText));
  }
  return make('td', valueView(part.after ?? part.before, part.isText));
}

function tableView(row, isChange) {
  return make('td', make('div.scroll', make('table.list',
    make('thead', make('tr', make('td'), row.heads.map((head) => make('th', { scope: 'col' }, head)))),
    make('tbody', row.lines.map((line) => make('tr', make('th', { scope: 'row' }, `[${line.head}]`), line.parts.map((part) => partView(part, isChange))))))));
}

// All parts of a long list, a few thousand at most, one below the other.
function allOf(row, isChange) {
  const rows = row.cells.slice(0, MOST_PARTS).map((cell) => make('tr', make('th', { scope: 'row' }, make('code', cell.name)),
    changeView({ shape: 'value', before: cell.before, after: cell.after }, isChange)));
  return make('div.scroll.tall', make('table.cells', make('tbody', rows)),
    row.cells.length > MOST_PARTS ? make('p.quiet', `and ${row.cells.length - MOST_PARTS} more: see the card as printed`) : null);
}

function rowView(row, isChange, looking, sayWrong) {
  const content = row.shape === 'list' ? listView(row, isChange) : row.shape === 'table' ? tableView(row, isChange) : changeView(row, isChange);
  if (row.leftOut > 0) content.append(fold('.more', `${plural(row.leftOut, 'more part')}`, () => allOf(row.whole, isChange)));
  const cells = [make('th', { scope: 'row' }, labelView(row.label)), content];
  const wrong = wrongOf(row.label, (row.whole ?? row).cells, sayWrong);
  const look = looking === null || row.name === null ? { act: null, below: null } : lookOf(row, looking, rowsView);
  const acts = [look.act, wrong?.act].filter((act) => act);
  return [make('tr', cells, acts.length === 0 ? null : make('td.act', make('div.acts', acts))), look.below,
    wrong === null || wrong.below === null ? null : make('tr', make('td', { colspan: 3 }, wrong.below))];
}

// `looking` is what can be looked at beside the rows, see look_view.js, and `sayWrong(name)` says that one of them is wrong; or null.
export function rowsView(rows, isChange, looking = null, sayWrong = null) {
  const table = (some) => make('table.cells', make('tbody', some.map((row) => rowView(row, isChange, looking, sayWrong))));
  const rest = rows.slice(MOST_ROWS, MOST_ROWS + MOST_PARTS);
  return [table(rows.slice(0, MOST_ROWS)), rest.length > 0 ? fold('.more', `${plural(rows.length - MOST_ROWS, 'more variable')}`, () => table(rest)) : null];
}
