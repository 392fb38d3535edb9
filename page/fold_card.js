// Folds the cells of a card for the eye: cells of one variable stand together, as a value, a text, a list, a record or a
// table. Each cell has what it held `before` and `after`; what a card does not tell is null.
import { charOf, indexOf, isHeap, isIndex, pointerOf } from './names.js';

const NOT_TOLD = null;
export const NO_VALUE = '?';
// These are no values of a program, which may have constants called `gone` and `there`.
export const GONE = '\0gone';
export const THERE = '\0there';
export const ABSENT = '\0absent';

// The cells of a card in order: what was met, then what was only left; `isSet` where the call wrote there.
export function cellsOf(card, asked = []) {
  const cells = new Map();
  const cellAt = ({ name, root, selectors }) => {
    if (!cells.has(name)) cells.set(name, { name, root, selectors, before: NOT_TOLD, after: NOT_TOLD, isSet: false, isLookedAt: false });
    return cells.get(name);
  };
  for (const met of card.met) {
    const cell = cellAt(met);
    cell.before = met.how === 'read' ? met.value : met.how === 'there' ? THERE : ABSENT;
    cell.after = cell.before;
  }
  for (const left of card.left) {
    const cell = cellAt(left);
    cell.after = left.gone ? GONE : left.value;
    cell.isSet = true;
  }
  // What was asked for besides: only where the card does not tell it.
  for (const state of asked) {
    const cell = cellAt(state);
    cell.isLookedAt ||= cell.after === NOT_TOLD;
    if (cell.before === NOT_TOLD) cell.before = state.before ?? ABSENT;
    if (cell.after === NOT_TOLD) cell.after = state.after ?? GONE;
  }
  return [...cells.values()];
}

export const differs = (cell) => cell.isSet && cell.before !== cell.after;

// The cells that a look at a variable tells of, each with what it held before the call and after it.
export const cellsSeen = (states) => states.map((state) => {
  const [before, after] = [state.before ?? ABSENT, state.after ?? GONE];
  return { ...state, before, after, isSet: before !== after };
});

// The cells as trees of variables: a node has a selector, and kids or a cell.
export function variablesOf(cells) {
  const roots = new Map();
  for (const cell of cells) {
    if (!roots.has(cell.root)) roots.set(cell.root, { selector: cell.root, kids: new Map(), cell: null });
    let node = roots.get(cell.root);
    for (const selector of cell.selectors) {
      if (!node.kids.has(selector)) node.kids.set(selector, { selector, kids: new Map(), cell: null });
      node = node.kids.get(selector);
    }
    node.cell = cell;
  }
  return [...roots.values()].map(withLists);
}

const withLists = (node) => ({ selector: node.selector, cell: node.cell, kids: inOrder([...node.kids.values()].map(withLists)) });

// Components of an array in the order of their numbers; others as they came.
function inOrder(kids) {
  const numbers = kids.map((kid) => Number(indexOf(kid.selector)));
  if (!kids.every((kid) => isIndex(kid.selector)) || numbers.some(Number.isNaN)) return kids;
  return kids.map((kid, at) => [numbers[at], kid]).sort(([a], [b]) => a - b).map(([, kid]) => kid);
}

export function leavesOf(node) {
  return node.kids.length === 0 ? [node.cell] : [...(node.cell === null ? [] : [node.cell]), ...node.kids.flatMap(leavesOf)];
}

const isLeaf = (node) => node.kids.length === 0;
const hasIndices = (node) => !isLeaf(node) && node.cell === null && node.kids.every((kid) => isIndex(kid.selector));
const hasFields = (node) => !isLeaf(node) && node.cell === null && node.kids.every((kid) => !isIndex(kid.selector));

const isCharOrNothing = (value) => value === NOT_TOLD || value === NO_VALUE || charOf(value) !== null;
const isText = (node) => hasIndices(node) && node.kids.length > 1 && node.kids.every((kid) => isLeaf(kid)
  && isCharOrNothing(kid.cell.before) && isCharOrNothing(kid.cell.after)) && leavesOf(node).some((cell) => charOf(cell.after ?? cell.before ?? '') !== null);

// Indices that follow one another, so that a text with holes is several pieces.
function runsOf(kids) {
  const runs = [];
  for (const kid of kids) {
    const run = runs[runs.length - 1];
    const isNext = run !== undefined && Number(indexOf(run[run.length - 1].selector)) + 1 === Number(indexOf(kid.selector));
    if (isNext || (run !== undefined && Number.isNaN(Number(indexOf(kid.selector))))) run.push(kid); else runs.push([kid]);
  }
  return runs;
}

function textOf(kids, which) {
  const values = kids.map((kid) => kid.cell[which]);
  if (values.every((value) => value === NOT_TOLD)) return NOT_TOLD;
  if (values.every((value) => value === NO_VALUE)) return NO_VALUE;
  return values.map((value) => (value === NOT_TOLD || value === NO_VALUE ? '\u00b7' : charOf(value))).join('');
}

// What a row is a part of, by the name that the command has for it: of one component or field the variable around it.
function nameAround({ root, selectors }) {
  return root + selectors.slice(0, -1).join('');
}

function textRows(label, node) {
  return runsOf(node.kids).map((kids) => {
    const [first, last] = [indexOf(kids[0].selector), indexOf(kids[kids.length - 1].selector)];
    const range = runsOf(node.kids).length === 1 ? '' : kids.length === 1 ? `[${first}]` : `[${first}..${last}]`;
    const cells = kids.map((kid) => kid.cell);
    return { shape: 'text', label: label + range, name: label, before: textOf(kids, 'before'), after: textOf(kids, 'after'), cells };
  });
}

// The cell by which a routine finds its copy of an array that it was given tells no more than that the copy is its own.
const isOwnCopy = ({ name, before }) => before === `at ${name}`;

// The rows of one variable. `label` is how it is called so far.
function rowsOf(label, node) {
  if (!isLeaf(node) && node.cell !== null) return [...rowsOf(label, { ...node, kids: [] }), ...rowsOf(label, { ...node, cell: null })];
  if (isLeaf(node)) return [{ shape: 'value', label, name: nameAround(node.cell), before: node.cell.before, after: node.cell.after, cells: [node.cell] }];
  if (isText(node)) return textRows(label, node);
  if (hasIndices(node) && node.kids.length > 1 && node.kids.every(isLeaf)) {
    return [{ shape: 'list', label, name: label, heads: node.kids.map((kid) => indexOf(kid.selector)), cells: leavesOf(node) }];
  }
  if (hasIndices(node) && node.kids.length > 1 && node.kids.every((kid) => hasFields(kid) && kid.kids.every((it) => isLeaf(it) || isText(it)))) {
    return [tableOf(label, node)];
  }
  return node.kids.flatMap((kid) => rowsOf(label + kid.selector, kid));
}

// An array of records: a row for each, a column for each field.
function tableOf(label, node) {
  const heads = [...new Set(node.kids.flatMap((kid) => kid.kids.map((it) => it.selector)))];
  const lines = node.kids.map((kid) => ({
    head: indexOf(kid.selector),
    parts: heads.map((head) => {
      const part = kid.kids.find((it) => it.selector === head);
      if (part === undefined) return null;
      if (isLeaf(part)) return { before: part.cell.before, after: part.cell.after, isText: false, cells: [part.cell] };
      return { before: textOf(part.kids, 'before'), after: textOf(part.kids, 'after'), isText: true, cells: leavesOf(part) };
    }),
  }));
  return { shape: 'table', label, name: label, heads: heads.map((head) => head.slice(1)), lines, cells: leavesOf(node) };
}

const MOST_SHOWN = 40;

// Of a long list only what differs, and how many are left out.
function shortened(row) {
  if (row.shape === 'list' && row.cells.length > MOST_SHOWN) {
    const kept = row.cells.map((cell, at) => at).filter((at) => differs(row.cells[at]));
    const shown = (kept.length > 0 ? kept : row.cells.map((cell, at) => at)).slice(0, MOST_SHOWN);
    return { ...row, whole: row, heads: shown.map((at) => row.heads[at]), cells: shown.map((at) => row.cells[at]), leftOut: row.cells.length - shown.length };
  }
  if (row.shape === 'table' && row.lines.length > MOST_SHOWN) {
    const changed = row.lines.filter((line) => line.parts.some((part) => part !== null && part.cells.some(differs)));
    const lines = (changed.length > 0 ? changed : row.lines).slice(0, MOST_SHOWN);
    return { ...row, whole: row, lines, leftOut: row.lines.length - lines.length };
  }
  return row;
}

export const rowsOfCells = (cells) => variablesOf(cells).flatMap((node) => rowsOf(node.selector, node)).map(shortened);

// A parameter is no variable before the call or after it. What it stands for may be one, or what it points at.
function nameGiven(value) {
  if (value.startsWith('at ')) return value.slice(3);
  const pointer = pointerOf(value);
  return pointer === null ? null : `^${pointer}`;
}

function rowsGiven(cells) {
  const rows = rowsOfCells(cells.map((cell) => ({ ...cell, before: cell.value, after: cell.value, isSet: false })));
  return rows.map((row) => ({ ...row, name: row.shape === 'value' ? nameGiven(row.after) : null }));
}

// A card as sections of rows: what the routine was given; what it changed, with what was there before; what it read and
// left alone; what it wrote again with the value of before. `heap` are the cells of variables that `new` made. A row has the
// `name` of the variable that can be looked at beside it, or null.
export function foldCard(card) {
  const cells = cellsOf(card).filter((cell) => !isOwnCopy(cell));
  const plain = cells.filter((cell) => !isHeap(cell.root));
  const changedRoots = new Set(plain.filter(differs).map((cell) => cell.root));
  const writtenRoots = new Set(plain.filter((cell) => cell.isSet).map((cell) => cell.root));
  const heap = cells.filter((cell) => isHeap(cell.root));
  return {
    given: rowsGiven(card.given),
    changed: rowsOfCells(plain.filter((cell) => changedRoots.has(cell.root))),
    rewritten: rowsOfCells(plain.filter((cell) => !changedRoots.has(cell.root) && writtenRoots.has(cell.root))),
    read: rowsOfCells(plain.filter((cell) => !writtenRoots.has(cell.root))),
    heap,
    heapChanged: rowsOfCells(heap.filter(differs)),
    heapRead: rowsOfCells(heap.filter((cell) => !differs(cell))),
  };
}
