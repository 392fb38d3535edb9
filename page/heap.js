// The heap of a card as boxes and arrows: which there are before and after the call, what each holds, and where they
// stand in a drawing.
import { ABSENT, GONE, THERE } from './fold_card.js';
import { isHeap, pointerOf } from './names.js';

const MOST_BOXES = 60;

// The fields of a box: those seen, and of the record type that has them all those that were not looked at.
function fieldsOf(seen, records) {
  const names = seen.map((cell) => cell.selectors.join('').slice(1));
  const lower = names.map((name) => name.toLowerCase());
  const known = lower.length > 0 && records.find((record) => lower.every((name) => record.fields.includes(name.split(/[.[]/)[0])));
  if (!known) return { names, missing: [] };
  const firsts = new Set(lower.map((name) => name.split(/[.[]/)[0]));
  return { names, missing: known.fixed.filter((field) => !firsts.has(field)), order: known.fields };
}

function valueIn(cell, which) {
  const value = cell[which];
  return value === THERE || value === ABSENT || value === GONE ? null : value;
}

// Whether a box was there: null where the card does not tell.
function isThere(cells, which) {
  const values = cells.map((cell) => cell[which]).filter((value) => value !== null);
  if (values.length === 0) return null;
  return !values.every((value) => value === GONE || value === ABSENT);
}

// One side: `before` or `after`.
function sideOf(cells, pointers, which, records) {
  const boxes = new Map();
  const boxAt = (number) => {
    if (!boxes.has(number)) boxes.set(number, { number, cells: [], fields: [], isNew: false, isGone: false });
    return boxes.get(number);
  };
  for (const cell of cells) boxAt(Number(cell.root.slice(1, -1))).cells.push(cell);
  for (const box of boxes.values()) {
    const there = isThere(box.cells, which);
    const known = { before: isThere(box.cells, 'before'), after: isThere(box.cells, 'after') };
    box.isGone = there === false;
    box.isNew = which === 'after' && known.before === null && box.cells.every((cell) => cell.isSet) && known.after === true;
    box.isHidden = which === 'before' && there === null;
    box.fields = rowsIn(box.cells, which, records);
  }
  const roots = [];
  for (const pointer of pointers) {
    const target = pointerOf(pointer[which]);
    const isNil = pointer[which] === 'nil';
    if (target !== null) boxAt(target);
    if (target !== null || isNil) roots.push({ label: pointer.label, target, isChanged: which === 'after' && pointer.before !== pointer.after });
  }
  for (const box of [...boxes.values()]) for (const field of box.fields) if (field.target !== null && !box.isHidden) boxAt(field.target);
  for (const [number, box] of boxes) if (box.isHidden && !isReached(number, boxes, roots)) boxes.delete(number);
  return { boxes, roots };
}

function isReached(number, boxes, roots) {
  return roots.some((root) => root.target === number)
    || [...boxes.values()].some((box) => !box.isHidden && box.fields.some((field) => field.target === number));
}

function rowsIn(cells, which, records) {
  const { missing, order } = fieldsOf(cells, records);
  const rows = cells.map((cell) => {
    const value = valueIn(cell, which);
    return {
      name: cell.selectors.join('').replace(/^\./, ''), value, target: pointerOf(value), cell,
      isChanged: which === 'after' && cell.isSet && cell.before !== cell.after, isLookedAt: cell.isLookedAt,
    };
  });
  rows.push(...missing.map((name) => ({ name, value: null, target: null, cell: null, isChanged: false })));
  if (order !== undefined) {
    const place = (row) => order.indexOf(row.name.toLowerCase().split(/[.[]/)[0]);
    rows.sort((a, b) => place(a) - place(b));
  }
  return rows;
}

// The boxes in the order in which they are met from the variables on, each with how many arrows lead to it.
function layersOf({ boxes, roots }) {
  const level = new Map();
  const kids = new Map();
  const order = [];
  const visit = (number, depth) => {
    if (number === null || level.has(number) || order.length >= MOST_BOXES) return false;
    level.set(number, depth);
    order.push(number);
    return true;
  };
  const walk = (start) => {
    const queue = [start];
    while (queue.length > 0) {
      const number = queue.shift();
      const own = [];
      for (const field of boxes.get(number)?.fields ?? []) {
        if (visit(field.target, level.get(number) + 1)) {
          own.push(field.target);
          queue.push(field.target);
        }
      }
      kids.set(number, own);
    }
  };
  const starts = [];
  const from = (number) => {
    if (visit(number, 0)) {
      starts.push(number);
      walk(number);
    }
  };
  for (const root of roots) from(root.target);
  const pointedAt = new Set([...boxes.values()].flatMap((box) => box.fields.map((field) => field.target)));
  for (const number of boxes.keys()) if (!pointedAt.has(number)) from(number);
  for (const number of boxes.keys()) from(number);
  return { level, kids, starts, order };
}

const isList = ({ boxes }) => [...boxes.values()].every((box) => box.fields.filter((field) => field.target !== null).length <= 1);

// Where each box stands, in columns and rows: a list from left to right, a tree from the top down.
function placesOf(side) {
  const { level, kids, starts, order } = layersOf(side);
  const across = new Map();
  let next = 0;
  const place = (number) => {
    const own = kids.get(number) ?? [];
    if (own.length === 0) {
      across.set(number, next);
      next += 1;
      return;
    }
    own.forEach(place);
    const spots = own.map((kid) => across.get(kid));
    across.set(number, (spots[0] + spots[spots.length - 1]) / 2);
  };
  starts.forEach(place);
  const isAcross = isList(side);
  const spots = new Map(order.map((number) => {
    const [along, beside] = [level.get(number), across.get(number)];
    return [number, isAcross ? { column: along, row: beside } : { column: beside, row: along }];
  }));
  return { spots, isAcross };
}

// The drawing of a card, or null where it has no heap. `pointers` are the variables that hold pointers.
export function heapOf(cells, given, result, records) {
  const heap = cells.filter((cell) => isHeap(cell.root));
  const holds = (value) => pointerOf(value) !== null || value === 'nil';
  const pointers = [
    ...given.map((cell) => ({ label: cell.name, before: cell.value, after: null })),
    ...cells.filter((cell) => !isHeap(cell.root)).map((cell) => ({ label: cell.name, before: cell.before, after: cell.after })),
    ...(result === null ? [] : [{ label: 'its result', before: null, after: result }]),
  ].filter((pointer) => holds(pointer.before) || holds(pointer.after));
  const anyPointer = pointers.some((pointer) => pointerOf(pointer.before) !== null || pointerOf(pointer.after) !== null);
  if (heap.length === 0 && !anyPointer) return null;
  const sides = {};
  for (const which of ['before', 'after']) {
    const side = sideOf(heap, pointers, which, records);
    sides[which] = { ...side, ...placesOf(side), leftOut: Math.max(0, side.boxes.size - MOST_BOXES) };
  }
  return sides;
}

// The drawing in words, for those who do not see it.
export function heapSaid({ boxes, roots, spots }) {
  const said = roots.map((root) => `${root.label} is ${root.target === null ? 'nil' : `^${root.target}`}`);
  for (const number of spots.keys()) {
    const box = boxes.get(number);
    if (box.isGone) said.push(`^${number} is not there`);
    else if (box.fields.length === 0) said.push(`^${number} was not looked at`);
    else said.push(`^${number} has ${box.fields.map((field) => `${field.name || 'the value'} ${field.value ?? 'not looked at'}`).join(', ')}`);
  }
  return said.join('; ');
}
