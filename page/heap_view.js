// Draws the heap: a box for each variable that `new` made, an arrow for each pointer.
import { make, makeSvg } from './dom.js';
import { heapSaid } from './heap.js';

const LINE = 20;
const PAD = 8;
const LETTER = 7.8;
const GAP = { across: 46, down: 34 };
const HEAD = 21;

// What stands for a value that the card does not tell.
const NOT_SEEN = '\u00b7 \u00b7 \u00b7';

const shortText = (text, most = 18) => (text.length > most ? `${text.slice(0, most - 1)}\u2026` : text);

function sizeOf(box) {
  const lines = box.fields.map((field) => `${shortText(field.name)}  ${shortText(field.value ?? NOT_SEEN)}`);
  const widest = Math.max(6, ...lines.map((line) => line.length));
  return { width: widest * LETTER + 2 * PAD, height: HEAD + Math.max(1, box.fields.length) * LINE + PAD / 2 };
}

// The pixels of each box, by the widest of its column and the tallest of its row.
function framesOf(side) {
  const sizes = new Map([...side.spots.keys()].map((number) => [number, sizeOf(side.boxes.get(number))]));
  const width = Math.max(0, ...[...sizes.values()].map((size) => size.width));
  const height = Math.max(0, ...[...sizes.values()].map((size) => size.height));
  const frames = new Map();
  for (const [number, { column, row }] of side.spots) {
    frames.set(number, { ...sizes.get(number), x: column * (width + GAP.across), y: row * (height + GAP.down) });
  }
  return frames;
}

const isAskable = (box) => !box.isGone && (box.fields.length === 0 || box.fields.some((field) => field.value === null));

function fieldView(field, width, y, box) {
  const isUnseen = field.value === null;
  const kind = `${field.isChanged ? '.changed' : ''}${isUnseen ? '.unseen' : ''}${field.isLookedAt ? '.lookedAt' : ''}`;
  const said = isUnseen ? 'This call did not look at it, so its card does not tell it.' : field.isLookedAt ? `${field.value}, which this call did not look at` : field.value;
  return [
    makeSvg('text.name', { x: PAD, y }, shortText(field.name)),
    makeSvg(`text.value${kind}`, { x: width - PAD, y, 'text-anchor': 'end' }, isUnseen ? (box.isGone ? '' : NOT_SEEN) : shortText(field.value), makeSvg('title', said)),
  ];
}

function boxView(box, frame, look) {
  const state = box.isGone ? 'gone' : box.isNew ? 'new' : box.fields.length === 0 ? 'unseen' : 'plain';
  const group = makeSvg(`g.box.${state}`, { transform: `translate(${frame.x} ${frame.y})` },
    makeSvg('rect', { width: frame.width, height: frame.height, rx: 6 }),
    makeSvg('text.number', { x: PAD, y: 15 }, `^${box.number}${box.isNew ? '  new' : box.isGone ? '  gone' : ''}`));
  const rows = box.fields.length === 0 ? [{ name: '', value: null }] : box.fields;
  group.append(...rows.flatMap((field, at) => fieldView(field, frame.width, HEAD + at * LINE + 14, box)));
  if (look !== null && isAskable(box)) makeAskable(group, `^${box.number}`, look);
  return group;
}

// A box that can be pressed, by mouse and by keys.
function makeAskable(group, name, look) {
  group.classList.add('askable');
  for (const [key, value] of Object.entries({ role: 'button', tabindex: 0, 'aria-label': `Look at ${name}`, 'data-look': name })) group.setAttribute(key, value);
  group.addEventListener('click', () => look(name));
  group.addEventListener('keydown', (event) => {
    if (event.key !== 'Enter' && event.key !== ' ') return;
    event.preventDefault();
    look(name);
  });
}

// An arrow from a point to a box: straight on where the box lies ahead, and around where it lies behind or is the same.
function arrowView(from, frame, isAcross, isChanged, key) {
  const isAhead = isAcross ? frame.x > from.x : frame.y > from.y;
  const to = isAcross && isAhead ? { x: frame.x - 3, y: frame.y + HEAD - 6 } : { x: frame.x + frame.width / 2, y: frame.y - 3 };
  const path = !isAhead ? `C ${from.x + 34} ${from.y + 24}, ${to.x + 60} ${to.y - 44}, ${to.x} ${to.y}`
    : isAcross ? `C ${from.x + 24} ${from.y}, ${to.x - 24} ${to.y}, ${to.x} ${to.y}`
      : `C ${from.x} ${from.y + 18}, ${to.x} ${to.y - 18}, ${to.x} ${to.y}`;
  return makeSvg(`path.arrow${isChanged ? '.changed' : ''}`, { d: `M ${from.x} ${from.y} ${path}`, 'marker-end': `url(#tip${key}${isChanged ? 'c' : ''})` });
}

// The heads of arrows. Each drawing has its own.
function tips(key) {
  const tip = (kind) => makeSvg(`marker${kind}`, { id: `tip${key}${kind === '' ? '' : 'c'}`, viewBox: '0 0 8 8', refX: 6, refY: 4, markerWidth: 7, markerHeight: 7, orient: 'auto-start-reverse' },
    makeSvg('path', { d: 'M 0 0.8 L 7 4 L 0 7.2 z' }));
  return makeSvg('defs', tip(''), tip('.changed'));
}

// Where the arrow of a field begins: beside the field in a list, and in a tree at the foot of the box, from left to right.
function startOf(side, number, frame, at) {
  const { fields } = side.boxes.get(number);
  if (side.isAcross) return { x: frame.x + frame.width, y: frame.y + HEAD + at * LINE + 9 };
  const pointing = fields.map((field, place) => place).filter((place) => fields[place].target !== null);
  return { x: frame.x + (frame.width * (pointing.indexOf(at) + 1)) / (pointing.length + 1), y: frame.y + frame.height };
}

// The variables that point into the heap, each above or beside the box that it points at.
function rootsView(side, frames, origin) {
  const group = makeSvg('g.roots');
  const beside = new Map();
  side.roots.forEach((root) => {
    const frame = root.target === null ? null : frames.get(root.target);
    const key = root.target === null ? 'nil' : root.target;
    const place = beside.get(key) ?? 0;
    beside.set(key, place + 1);
    if (frame === undefined || frame === null) return;
    const [x, y] = [frame.x + 2, frame.y - 14 - place * 17];
    group.append(makeSvg(`text.root${root.isChanged ? '.changed' : ''}`, { x, y }, `${root.label} \u2193`));
    origin.top = Math.max(origin.top, 14 - y + 4);
  });
  return group;
}

let drawings = 0;

function sideView(title, side, look) {
  drawings += 1;
  const key = drawings;
  const frames = framesOf(side);
  const origin = { top: 8 };
  const drawing = makeSvg('g');
  for (const [number, frame] of frames) drawing.append(boxView(side.boxes.get(number), frame, look));
  for (const [number, frame] of frames) {
    side.boxes.get(number).fields.forEach((field, at) => {
      const target = field.target === null ? undefined : frames.get(field.target);
      if (target === undefined) return;
      const from = startOf(side, number, frame, at);
      drawing.append(arrowView(from, target, side.isAcross, field.isChanged, key));
    });
  }
  drawing.append(rootsView(side, frames, origin));
  const right = Math.max(60, ...[...frames.values()].map((frame) => frame.x + frame.width)) + 40;
  const bottom = Math.max(20, ...[...frames.values()].map((frame) => frame.y + frame.height)) + 8;
  drawing.setAttribute('transform', `translate(4 ${origin.top})`);
  const hasButtons = look !== null && [...frames.keys()].some((number) => isAskable(side.boxes.get(number)));
  const nils = side.roots.filter((root) => root.target === null).map((root) => `${root.label} = nil`);
  return make('figure.heap', make('figcaption', make('b', title), nils.length > 0 ? ` ${nils.join(', ')}` : ''),
    frames.size === 0 ? (nils.length > 0 ? null : make('p.quiet', 'nothing that this call looked at')) : make('div.scroll', { tabindex: 0, role: 'group', 'aria-label': `Drawing, ${title.toLowerCase()}` },
      makeSvg('svg', { width: right, height: bottom + origin.top, role: hasButtons ? 'group' : 'img', 'aria-label': `${title}: ${heapSaid(side)}` }, tips(key), drawing)),
    side.leftOut > 0 ? make('p.quiet', `and ${side.leftOut} more, which are not drawn`) : null);
}

// `look(name)` asks what a box holds that the card does not tell; null where the command cannot say it.
export function heapView(heap, look = null) {
  const isSame = ![heap.after.roots, ...[...heap.after.boxes.values()].map((box) => (box.isNew || box.isGone ? [{ isChanged: true }] : box.fields))]
    .some((parts) => parts.some((part) => part.isChanged));
  const isUnseen = [heap.before, heap.after].some((side) => [...side.boxes.values()].some(isAskable));
  const legend = isUnseen ? make('p.quiet.legend', `${NOT_SEEN}  this call did not look at it`, look === null ? '' : '; press such a box to look') : null;
  // A number counts places of the memory, so it says no more than which box is meant.
  const numbers = make('p.quiet.legend', 'A pointer is the number of the box that it points at.');
  return make('div.heaps', isSame ? sideView('Before and after', heap.after, look) : [sideView('Before', heap.before, look), sideView('After', heap.after, look)], numbers, legend);
}
