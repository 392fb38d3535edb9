// A card taken apart, line by line. What is no line of a card stays as it is, in `odd`; no text makes this throw.
import { isHeap, nameAt, pointerOf } from './names.js';

// `NAME = VALUE` from a place on.
function nameAndValue(line, at) {
  const name = nameAt(line, at);
  if (name === null || !line.startsWith(' = ', name.end)) return null;
  return { name: line.slice(at, name.end), root: name.root, selectors: name.selectors, value: line.slice(name.end + 3) };
}

// `NAME` and then exactly this text.
function nameThen(line, at, rest) {
  const name = nameAt(line, at);
  if (name === null || line.slice(name.end) !== rest) return null;
  return { name: line.slice(at, name.end), root: name.root, selectors: name.selectors };
}

function readCell(card, line) {
  const read = line.startsWith('reads ') ? nameAndValue(line, 6) : null;
  if (read !== null) return card.met.push({ ...read, how: 'read' });
  const there = line.startsWith('finds ') ? nameThen(line, 6, '') : null;
  if (there !== null) return card.met.push({ ...there, value: null, how: 'there' });
  const absent = line.startsWith('misses ') ? nameThen(line, 7, '') : null;
  if (absent !== null) return card.met.push({ ...absent, value: null, how: 'absent' });
  const set = line.startsWith('changes ') ? nameAndValue(line, 8) : null;
  if (set !== null) return card.left.push({ ...set, gone: false });
  const gone = line.startsWith('changes ') ? nameThen(line, 8, ' gone') : null;
  if (gone !== null) return card.left.push({ ...gone, value: null, gone: true });
  const given = nameAndValue(line, 0);
  if (given !== null) return card.given.push(given);
  return 0;
}

const ENDS = /^(returned|faulted \w+ line \d+|out of steps|jumped to \d+ of (?:call|frame) \d+|limited \w+)$/;

function readLine(card, line) {
  const quoted = /^(looks|takes|gives) (".*")( end)?$/.exec(line);
  if (quoted !== null) {
    card[quoted[1]] = quoted[2];
    card.sawEnd = card.sawEnd || quoted[3] !== undefined;
  } else if (ENDS.test(line)) {
    card.end = line;
  } else if (readCell(card, line) === 0) {
    const result = /^result (.+)$/.exec(line);
    if (result !== null) card.result = result[1];
    else card.odd.push(line);
  }
}

export function cardOf(text) {
  const lines = text.split('\n');
  const head = /^call (\d+) (\S+)(?: in call (\d+))?$/.exec(lines[0]) ?? [null, 0, '', undefined];
  const card = {
    call: Number(head[1]), name: head[2], parent: head[3] === undefined ? null : Number(head[3]),
    given: [], met: [], left: [], looks: null, takes: null, gives: null, sawEnd: false, result: null, end: '', odd: [], text,
  };
  if (head[0] === null && lines[0] !== '') card.odd.push(lines[0]);
  for (const line of lines.slice(1)) {
    if (line.startsWith('  ')) readLine(card, line.slice(2));
    else if (line !== '') card.odd.push(line);
  }
  return card;
}

const boxOf = (name) => { const root = nameAt(name)?.root ?? ''; return isHeap(root) ? Number(root.slice(1, -1)) : null; };

// Whether a call made variables by `new`: it left one, or disposed of it, that was neither looked at nor pointed at before.
function isMaker({ given, met, left }) {
  const before = [...given, ...met].flatMap(({ name, value }) => [boxOf(name), pointerOf(value), value?.startsWith('at ') ? boxOf(value.slice(3)) : null]);
  const there = new Set(before);
  return left.some(({ name }) => boxOf(name) !== null && !there.has(boxOf(name)));
}

// The words for what went wrong that is no variable, as `slice K NAME` has them, in the order of a card. A changed variable of the
// same name goes first there, so that such a word cannot be said.
export function wordsOf(card) {
  const changed = new Set(card.left.map(({ name }) => name));
  const is = { takes: card.takes !== null, makes: isMaker(card), gives: card.gives !== null, result: card.result !== null, way: !['', 'returned'].includes(card.end) };
  return Object.keys(is).filter((word) => is[word] && !changed.has(word));
}

const SHORT = { '\\n': 10, '\\"': 34, '\\\\': 92 };

// The bytes of a text in quotation marks, as a card has it.
export function bytesOfQuoted(quoted) {
  const pieces = quoted.slice(1, -1).match(/\\x[0-9a-f]{2}|\\[n"\\]|[^]/g) ?? [];
  return Uint8Array.from(pieces, (piece) => {
    if (piece.length === 4) return parseInt(piece.slice(2), 16);
    return SHORT[piece] ?? piece.charCodeAt(0);
  });
}

// A line of `state K NAME`: `NAME = V`, `NAME = V, then W`, `NAME = V, then gone`, `NAME = W, made here`; or null.
// A value holds `, then ` only within a character or a set of characters, which are longer than one.
export function stateOf(line) {
  const cell = line.startsWith('  ') ? nameAndValue(line, 2) : null;
  if (cell === null) return null;
  const { name, root, selectors, value } = cell;
  if (value.endsWith(', made here')) return { name, root, selectors, before: null, after: value.slice(0, -11) };
  const at = value.lastIndexOf(', then ');
  if (at < 0) return { name, root, selectors, before: value, after: value };
  const after = value.slice(at + 7);
  return { name, root, selectors, before: value.slice(0, at), after: after === 'gone' ? null : after };
}
