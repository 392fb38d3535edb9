// Names of cells as cards print them: a variable, then selectors: `coins`, `sort#4.a[3].f`, `^2^.next`, `word['=']`.

const ROOT = /(?:\^\d+\^|[A-Za-z][A-Za-z0-9]*#\d+\.[A-Za-z][A-Za-z0-9]*|[A-Za-z][A-Za-z0-9]*)/y;
const FIELD = /\.[A-Za-z][A-Za-z0-9]*/y;
// An index is a number, a constant, or a character: `'x'`, `''''` or `chr(7)`.
const INDEX = /\[(?:-?\d+|'(?:''|[^'])'|chr\(\d+\)|[A-Za-z][A-Za-z0-9]*)\]/y;

function match(pattern, text, at) {
  pattern.lastIndex = at;
  const found = pattern.exec(text);
  return found === null ? null : found[0];
}

// The name that a text begins with from a place on, or null: `root`, `selectors`, and where the text goes on.
export function nameAt(text, at = 0) {
  const root = match(ROOT, text, at);
  if (root === null) return null;
  const selectors = [];
  let end = at + root.length;
  for (;;) {
    const next = match(FIELD, text, end) ?? match(INDEX, text, end);
    if (next === null) return { root, selectors, end };
    selectors.push(next);
    end += next.length;
  }
}

export const isIndex = (selector) => selector.startsWith('[');
export const indexOf = (selector) => selector.slice(1, -1);
export const isHeap = (root) => root.startsWith('^');

// The number of a pointer's value, `^3`, or null.
export function pointerOf(value) {
  const found = /^\^(\d+)$/.exec(value ?? '');
  return found === null ? null : Number(found[1]);
}

// A variable's name as a reader says it: the routine's call goes behind it.
export function variableSaid(root) {
  const found = /^([A-Za-z][A-Za-z0-9]*)#(\d+)\.(.*)$/.exec(root);
  return found === null ? { name: root, owner: '' } : { name: found[3], owner: `of ${found[1]}, call ${found[2]}` };
}

// A value of the type char, or null.
export function charOf(value) {
  if (/^'(?:[^']|'')'$/.test(value)) return value === "''''" ? "'" : value[1];
  const found = /^chr\((\d+)\)$/.exec(value);
  return found === null ? null : String.fromCharCode(Number(found[1]));
}
