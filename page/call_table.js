// The calls of a run as columns: the call that made each, its routine, its mark and how deep it is. Calls are numbered in
// the order in which they began, so those below a call are the ones from it to its `last`.
import { latin } from './bytes.js';

export const MARKS = ['unjudged', 'right', 'wrong', 'unknown', 'trusted'];
export const UNJUDGED = 0;
export const RIGHT = 1;
export const WRONG = 2;
export const UNKNOWN = 3;
export const TRUSTED = 4;

const NEWLINE = 10;
const BLANK = 32;
const SHARP = 35;

function countLines(bytes, from, to) {
  let count = 0;
  for (let at = from; at >= 0 && at < to; at = bytes.indexOf(NEWLINE, at) + 1 || to) count += 1;
  return count;
}

// Reads the lines of a tree, `2 in 0 breakfast #3 unjudged`, byte by byte, since there may be half a million.
class TreeReader {
  constructor(bytes, from, to) {
    Object.assign(this, { bytes, at: from, to });
    this.names = [];
  }

  // A number, or -1.
  number() {
    let number = 0;
    const from = this.at;
    for (; this.at < this.to && this.at - from < 9 && this.bytes[this.at] >= 48 && this.bytes[this.at] <= 57; this.at += 1) {
      number = number * 10 + this.bytes[this.at] - 48;
    }
    return this.at === from ? -1 : number;
  }

  // Goes over a text, if it stands here.
  skips(text) {
    for (let i = 0; i < text.length; i += 1) if (this.at + i >= this.to || this.bytes[this.at + i] !== text.charCodeAt(i)) return false;
    this.at += text.length;
    return true;
  }

  // A line as call, parent, routine and mark, or null.
  line() {
    const call = this.number();
    const parent = this.skips(' in ') ? this.number() : -1;
    if (call < 0 || !this.skips(' ')) return null;
    const from = this.at;
    while (this.at < this.to && this.bytes[this.at] > BLANK) this.at += 1;
    const end = this.at;
    if (!this.skips(' ') || this.bytes[this.at] !== SHARP) return null;
    this.at += 1;
    const routine = this.number();
    if (routine < 0 || !this.skips(' ')) return null;
    const mark = MARKS.findIndex((word) => this.skips(word));
    if (mark < 0 || !(this.skips('\n') || this.at === this.to)) return null;
    if (this.names[routine] === undefined) this.names[routine] = latin(this.bytes.subarray(from, end));
    return { call, parent, routine, mark };
  }
}

// From the reply to `tree`. A line that does not fit ends it.
export function treeOf(bytes, from = 0, to = bytes.length) {
  const most = countLines(bytes, from, to);
  const parent = new Int32Array(most);
  const routine = new Int32Array(most);
  const mark = new Uint8Array(most);
  const reader = new TreeReader(bytes, from, to);
  let count = 0;
  for (; reader.at < to; count += 1) {
    const line = reader.line();
    if (line === null || line.call !== count || line.parent >= count) break;
    parent[count] = line.parent;
    routine[count] = line.routine;
    mark[count] = line.mark;
  }
  const columns = { parent: parent.slice(0, count), routine: routine.slice(0, count), mark: mark.slice(0, count), names: reader.names };
  return { ...columns, ...nesting(columns.parent) };
}

// The last call below each, and how deep each is.
function nesting(parent) {
  const last = new Int32Array(parent.length);
  const depth = new Int32Array(parent.length);
  for (let call = 0; call < parent.length; call += 1) {
    last[call] = call;
    depth[call] = parent[call] < 0 ? 0 : depth[parent[call]] + 1;
  }
  for (let call = parent.length - 1; call > 0; call -= 1) {
    if (parent[call] >= 0 && last[parent[call]] < last[call]) last[parent[call]] = last[call];
  }
  return { last, depth };
}

// Whether no other call is of the same routine.
export const isAlone = ({ routine }, call) => routine.indexOf(routine[call]) === call && routine.lastIndexOf(routine[call]) === call;

export const nameOf = (tree, call) => tree.names[tree.routine[call]] ?? '';

// The marks by the entries that stand: the last judgement on a call counts, and counts more than trust. `leftOut` are the calls
// that count as right since they had no part in a wrong output.
export function markBy(tree, entries) {
  const { mark, routine } = tree;
  mark.fill(UNJUDGED);
  const standing = entries.filter((entry) => entry.standing);
  const trusted = new Set(standing.filter((entry) => entry.kind === 'trust').map((entry) => entry.routine));
  if (trusted.size > 0) for (let call = 0; call < mark.length; call += 1) if (trusted.has(routine[call])) mark[call] = TRUSTED;
  tree.leftOut = new Set();
  for (const { kind, call, leftOutBy } of standing) {
    if (kind === 'trust' || !(call < mark.length)) continue;
    mark[call] = MARKS.indexOf(kind);
    if (leftOutBy === undefined) tree.leftOut.delete(call); else tree.leftOut.add(call);
  }
}

// The accused call, the last one that is marked wrong, or -1.
export const accusedOf = (tree) => tree.mark.lastIndexOf(WRONG);

// The calls that may still be to blame: the unjudged ones below the accused, or of all where none is, but for those that
// are right or trusted with all below them.
export function suspectsOf(tree) {
  const accused = accusedOf(tree);
  const end = accused < 0 ? tree.mark.length - 1 : tree.last[accused];
  const suspects = new Int32Array(end - accused);
  let count = 0;
  for (let call = accused + 1; call <= end; call += 1) {
    if (tree.mark[call] === RIGHT || tree.mark[call] === TRUSTED) call = tree.last[call];
    else if (tree.mark[call] === UNJUDGED) {
      suspects[count] = call;
      count += 1;
    }
  }
  return suspects.subarray(0, count);
}
