// Takes apart what the command printed: the first card, a reply to each line, the last report, and the replies to what
// was asked for besides. It works on bytes, since a tree or a trace may have millions of lines; no bytes make it throw.
import { latin } from './bytes.js';
import { treeOf } from './call_table.js';
import { traceOf } from './trace.js';

const NEWLINE = 10;
const BLANK = 32;
// What is kept of a card for the page, and of all that was printed.
const CARD_BYTES = 4_000_000;
const RAW_BYTES = 400_000;

// The line `@` is no command, so its reply marks where the next one begins.
export const MARK = '@';
const MARKED = 'not understood\n';

function lineEnd(bytes, at, to) {
  const end = bytes.indexOf(NEWLINE, at);
  return end < 0 || end > to ? to : end;
}

// A line that begins at the margin, with the indented lines below it: `head`, and `from` to `to` for these.
function blocksOf(bytes, from, to) {
  const blocks = [];
  let block = { head: '', start: from, from, to: from };
  for (let at = from; at < to;) {
    const end = lineEnd(bytes, at, to);
    if (bytes[at] === BLANK && bytes[at + 1] === BLANK) {
      block.to = Math.min(end + 1, to);
    } else {
      block = { head: latin(bytes.subarray(at, Math.min(end, at + 10000))), start: at, from: Math.min(end + 1, to), to: Math.min(end + 1, to) };
      blocks.push(block);
    }
    at = end + 1;
  }
  if (blocks.length === 0 && to > from) blocks.push(block);
  return blocks;
}

function cut(bytes, from, to, most) {
  if (to - from <= most) return latin(bytes.subarray(from, to));
  const end = bytes.lastIndexOf(NEWLINE, from + most);
  return `${latin(bytes.subarray(from, end < from ? from + most : end + 1))}`;
}

const cardText = (bytes, block) => cut(bytes, block.start, block.to, CARD_BYTES);

function doubtsOf(bytes, block) {
  const doubts = [];
  for (const line of cut(bytes, block.from, block.to, CARD_BYTES).split('\n')) {
    const found = /^ {2}doubt (\d+) (\S+)$/.exec(line);
    if (found !== null) doubts.push({ call: Number(found[1]), name: found[2] });
  }
  return doubts;
}

// The report that a line at the margin begins, or null.
function reportOf(bytes, block) {
  const ask = /^ask (\d+) suspects (\d+) left (\d+)$/.exec(block.head);
  if (ask !== null) return { kind: 'ask', call: Number(ask[1]), suspects: Number(ask[2]), left: Number(ask[3]), card: '' };
  const verdict = /^(found|narrowed to) call (\d+) (\S+)$/.exec(block.head);
  if (verdict !== null) {
    return { kind: verdict[1] === 'found' ? 'found' : 'narrowed', call: Number(verdict[2]), name: verdict[3], block };
  }
  if (block.head === 'unclear') return { kind: 'unclear', block };
  if (block.head === 'nothing wrong') return { kind: 'nothing', block };
  return null;
}

// The answer that an earlier session had to this question stands in the last line below its card; the card ends before it.
function keptOf(bytes, block) {
  const start = bytes.lastIndexOf(NEWLINE, block.to - 2) + 1;
  const found = start < block.from ? null : /^ {2}kept (right|wrong|unknown)\n$/.exec(latin(bytes.subarray(start, Math.min(block.to, start + 20))));
  if (found === null) return null;
  block.to = start;
  return found[1];
}

// What only the last report needs is read only there.
function finished(bytes, report) {
  if (report === null || report.block === undefined) return report;
  const { block, ...rest } = report;
  const text = cut(bytes, block.start, block.to, RAW_BYTES);
  if (rest.kind === 'found') return { ...rest, text, trace: traceOf(bytes, block.from, block.to) };
  return { ...rest, text, doubts: doubtsOf(bytes, block) };
}

const isBack = (reply = '') => reply.startsWith('back ');

// The main part: up to the first mark. Where answers are taken back one after the other, the last question that comes of it counts.
function dialogOf(bytes, to) {
  const dialog = { program: '', isRepliesOnly: false, replies: [], questions: [], report: null };
  let isCardOfQuestion = false;
  for (const block of blocksOf(bytes, 0, to)) {
    const report = reportOf(bytes, block);
    const isCard = /^call \d+ /.test(block.head);
    if (report !== null) {
      const isAgain = dialog.report?.kind === 'ask' && isBack(dialog.replies.at(-1)) && isBack(dialog.replies.at(-2));
      if (isAgain) dialog.questions.pop();
      dialog.report = report;
      if (report.kind === 'ask') dialog.questions.push({ call: report.call, suspects: report.suspects, left: report.left });
    } else if (isCard && isCardOfQuestion) {
      dialog.report.cardBlock = block;
    } else if (isCard && dialog.program === '') {
      dialog.program = cardText(bytes, block);
    } else if (block.head === 'replies only' && dialog.program === '') {
      dialog.isRepliesOnly = true;
    } else {
      dialog.replies.push(block.head);
    }
    isCardOfQuestion = report !== null && report.kind === 'ask';
  }
  if (dialog.report !== null && dialog.report.cardBlock !== undefined) {
    dialog.report.kept = keptOf(bytes, dialog.report.cardBlock);
    dialog.report.card = cardText(bytes, dialog.report.cardBlock);
    delete dialog.report.cardBlock;
  }
  dialog.report = finished(bytes, dialog.report);
  return dialog;
}

function isMarked(bytes, at) {
  if (at + MARKED.length > bytes.length) return false;
  for (let i = 0; i < MARKED.length; i += 1) if (bytes[at + i] !== MARKED.charCodeAt(i)) return false;
  return true;
}

// Where the next mark stands from a place on, or the end. It is looked for by its letters, not line by line.
function findMark(bytes, from) {
  const first = MARKED.charCodeAt(0);
  for (let at = bytes.indexOf(first, from); at >= 0; at = bytes.indexOf(first, at + 1)) {
    if ((at === 0 || bytes[at - 1] === NEWLINE) && isMarked(bytes, at)) return at;
  }
  return bytes.length;
}

// The reply to each thing that was asked for, each after its mark. `not understood` may itself be the reply.
function answersOf(bytes, from, asks) {
  const answers = [];
  let at = from;
  for (const ask of asks) {
    const start = Math.min(at + MARKED.length, bytes.length);
    const own = isMarked(bytes, start) ? start + MARKED.length : start;
    const end = findMark(bytes, own);
    answers.push(answerOf(bytes, start, end, ask));
    at = end;
  }
  return answers;
}

function answerOf(bytes, from, to, ask) {
  if (from >= to) return { kind: 'none' };
  const isRefused = bytes[from] !== BLANK && !/^(\d|call |alike)/.test(latin(bytes.subarray(from, from + 5)));
  if (isRefused) return { kind: 'refused', text: cut(bytes, from, to, RAW_BYTES).trimEnd() };
  if (ask.kind === 'tree') return { kind: 'tree', tree: treeOf(bytes, from, to) };
  if (ask.kind === 'alike') return alikeOf(cut(bytes, from, to, CARD_BYTES).trimEnd());
  if (ask.kind === 'carry') return carryOf(cut(bytes, from, to, RAW_BYTES).trimEnd(), ask);
  if (ask.kind === 'trace') return { kind: 'trace', trace: traceOf(bytes, from, to), text: cut(bytes, from, to, RAW_BYTES) };
  return { kind: ask.kind, text: cut(bytes, from, to, CARD_BYTES), isCut: to - from > CARD_BYTES };
}

// Whether one call would have done the same where the other began; no other text is taken for an answer to that.
function carryOf(text, { call, onto }) {
  if (text === `call ${call} carries to call ${onto}`) return { kind: 'carry', carries: true };
  return text === `call ${call} does not carry to call ${onto}` ? { kind: 'carry', carries: false } : { kind: 'refused', text };
}

// The calls that were asked the same; no other text is taken for an answer to that.
function alikeOf(text) {
  const [word, ...calls] = text.split(' ');
  const isTold = word === 'alike' && calls.length > 0 && calls.every((it) => /^\d+$/.test(it));
  return isTold ? { kind: 'alike', calls: calls.map(Number) } : { kind: 'refused', text };
}

export const commandOf = (ask) => {
  if (ask.kind === 'tree') return 'tree';
  if (ask.kind === 'save') return `save ${ask.file}`;
  if (ask.kind === 'carry') return `carry ${ask.call} ${ask.onto}`;
  return ask.name === undefined ? `${ask.kind} ${ask.call}` : `${ask.kind} ${ask.call} ${ask.name}`;
};

// The bytes for the console: the lines so far, what is asked for, each between marks, and the end.
export function consoleOf(lines, asks) {
  const marked = asks.flatMap((ask) => [MARK, commandOf(ask)]);
  return [...lines, ...marked, MARK, 'quit', ''].join('\n');
}

// All of a screen, where the command's status was 0.
export function digest(bytes, asks) {
  const end = findMark(bytes, 0);
  return { ...dialogOf(bytes, end), answers: answersOf(bytes, end, asks), raw: cut(bytes, 0, end, RAW_BYTES), printed: end };
}
