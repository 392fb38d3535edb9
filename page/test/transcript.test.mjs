// What the command printed is taken apart: dialogs, trees, traces, and any bytes at all.
import assert from 'node:assert/strict';
import { test } from 'node:test';
import { utf8Bytes } from '../bytes.js';
import { consoleOf, digest } from '../transcript.js';

const TREE = { kind: 'tree' };

// The screen of a dialog with these replies to what was asked for besides.
const screenOf = (dialog, ...replies) => utf8Bytes([dialog, ...replies].join('not understood\n') + 'not understood\n');

const OPENING = `call 0 change
  returned
ask 1 suspects 3 left 2
call 1 seventy in call 0
  reads coins = 0
  changes coins = 52
  returned
`;

test('an opening: the program, the question and its card', () => {
  const shown = digest(screenOf(OPENING), []);
  assert.equal(shown.program, 'call 0 change\n  returned\n');
  assert.deepEqual({ ...shown.report, card: '' }, { kind: 'ask', call: 1, suspects: 3, left: 2, card: '', kept: null });
  assert.equal(shown.report.card, 'call 1 seventy in call 0\n  reads coins = 0\n  changes coins = 52\n  returned\n');
  assert.deepEqual(shown.replies, []);
  assert.deepEqual(shown.questions, [{ call: 1, suspects: 3, left: 2 }]);
});

test('a session of another text: its replies alone, and the answer that was kept', () => {
  const shown = digest(screenOf(`replies only\n${OPENING}  kept right\n`), []);
  assert.equal(shown.isRepliesOnly, true);
  assert.equal(shown.program, 'call 0 change\n  returned\n');
  assert.equal(shown.report.kept, 'right');
  assert.equal(shown.report.card, 'call 1 seventy in call 0\n  reads coins = 0\n  changes coins = 52\n  returned\n');
  const later = digest(screenOf(`${OPENING}  kept unknown\nnoted 1\nentry 2\nask 2 suspects 1 left 0\ncall 2 a in call 1\n  kept = 3\n  returned\n`), []);
  assert.deepEqual([later.isRepliesOnly, later.report.kept, later.replies], [false, null, ['noted 1', 'entry 2']]);
  assert.equal(later.report.card, 'call 2 a in call 1\n  kept = 3\n  returned\n');
});

test('a verdict has the trace, and each line its reply', () => {
  const shown = digest(screenOf(`${OPENING}entry 2\nfound call 3 twenty\n  line 6\n  line 6\n  call 4 penny\n  faulted Overflow line 6\n`), []);
  assert.deepEqual(shown.replies, ['entry 2']);
  assert.equal(shown.report.kind, 'found');
  assert.equal(shown.report.name, 'twenty');
  assert.deepEqual([...shown.report.trace.counts], [[6, 2]]);
  assert.deepEqual([...shown.report.trace.calls], [4]);
  assert.deepEqual([...shown.report.trace.callLines], [6]);
  assert.equal(shown.report.trace.end, 'faulted Overflow line 6');
});

test('doubts, refusals and what is neither', () => {
  const narrowed = digest(screenOf(`${OPENING}entry 2\nnarrowed to call 1 b\n  doubt 2 a\n  doubt 30 other\n`), []).report;
  assert.deepEqual(narrowed.doubts, [{ call: 2, name: 'a' }, { call: 30, name: 'other' }]);
  assert.equal(digest(screenOf(`${OPENING}back 1\nnothing wrong\n`), []).report.kind, 'nothing');
  assert.equal(digest(screenOf(`${OPENING}back 1\nunclear\n  doubt 2 a\n`), []).report.doubts.length, 1);
  assert.deepEqual(digest(screenOf(`${OPENING}no call 9\nbook is full\n`), []).replies, ['no call 9', 'book is full']);
});

test('the tree', () => {
  const tree = '0 p #0 wrong\n1 in 0 a #2 right\n2 in 1 b #1 trusted\n3 in 0 a #2 unjudged\n4 in 0 b #1 unknown\n';
  const [answer] = digest(screenOf(OPENING, tree), [TREE]).answers;
  assert.deepEqual([...answer.tree.parent], [-1, 0, 1, 0, 0]);
  assert.deepEqual([...answer.tree.routine], [0, 2, 1, 2, 1]);
  assert.deepEqual([...answer.tree.mark], [2, 1, 4, 0, 3]);
  assert.deepEqual([...answer.tree.last], [4, 2, 2, 3, 4]);
  assert.deepEqual([...answer.tree.depth], [0, 1, 2, 1, 1]);
  assert.deepEqual(answer.tree.names, ['p', 'b', 'a']);
});

test('a reply may be `not understood` itself', () => {
  const asks = [{ kind: 'state', call: 0, name: 'x' }, { kind: 'show', call: 1 }];
  const { answers } = digest(screenOf(OPENING, 'not understood\n', 'call 1 seventy in call 0\n  returned\n'), asks);
  assert.deepEqual(answers[0], { kind: 'refused', text: 'not understood' });
  assert.equal(answers[1].text, 'call 1 seventy in call 0\n  returned\n');
});

test('replies to cards, traces and states', () => {
  const asks = [{ kind: 'trace', call: 2 }, { kind: 'state', call: 0, name: 'x' }, { kind: 'show', call: 9 }];
  const { answers } = digest(screenOf(OPENING, '  line 3\n  returned\n', '  x = 1, then 2\n', 'no call 9\n'), asks);
  assert.deepEqual([...answers[0].trace.counts], [[3, 1]]);
  assert.equal(answers[1].text, '  x = 1, then 2\n');
  assert.deepEqual(answers[2], { kind: 'refused', text: 'no call 9' });
});

test('whether a call carries to another', () => {
  const ask = (onto) => ({ kind: 'carry', call: 3, onto });
  const replies = ['call 3 carries to call 8\n', 'call 3 does not carry to call 8\n', 'call 3 carries to call 80\n', 'no call 9\n', 'not understood\n'];
  const { answers } = digest(screenOf(OPENING, ...replies), [ask(8), ask(8), ask(8), ask(9), ask(8)]);
  assert.deepEqual(answers, [{ kind: 'carry', carries: true }, { kind: 'carry', carries: false }, { kind: 'refused', text: 'call 3 carries to call 80' },
    { kind: 'refused', text: 'no call 9' }, { kind: 'refused', text: 'not understood' }]);
});

test('what is typed', () => {
  assert.equal(consoleOf(['right 1'], [TREE, { kind: 'show', call: 7 }, { kind: 'state', call: 2, name: 'a[1]' }, { kind: 'carry', call: 3, onto: 8 }, { kind: 'slice', call: 1, name: 'x' },
    { kind: 'save', file: 'page.session' }]), 'right 1\n@\ntree\n@\nshow 7\n@\nstate 2 a[1]\n@\ncarry 3 8\n@\nslice 1 x\n@\nsave page.session\n@\nquit\n');
});

// A small generator, so that a failure comes again.
function numbers(seed) {
  let state = seed;
  return (below) => {
    state = (state * 1103515245 + 12345) % 2147483648;
    return Math.floor((state / 2147483648) * below);
  };
}

test('no bytes make it throw', () => {
  const next = numbers(1);
  const words = ['call 0 p', 'ask 1 suspects 2 left 1', 'found call 1 q', '  line 3', '  ', 'not understood', '0 p #0 wrong', '1 in 7 q #1 right',
    '  doubt x', 'call 0 carries to call 1', 'narrowed to call 2 z', '\xff\xfe', '', 'call 99999999999999999999 a', '  call 5 x', '7 in', 'unclear', 'entry 2'];
  for (let round = 0; round < 3000; round += 1) {
    const lines = Array.from({ length: next(12) }, () => words[next(words.length)]);
    const text = lines.join(next(9) === 0 ? '' : '\n');
    const asks = [TREE, { kind: 'trace', call: 0 }, { kind: 'show', call: 1 }, { kind: 'state', call: 0, name: 'x' }, { kind: 'carry', call: 0, onto: 1 }].slice(0, next(6));
    const shown = digest(utf8Bytes(text), asks);
    assert.equal(shown.answers.length, asks.length);
  }
});

test('a trace of a million lines, and a tree of as many', () => {
  const trace = digest(screenOf(OPENING, `${'  line 7\n'.repeat(1_000_000)}  returned\n`), [{ kind: 'trace', call: 0 }]).answers[0].trace;
  assert.equal(trace.counts.get(7), 1_000_000);
  assert.equal(trace.events.length, 500);
  const lines = ['0 p #0 wrong'];
  for (let call = 1; call < 200_000; call += 1) lines.push(`${call} in 0 q #1 unjudged`);
  const [{ tree }] = digest(screenOf(OPENING, `${lines.join('\n')}\n`), [TREE]).answers;
  assert.equal(tree.parent.length, 200_000);
  assert.equal(tree.last[0], 199_999);
});
