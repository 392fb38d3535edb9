// Marks, suspects, how many questions may come, entries, and what is found.
import assert from 'node:assert/strict';
import { test } from 'node:test';
import { latinBytes, fileOfText, utf8Bytes } from '../bytes.js';
import { accusedOf, markBy, suspectsOf, treeOf } from '../call_table.js';
import { callsFound, callsOfLine, lineAsked } from '../find_calls.js';
import { mostQuestions, questionOf } from '../forecast.js';
import { entriesOf, newSession } from '../session.js';
import { endOf, replySaid, statusSaid } from '../words.js';

// A tree by the call that made each.
const treeBy = (...parents) => treeOf(utf8Bytes(['0 p #0 wrong', ...parents.map((parent, at) => `${at + 1} in ${parent} q${at % 2} #${1 + (at % 2)} unjudged`)].join('\n') + '\n'));

const session = (...lines) => ({ ...newSession('p.pas', fileOfText(''), fileOfText('')), lines });

test('entries by lines and replies', () => {
  const entries = entriesOf(session('wrong 1', 'trust #2', 'back 2', 'right 3', 'back'), ['entry 2', 'entry 3', 'back 2', 'no call 3', 'back 3']);
  assert.deepEqual(entries.map(({ number, kind, standing }) => [number, kind, standing]), [[1, 'wrong', true], [2, 'wrong', false], [3, 'trust', false]]);
});

test('the entries of a saved session come first', () => {
  const saved = latinBytes('{"budget":9,"entries":[{"call":0,"kind":"wrong","standing":false},{"kind":"trust","routine":4,"standing":true}],"input":"","source":"","version":1}');
  const entries = entriesOf({ ...session('right 1'), saved }, ['entry 3']);
  assert.deepEqual(entries.map(({ number, kind, call, routine, standing }) => [number, kind, call ?? routine, standing]), [[1, 'wrong', 0, false], [2, 'trust', 4, true], [3, 'right', 1, true]]);
  assert.deepEqual(entriesOf({ ...session(), saved: latinBytes('no json') }, []), []);
});

test('marks: the last judgement counts, and counts more than trust', () => {
  const tree = treeBy(0, 0, 1);
  markBy(tree, [
    { kind: 'wrong', call: 0, standing: true }, { kind: 'right', call: 1, standing: true }, { kind: 'unknown', call: 1, standing: true },
    { kind: 'trust', routine: 2, standing: true }, { kind: 'wrong', call: 2, standing: false }, { kind: 'right', call: 3, standing: true },
  ]);
  assert.deepEqual([...tree.mark], [2, 3, 4, 1]);
});

test('suspects stand below the accused, but not below what is right', () => {
  const tree = treeBy(0, 1, 1, 0, 4);
  markBy(tree, [{ kind: 'wrong', call: 0, standing: true }, { kind: 'right', call: 1, standing: true }]);
  assert.equal(accusedOf(tree), 0);
  assert.deepEqual([...suspectsOf(tree)], [4, 5]);
  markBy(tree, [{ kind: 'wrong', call: 0, standing: true }, { kind: 'wrong', call: 1, standing: true }]);
  assert.deepEqual([...suspectsOf(tree)], [2, 3]);
  markBy(tree, []);
  assert.deepEqual([...suspectsOf(tree)], [0, 1, 2, 3, 4, 5].slice(0));
});

test('how many questions may come', () => {
  const flat = treeBy(0, 0, 0, 0);
  assert.deepEqual(questionOf(flat, [1, 2, 3, 4]), { at: 0, weight: 1, left: 3 });
  assert.equal(mostQuestions(flat, [1, 2, 3, 4]), 4);
  const chain = treeBy(0, 1, 2, 3, 4, 5, 6);
  assert.equal(mostQuestions(chain, [1, 2, 3, 4, 5, 6, 7]), 3);
  assert.equal(mostQuestions(flat, []), 0);
  assert.equal(mostQuestions(chain, [1, 2, 3], { left: 1 }), null);
});

test('finding calls', () => {
  const tree = treeBy(0, 0, 0);
  assert.deepEqual([...callsFound(tree, 'Q1', new Map())], [2]);
  assert.deepEqual([...callsFound(tree, 'call 3', new Map())], [3]);
  assert.deepEqual([...callsFound(tree, '"hi', new Map([[1, '(2) "hi"']]))], [1]);
  assert.equal(lineAsked(' Line 12 '), 12);
  assert.equal(lineAsked('line'), 0);
  const routines = [{ number: 0, from: 1, to: 9 }, { number: 1, from: 2, to: 4 }];
  assert.deepEqual([...callsOfLine(tree, routines, 3, () => null)], [1, 3]);
  assert.deepEqual([...callsOfLine(tree, routines, 3, (call) => call === 3)], [3]);
});

test('what is said', () => {
  assert.deepEqual(endOf('faulted NilPointer line 7'), { said: 'It broke off at line 7: it followed a pointer that is nil.', isBad: true, line: 7 });
  assert.equal(endOf('jumped to 9 of call 3').said, 'It was left by a goto, to the label 9 of call 3.');
  assert.equal(endOf('jumped to 9 of frame 40').said, 'It was left by a goto, to the label 9 of frame 40.');
  for (const end of ['returned', 'out of steps', 'limited calls', 'limited depth', 'limited stack', 'limited heap', 'faulted Odd line 1', 'what else']) assert.ok(endOf(end).said.length > 3);
  assert.match(statusSaid(8, 'session: budget is 1000000 but the session has 4000000\n'), /4,000,000/);
  assert.match(statusSaid(8, 'session: source is ab but the session has cd\n'), /another program/);
  assert.match(statusSaid(2, 'usage: ..'), /from 1 to 4,000,000/);
  assert.equal(replySaid('no question'), 'No call is asked about any more.');
  assert.equal(replySaid('what else'), 'what else');
});
