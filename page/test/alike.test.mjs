// Calls that were asked the same: which there are, one answer for all of them, and how that is taken back.
import assert from 'node:assert/strict';
import { test } from 'node:test';
import { alikeKnown } from '../alike_view.js';
import { fileOfText, utf8Bytes } from '../bytes.js';
import { isAlone, markBy, suspectsOf, treeOf } from '../call_table.js';
import { Dialog } from '../dialog.js';
import { answerOf, entriesOf, isOnSeveral, lastOnSeveral, linesBack, newSession, sharedWith, toldIn } from '../session.js';
import { consoleOf, digest } from '../transcript.js';
import { forAllSaid, judgedSaid, othersSaid, sharedSaid } from '../words.js';

globalThis.localStorage = { getItem: () => null, setItem() {}, removeItem() {} };

// Calls 1, 2 and 4 of `a` are asked the same, 3 is not; `b` is called once.
const TREE = '0 z #0 wrong\n1 in 0 a #1 unjudged\n2 in 0 a #1 unjudged\n3 in 0 a #1 unjudged\n4 in 0 a #1 unjudged\n5 in 0 b #2 unjudged\n';
const savedWith = (...calls) => utf8Bytes(JSON.stringify({ entries: [0, ...calls].map((call) => ({ call, kind: 'right', standing: true })) }));
const session = (calls, ...lines) => ({ ...newSession('z.pas', fileOfText(''), fileOfText('')), lines, told: toldIn(savedWith(...calls)) });
const shown = (entries) => entries.slice(1).map(({ number, kind, call, sharedWith: own, standing }) => [number, kind, call, own, standing]);

test('what the command says of them', () => {
  const ask = { kind: 'alike', call: 2 };
  const answer = (reply) => digest(utf8Bytes(`call 0 z\n  returned\nnot understood\n${reply}not understood\n`), [ask]).answers[0];
  assert.equal(consoleOf([], [ask]), '@\nalike 2\n@\nquit\n');
  assert.deepEqual(answer('alike 1 2 4\n'), { kind: 'alike', calls: [1, 2, 4] });
  assert.deepEqual(answer('alike 2\n'), { kind: 'alike', calls: [2] });
  for (const reply of ['no call 2', 'too many to compare', 'alike', 'alike 1 two']) assert.deepEqual(answer(`${reply}\n`), { kind: 'refused', text: reply });
  assert.deepEqual(answer(''), { kind: 'refused', text: 'not understood' });
  const { length } = answer(`alike${Array.from({ length: 500_000 }, (_, call) => ` ${call}`).join('')}\n`).calls;
  assert.equal(length, 500_000);
});

test('an answer has an entry for each of them', () => {
  const entries = entriesOf(session([1, 2, 4, 3], 'shared right 2', 'wrong 3'), ['entries 2 to 4', 'entry 5']);
  assert.deepEqual(shown(entries), [[2, 'right', 1, 3, true], [3, 'right', 2, 3, true], [4, 'right', 4, 3, true], [5, 'wrong', 3, undefined, true]]);
  assert.deepEqual([sharedWith(entries, 3).map((entry) => entry.number), entries.map(answerOf)], [[2, 4], [undefined, 3, undefined, 3, undefined]]);
  const tree = treeOf(utf8Bytes(TREE));
  markBy(tree, entries);
  assert.deepEqual([[...tree.mark], [...suspectsOf(tree)]], [[2, 1, 1, 2, 1, 0], []]);
  assert.deepEqual(['shared right 2', 'shared unknown 1', 'slice 1 x', 'shared back 2', 'right 2', 'shared 2'].map(isOnSeveral), [true, true, true, false, false, false]);
});

test('where the calls are not known, the entries are there all the same', () => {
  const entries = entriesOf(session([], 'shared unknown 2'), ['entries 2 to 4']);
  assert.deepEqual(shown(entries), [[2, 'unknown', undefined, 2, true], [3, 'unknown', undefined, 2, true], [4, 'unknown', undefined, 2, true]]);
  assert.deepEqual(linesBack(entries, 2), ['back 4', 'back 3', 'back 2']);
});

test('it is taken back by one line, or entry by entry where another answer would go as well', () => {
  const lines = ['shared right 2'];
  const entries = entriesOf(session([1, 2, 4], ...lines), ['entries 2 to 4']);
  assert.deepEqual([lastOnSeveral(entries), linesBack(entries, 3), linesBack(entries, 4)], [3, ['shared back 4'], ['back 4']]);
  const gone = entriesOf(session([1, 2, 4], ...lines, 'shared back 4'), ['entries 2 to 4', 'taken back 3']);
  assert.deepEqual([gone.map((entry) => entry.standing), lastOnSeveral(gone)], [[true, false, false, false], null]);
  const before = entriesOf(session([4, 1, 2, 4], 'wrong 4', 'shared right 2'), ['entry 2', 'entries 3 to 5']);
  assert.deepEqual(linesBack(before, 4), ['back 5', 'back 4', 'back 3']);
  const all = entriesOf(session([4, 1, 2, 4], 'wrong 4', 'shared right 2', 'shared back 1'), ['entry 2', 'entries 3 to 5', 'taken back 4']);
  assert.deepEqual(all.map((entry) => entry.standing), [true, false, false, false, false]);
  const oneLess = entriesOf(session([1, 2, 4], ...lines, 'back 2'), ['entries 2 to 4', 'back 2']);
  assert.deepEqual([linesBack(oneLess, 3), linesBack(oneLess, 2)], [['shared back 4'], []]);
  const trusted = entriesOf(session([1, 2, 4], ...lines, 'trust #1'), ['entries 2 to 4', 'entry 5']);
  assert.deepEqual([linesBack(trusted, 3), lastOnSeveral(trusted)], [['shared back 4'], null]);
});

test('a call whose routine has no other is alone', () => {
  const tree = treeOf(utf8Bytes(TREE));
  assert.deepEqual([0, 1, 2, 4, 5].map((call) => isAlone(tree, call)), [true, false, false, false, true]);
});

// A command that knows the lines where `knows`, and asks about call 2, then 3, then 5.
const question = (call) => `ask ${call} suspects 2 left 1\ncall ${call} ${call === 5 ? 'b' : 'a'} in call 0\n  changes x = ${call === 3 ? 1 : 0}\n  returned\n`;
const REPLIES = { 'shared right 2': `entries 2 to 4\n${question(3)}`, 'shared back 4': `taken back 3\n${question(2)}`, 'right 3': `entry 5\n${question(5)}`,
  'shared wrong 3': 'book is full\n', 'slice 3 x': `entries 5 to 5\n${question(3)}` };
const ALIKE = { 2: 'alike 1 2 4\n', 3: 'alike 3\n' };

function played(knows, alike = ALIKE) {
  const turns = [];
  const line = async (turn) => {
    turns.push(turn);
    const reply = ({ kind, call }) => (kind === 'tree' ? TREE : kind === 'alike' && call < 9 ? alike[call] : knows ? `no call ${call}\n` : 'not understood\n');
    const screen = utf8Bytes([`call 0 z\n  returned\n${question(2)}${turn.lines.map((it) => REPLIES[it]).join('')}`, ...turn.asks.map(reply), ''].join('not understood\n'));
    return { ...digest(screen, turn.asks), status: 0, time: 5, memory: 1000, saved: turn.save ? savedWith(1, 2, 4, 3) : null };
  };
  return { dialog: new Dialog({ stop() {}, think() {}, ask: line, line }, () => {}), turns };
}

async function begun(knows, alike, ...lines) {
  const it = played(knows, alike);
  await it.dialog.run({ ...session([], ...lines), told: [] });
  return it;
}

test('an older command is asked for nothing', async () => {
  const { dialog } = await begun(false);
  assert.deepEqual([dialog.knowsAlike, dialog.asksAlike, dialog.others], [false, [], 0]);
});

test('they are asked for once, and not where no other call is of the routine', async () => {
  const { dialog, turns } = await begun(true);
  assert.deepEqual([dialog.knowsAlike, dialog.asksAlike, dialog.others, alikeKnown(dialog)], [true, [{ kind: 'alike', call: 2 }], 0, '']);
  await dialog.fetch(dialog.asksAlike);
  assert.deepEqual([dialog.asksAlike, dialog.others, dialog.askedTheSame, dialog.canShare, alikeKnown(dialog)], [[], 2, [1, 2, 4], true, '2']);
  assert.deepEqual([1, 4].map((call) => dialog.alike.has(call)), [true, true]);
  await dialog.say('shared right 2');
  assert.deepEqual([dialog.questionCall, dialog.asksAlike], [3, [{ kind: 'alike', call: 3 }]]);
  await dialog.fetch(dialog.asksAlike);
  assert.deepEqual([dialog.others, alikeKnown(dialog)], [0, '0']);
  await dialog.say('right 3');
  assert.deepEqual([dialog.questionCall, dialog.asksAlike, dialog.others], [5, [], 0]);
  assert.equal(turns.length, 5);
});

test('where there is too much to compare, nothing is offered', async () => {
  const { dialog } = await begun(true, { 2: 'too many to compare\n' });
  await dialog.fetch(dialog.asksAlike);
  assert.deepEqual([dialog.others, dialog.asksAlike, dialog.askedTheSame], [0, [], []]);
});

test('nor where there is no room for so many entries', async () => {
  const { dialog } = await begun(true);
  await dialog.fetch(dialog.asksAlike);
  for (const [count, canShare] of [[99_997, true], [99_998, false]]) {
    dialog.entries = Array.from({ length: count }, (_, at) => ({ number: at + 1, kind: 'wrong', call: 0, standing: true }));
    assert.deepEqual([dialog.others, dialog.canShare], [2, canShare]);
  }
});

test('one answer for all, and taking it back', async () => {
  const { dialog, turns } = await begun(true);
  await dialog.say('shared right 2');
  assert.deepEqual([turns.at(-1).save !== null, dialog.session.lines, [...dialog.tree.mark]], [true, ['shared right 2'], [2, 1, 1, 0, 1, 0]]);
  await dialog.say('shared wrong 3');
  assert.deepEqual([dialog.note, dialog.session.lines], ['book is full', ['shared right 2']]);
  await dialog.takeBack(lastOnSeveral(dialog.entries));
  assert.deepEqual([turns.at(-1).save, dialog.session.lines, dialog.questionCall, [...dialog.tree.mark]], [null, ['shared right 2', 'shared back 4'], 2, [2, 0, 0, 0, 0, 0]]);
});

test('a session that is gone on with tells it in its first turn', async () => {
  const { dialog, turns } = await begun(true, ALIKE, 'shared right 2');
  assert.deepEqual([turns[0].save !== null, [...dialog.tree.mark]], [true, [2, 1, 1, 0, 1, 0]]);
});

test('a corrected program is told all of these answers', async () => {
  const { dialog, turns } = await begun(true, ALIKE, 'shared right 2');
  await dialog.savedForAnother();
  assert.deepEqual(turns.at(-1).lines, ['shared right 2']);
});

test('only the last line is forgotten where an answer with very many entries is taken back', async () => {
  const { dialog, turns } = await begun(true, ALIKE, 'shared right 2', 'slice 3 x');
  const more = Array.from({ length: 1000 }, (_, at) => ({ number: 6 + at, kind: 'right', call: 4, sharedWith: 3, standing: true }));
  const one = { number: 1006, kind: 'wrong', call: 1, standing: true };
  dialog.entries = [...dialog.entries.slice(0, 4), ...more, ...dialog.entries.slice(4), one];
  await dialog.takeBack(3);
  assert.deepEqual([turns.at(-1).lines.length, turns.at(-1).lines.slice(0, 2)], [2 + 1003, ['shared right 2', 'slice 3 x']]);
});

test('in words', () => {
  assert.match(othersSaid(1, true), /^Another call was asked just the same: .* for both\.$/);
  assert.match(othersSaid(4, true), /^4 other calls were asked just the same: .* for all 5\.$/);
  assert.match(othersSaid(400_000, false), /^400,000 other calls were asked just the same: .* no room for so many answers\.$/);
  assert.deepEqual([judgedSaid({}, 4), judgedSaid({ right: 1 }, 1), judgedSaid({ right: 1, unknown: 2 }, 4)],
    ['', ' It was judged right before.', ' 1 of them was judged right before. 2 of them were left open before.']);
  assert.deepEqual([forAllSaid(1), forAllSaid(1200)], ['Also for the other call that was asked the same', 'Also for the 1,200 other calls that were asked the same']);
  assert.deepEqual([sharedSaid(1), sharedSaid(2)], ['also for 1 other call that was asked the same', 'also for 2 other calls that were asked the same']);
});
