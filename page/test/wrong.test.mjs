// A wrong output of a call: what can be said to be wrong on a card, what is left out, and how that is taken back.
import assert from 'node:assert/strict';
import { test } from 'node:test';
import { fileOfText, utf8Bytes } from '../bytes.js';
import { markBy, suspectsOf, treeOf } from '../call_table.js';
import { cardOf, wordsOf } from '../card.js';
import { offerOf } from '../compare.js';
import { Dialog } from '../dialog.js';
import { entriesOf, lastOnSeveral, leftOutBy, linesBack, newSession, toldIn } from '../session.js';
import { digest } from '../transcript.js';
import { leftOutSaid, replySaid } from '../words.js';

const kept = [];
globalThis.localStorage = { getItem: () => null, setItem: (key, text) => kept.push(JSON.stringify(JSON.parse(text).lines)), removeItem() {} };

const words = (...lines) => wordsOf(cardOf(`call 1 m in call 0\n${lines.map((line) => `  ${line}\n`).join('')}`));

test('the words for what can be wrong of a card', () => {
  assert.deepEqual(words('reads x = 1', 'changes y = 2', 'returned'), []);
  assert.deepEqual(words('looks "12"', 'takes "1"', 'gives "7"', 'result 3', 'faulted ZeroDivisor line 6'), ['takes', 'gives', 'result', 'way']);
  assert.deepEqual(words('looks "12"', 'returned'), []);
  assert.deepEqual([words('jumped to 9 of call 1'), words('out of steps'), words('limited depth')], [['way'], ['way'], ['way']]);
});

test('a card that was cut off does not tell how its call ended', () => assert.deepEqual(words('changes y = 2'), []));

test('a changed variable that is called like a word goes first', () => {
  assert.deepEqual(words('changes gives = 1', 'changes way = 2', 'gives "b"', 'result 4', 'out of steps'), ['result']);
  assert.deepEqual(words('reads gives = 1', 'changes Result = 2', 'gives "b"', 'result 4', 'returned'), ['gives', 'result']);
});

test('variables made by new are told from those that were there', () => {
  assert.deepEqual(words('changes q = ^1', 'changes ^1^ = ?', 'returned'), ['makes']);
  assert.deepEqual(words('changes ^1^.key = 4', 'changes ^1^.next gone', 'returned'), ['makes']);
  assert.deepEqual(words('reads p = ^1', 'changes ^1^ = 5', 'returned'), []);
  assert.deepEqual(words('p = ^1', 'changes ^1^ = 5', 'returned'), []);
  assert.deepEqual(words('v = at ^1^.next', 'changes ^1^.next = nil', 'returned'), []);
  assert.deepEqual(words('reads ^1^.next = nil', 'changes ^1^.next = ^2', 'changes ^2^.next = nil', 'returned'), ['makes']);
  assert.deepEqual(words('reads ^1^.next = ^2', 'changes ^2^.next = nil', 'returned'), []);
});

// Call 3 has no part in x: m calls a, b and c.
const TREE = '0 g #0 wrong\n1 in 0 m #4 unjudged\n2 in 1 a #1 unjudged\n3 in 1 b #2 unjudged\n4 in 1 c #3 unjudged\n';
const SAVED = utf8Bytes('{"entries":[{"call":0,"kind":"wrong","standing":true},{"call":1,"kind":"wrong","standing":true},{"call":3,"kind":"right","standing":true},{"kind":"trust","routine":1,"standing":true}]}');

const session = (...lines) => ({ ...newSession('g.pas', fileOfText(''), fileOfText('')), lines, told: toldIn(SAVED) });
const ENTRIES = ['entries 2 to 3', 'entry 4'];
const LINES = ['slice 1 x', 'trust #1'];

test('an answer has an entry, and each call that it left out another one', () => {
  const entries = entriesOf(session(...LINES), ENTRIES);
  assert.deepEqual(entries.map(({ number, kind, call, routine, output, leftOutBy: by, standing }) => [number, kind, call ?? routine, output ?? by ?? '', standing]),
    [[1, 'wrong', 0, '', true], [2, 'wrong', 1, 'x', true], [3, 'right', 3, 2, true], [4, 'trust', 1, '', true]]);
  assert.deepEqual(leftOutBy(entries, 2).map((entry) => entry.number), [3]);
  const names = entriesOf(session("slice 7 a[' ']", 'slice 1 ^2^.next'), ['entries 2 to 2', 'no output ^2^.next']);
  assert.deepEqual(names.map(({ call, output }) => [call, output ?? '']), [[0, ''], [7, "a[' ']"]]);
});

test('where the calls are not known, the entries are there all the same', () => {
  const entries = entriesOf({ ...session(...LINES), told: [] }, ENTRIES);
  assert.deepEqual(entries.map(({ number, call }) => [number, call]), [[1, 0], [2, 1], [3, undefined], [4, undefined]]);
  const tree = treeOf(utf8Bytes(TREE));
  markBy(tree, entries);
  assert.deepEqual([...tree.mark], [2, 2, 4, 0, 0]);
  assert.deepEqual([toldIn(utf8Bytes('no json')), toldIn(SAVED)], [[{}], [{}, ...[0, 1, 3].map((call) => ({ kind: call === 3 ? 'right' : 'wrong', call })), { kind: 'trust', call: undefined }]]);
});

test('it is taken back with what it left out, and that alone as well', () => {
  const entries = entriesOf(session(...LINES), ENTRIES);
  assert.deepEqual(linesBack(entries, 2), ['back 3', 'back 2']);
  assert.deepEqual([linesBack(entries, 3), linesBack(entries, 4), lastOnSeveral(entries)], [['back 3'], ['back 4'], null]);
  const onlySlice = entriesOf(session('slice 1 x'), ['entries 2 to 3']);
  assert.equal(lastOnSeveral(onlySlice), 2);
  const oneLess = entriesOf(session('slice 1 x', 'back 3'), ['entries 2 to 3', 'back 3']);
  assert.deepEqual([linesBack(oneLess, 2), lastOnSeveral(oneLess)], [['back 2'], 2]);
  const none = entriesOf(session('slice 1 x', 'back 3', 'back 2', 'back 1'), ['entries 2 to 3', 'back 3', 'back 2', 'back 1']);
  assert.deepEqual([none.map((entry) => entry.standing), lastOnSeveral(none), lastOnSeveral([])], [[false, false, false], null, null]);
});

test('a call that was left out counts as right, is told from one that was judged, and is offered for no comparison', () => {
  const tree = treeOf(utf8Bytes(TREE.replace('c #3', 'b #2')));
  const entries = entriesOf(session('slice 1 x'), ['entries 2 to 3']);
  markBy(tree, entries);
  assert.deepEqual([[...tree.mark], [...tree.leftOut], [...suspectsOf(tree)]], [[2, 2, 0, 1, 0], [3], [2, 4]]);
  const cards = new Map([3, 4].map((call) => [call, cardOf(`call ${call} b in call 1\n  changes y = 2\n  returned\n`)]));
  const known = { knowsCarry: true, tree, cards, questionCall: 4 };
  assert.equal(offerOf({ ...known, entries }), null);
  const judged = entriesOf(session('slice 1 x', 'right 3'), ['entries 2 to 3', 'entry 4']);
  markBy(tree, judged);
  assert.deepEqual([[...tree.leftOut], offerOf({ ...known, entries: judged })], [[], { judged: 3, asked: 4, mark: 'right' }]);
  markBy(tree, entriesOf(session('slice 1 x', 'back 3'), ['entries 2 to 3', 'back 3']));
  assert.deepEqual([[...tree.mark], [...tree.leftOut]], [[2, 2, 0, 0, 0], []]);
});

// A command that knows the line where `knows`, and asks about call 2 once call 1 is judged.
const REPLIES = { 'slice 1 x': 'entries 2 to 3', 'slice 1 z': 'no output z', 'back 3': 'back 3', 'back 2': 'back 2' };
const [FIRST, SECOND] = [1, 2].map((call) => `ask ${call} suspects 2 left 1\ncall ${call} ${'ma'[call - 1]} in call ${call - 1}\n  changes x = ${call}\n  returned\n`);

function played(knows) {
  const turns = [];
  const line = async (turn) => {
    turns.push(turn);
    const replies = turn.lines.map((it) => `${REPLIES[it]}\n${it.startsWith('slice 1 x') || it === 'back 3' ? SECOND : it === 'back 2' ? FIRST : ''}`);
    const answers = turn.asks.map(({ kind, call }) => (kind === 'tree' ? TREE : knows ? `no call ${call}\n` : 'not understood\n'));
    const screen = utf8Bytes([`call 0 g\n  returned\n${FIRST}${replies.join('')}`, ...answers, ''].join('not understood\n'));
    return { ...digest(screen, turn.asks), status: 0, time: 5, memory: 1000, saved: turn.save ? SAVED : null };
  };
  return { dialog: new Dialog({ stop() {}, think() {}, ask: line, line }, () => {}), turns };
}

const begun = async (knows, ...lines) => {
  const it = played(knows);
  await it.dialog.run({ ...session(...lines), told: [] });
  return it;
};

test('an older command is not asked for it', async () => {
  assert.deepEqual([(await begun(false)).dialog.knowsSlice, (await begun(true)).dialog.knowsSlice], [false, true]);
});

test('which calls a line left out is read off the session, and once', async () => {
  const { dialog, turns } = await begun(true);
  await dialog.say('slice 1 x');
  assert.deepEqual([turns[1].save !== null, dialog.session.lines, dialog.questionCall], [true, ['slice 1 x'], 2]);
  assert.deepEqual([[...dialog.tree.mark], [...dialog.tree.leftOut]], [[2, 2, 0, 1, 0], [3]]);
  await dialog.takeBack(2);
  assert.deepEqual([turns[2].save, dialog.session.lines], [null, ['slice 1 x', 'back 3', 'back 2']]);
  assert.deepEqual([[...dialog.tree.mark], dialog.questionCall], [[2, 0, 0, 0, 0], 1]);
  assert.deepEqual(dialog.entries.map((entry) => [entry.call, entry.standing]), [[0, true], [1, false], [3, false]]);
});

test('an answer that left out very many is forgotten where it is taken back at once', async () => {
  const { dialog, turns } = await begun(true);
  await dialog.say('slice 1 x');
  dialog.entries = [...dialog.entries, ...Array.from({ length: 1000 }, (_, at) => ({ number: 4 + at, kind: 'right', call: 3, leftOutBy: 2, standing: true }))];
  const { entries } = dialog;
  await dialog.takeBack(2);
  assert.deepEqual([turns.at(-1).lines, dialog.session.lines, dialog.questionCall, [...dialog.tree.mark]], [[], [], 1, [2, 0, 0, 0, 0]]);
  assert.equal(kept.at(-1), '[]');
  await dialog.say('slice 1 x');
  await dialog.say('back 3');
  dialog.entries = entries;
  await dialog.takeBack(2);
  assert.equal(turns.at(-1).lines.length, 2 + 1002);
});

test('a session that is gone on with tells it in its first turn', async () => {
  const { dialog, turns } = await begun(true, 'slice 1 x');
  assert.equal(turns[0].save !== null, true);
  assert.deepEqual([[...dialog.tree.mark], [...dialog.tree.leftOut]], [[2, 2, 0, 1, 0], [3]]);
});

test('a name that nothing has is told, and not kept', async () => {
  const { dialog } = await begun(true);
  await dialog.say('slice 1 z');
  assert.deepEqual([dialog.session.lines, dialog.note, dialog.entries.length], [[], 'no output z', 1]);
  assert.match(replySaid('no output z'), /no variable of this name/);
  assert.match(replySaid('no output makes'), /nothing of that kind/);
  assert.match(replySaid('too many to compare'), /for the call as a whole/);
});

test('for a corrected program nothing is taken over that was only left out', async () => {
  const { dialog, turns } = await begun(true);
  await dialog.say('slice 1 x');
  await dialog.savedForAnother();
  assert.deepEqual(turns.at(-1).lines, ['slice 1 x', 'back 3']);
  await dialog.saved();
  assert.deepEqual(turns.at(-1).lines, ['slice 1 x']);
});

test('answers that are taken back one after the other make one question', () => {
  const questions = (...parts) => digest(utf8Bytes(`call 0 g\n  returned\n${FIRST}${parts.join('')}`), []).questions.map((it) => it.call);
  assert.deepEqual(questions(`entries 2 to 3\n${SECOND}`, `back 3\n${SECOND}`, `back 2\n${FIRST}`), [1, 2, 1]);
  assert.deepEqual(questions(`entry 2\n${SECOND}`, `back 2\n${FIRST}`, `entry 3\n${SECOND}`, `back 3\n${FIRST}`), [1, 2, 1, 2, 1]);
  assert.deepEqual(questions(`entries 2 to 3\nnothing wrong\n`, `back 3\nnothing wrong\n`, `back 2\n${FIRST}`), [1, 1]);
});

test('how many calls were left out', () => {
  assert.deepEqual([leftOutSaid(1, true), leftOutSaid(1200, true)].map((it) => it.replace(/ had.*/, '')), ['1 call below', '1,200 calls below']);
  assert.deepEqual([leftOutSaid(0, true), leftOutSaid(0, false)], ['No call could be left out.', 'It made no other call, so there is nothing to leave out.']);
});
