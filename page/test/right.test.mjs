// A right program: when it is read, what it says of a call, and that none that is refused is kept. The command is played.
import assert from 'node:assert/strict';
import { test } from 'node:test';
import { fileOfText, latin, utf8Bytes } from '../bytes.js';
import { Dialog } from '../dialog.js';
import { answersIn, entriesOf, isNews, lastKept, newSession, rightFiles, rightOf, toldIn } from '../session.js';
import { consoleOf, digest } from '../transcript.js';
import { replySaid } from '../words.js';

const store = new Map();
globalThis.localStorage = { getItem: (key) => store.get(key) ?? null, setItem: (key, value) => store.set(key, value), removeItem: (key) => store.delete(key) };

const ONE = { name: 'right.pas', file: fileOfText('program r; ..') };
const OTHER = { name: 'other.pas', file: fileOfText('program s; ..') };
const NONE = { name: 'none.pas', file: fileOfText('no program') };
const LONG = { name: 'long.pas', file: fileOfText('too long') };

const question = (call) => `ask ${call} suspects 2 left 1\ncall ${call} a in call 0\n  changes x = 2\n  returned\n`;
const TREE = '0 p #0 wrong\n1 in 0 a #1 unjudged\n2 in 0 b #2 unjudged\n';

// A command that reads each file but those of NONE and LONG, says of call 1 that it is wrong, and knows nothing of call 2.
function replyTo(line, at, files) {
  const [, name] = /^reference (.*)$/.exec(line) ?? [];
  if (name !== undefined) {
    const text = latin(files.find((file) => file.name === name)?.bytes ?? utf8Bytes('too long'));
    if (text.startsWith('no program')) return 'reference refused: NotProgram, line 1, byte 3\n';
    return text.startsWith('too long') ? `not fetched ${name}\n` : `reference ${name}\n`;
  }
  if (line === 'refer 2') return 'no reference for call 2\n';
  return line.startsWith('back') ? `${line}\n${question(1)}` : `entry ${at}\n${question(2)}`;
}

function played(knows = true) {
  const turns = [];
  const line = async (turn) => {
    turns.push(turn);
    let entries = 1;
    const replies = turn.lines.map((it) => {
      const reply = replyTo(it, entries + 1, turn.files);
      if (reply.startsWith('entry')) entries += 1;
      return reply;
    });
    const answers = turn.asks.map(({ kind }) => (kind === 'tree' ? TREE : kind === 'refer' && knows ? 'no reference\n' : 'not understood\n'));
    const screen = utf8Bytes([`call 0 p\n  returned\n${question(1)}${replies.join('')}`, ...answers, ''].join('not understood\n'));
    const saved = { entries: [{ kind: 'wrong', call: 0 }, ...Array.from({ length: entries - 1 }, () => ({ kind: 'wrong', call: 1 }))].map((it) => ({ ...it, standing: true })) };
    return { ...digest(screen, turn.asks), status: 0, time: 5, memory: 1000, saved: turn.save ? utf8Bytes(JSON.stringify(saved)) : null };
  };
  return { dialog: new Dialog({ stop() {}, think() {}, ask: line, line }, () => {}), turns };
}

async function begun(knows) {
  const it = played(knows);
  await it.dialog.run(newSession('p.pas', fileOfText('program p; ..'), fileOfText('')));
  return it;
}

test('whether the command knows the line, by its reply', async () => {
  assert.equal(consoleOf([], [{ kind: 'refer', call: 7 }]), '@\nrefer 7\n@\nquit\n');
  for (const knows of [true, false]) assert.equal((await begun(knows)).dialog.knowsRefer, knows);
});

test('it is read at once, and its file goes with each turn', async () => {
  const { dialog, turns } = await begun();
  assert.deepEqual(turns[0].files, []);
  assert.equal(await dialog.sayBy(ONE, []), true);
  assert.deepEqual([dialog.session.lines, rightOf(dialog.session)], [['reference right-1.pas'], ONE]);
  assert.deepEqual([turns.at(-1).files, turns.at(-1).save], [[{ name: 'right-1.pas', bytes: ONE.file.bytes }], null]);
  await dialog.fetch([{ kind: 'show', call: 2 }]);
  assert.equal(turns.at(-1).files.length, 1);
  assert.deepEqual([answersIn(dialog.session.lines), dialog.hasAnswers, lastKept()], [[], false, null]);
});

test('what it says of a call is read off the session', async () => {
  const { dialog, turns } = await begun();
  await dialog.sayBy(ONE, []);
  assert.equal(await dialog.sayBy(ONE, ['refer 1']), true);
  assert.deepEqual([dialog.session.lines, turns.at(-1).save !== null], [['reference right-1.pas', 'refer 1'], true]);
  const [, { number, kind, call, isReferred, standing }] = dialog.entries;
  assert.deepEqual([number, kind, call, isReferred, standing], [2, 'wrong', 1, true, true]);
  assert.deepEqual([...dialog.tree.mark], [2, 2, 0]);
  await dialog.takeBack(2);
  assert.deepEqual([dialog.session.lines.at(-1), dialog.entries[1].standing], ['back 2', false]);
  assert.deepEqual(['refer 1', 'refer', 'reference right-1.pas', 'right 1'].map(isNews), [true, false, false, false]);
});

test('where the session does not tell it, the answer is there all the same', () => {
  const session = { ...newSession('p.pas', fileOfText(''), fileOfText('')), lines: ['reference right-1.pas', 'refer 1', 'note 2 by R'] };
  const entries = (told) => entriesOf({ ...session, told }, ['reference right-1.pas', 'entry 2', 'noted 2']);
  assert.deepEqual([entries([])[1].kind, entries([])[1].call, entries([])[1].note], ['judged', 1, 'by R']);
  assert.equal(entries(toldIn(utf8Bytes('{"entries":[{"kind":"wrong","call":0},{"kind":"right","call":1}]}')))[1].kind, 'right');
});

test('another one is read before it is asked, and each has a name of its own', async () => {
  const { dialog, turns } = await begun();
  await dialog.sayBy(ONE, ['refer 1']);
  await dialog.sayBy(OTHER, ['refer 1']);
  assert.deepEqual(dialog.session.lines, ['reference right-1.pas', 'refer 1', 'reference right-2.pas', 'refer 1']);
  assert.deepEqual(turns.at(-1).files.map(({ name, bytes }) => [name, latin(bytes)]), [['right-1.pas', 'program r; ..'], ['right-2.pas', 'program s; ..']]);
  await dialog.sayBy(OTHER, ['refer 1']);
  assert.equal(dialog.session.lines.length, 5);
});

test('one that is refused is not kept, and the one before stays', async () => {
  const { dialog, turns } = await begun();
  await dialog.sayBy(ONE, []);
  for (const [right, note] of [[NONE, 'reference refused: NotProgram, line 1, byte 3'], [LONG, 'not fetched right-2.pas']]) {
    assert.equal(await dialog.sayBy(right, []), false);
    assert.deepEqual([dialog.note, dialog.unread, rightOf(dialog.session), dialog.session.lines.length], [note, right, ONE, 1]);
  }
  assert.match(replySaid(dialog.note), /too long/);
  await dialog.sayBy(ONE, ['refer 1']);
  assert.deepEqual([dialog.note, dialog.unread, turns.at(-1).files.length], ['', null, 1]);
});

test('where it cannot be asked nothing is kept but what was read before', async () => {
  const { dialog } = await begun();
  assert.equal(await dialog.sayBy(ONE, ['refer 2']), false);
  assert.deepEqual([dialog.session.lines, dialog.session.rights, dialog.unread], [[], [], null]);
  assert.match(replySaid(dialog.note), /cannot answer for this call.*Judge it yourself/);
  await dialog.sayBy(ONE, []);
  await dialog.sayBy(ONE, ['refer 2']);
  assert.deepEqual([dialog.session.lines, rightFiles(dialog.session).length], [['reference right-1.pas'], 1]);
});

test('the browser keeps it with the answers', async () => {
  store.clear();
  const { dialog } = await begun();
  await dialog.sayBy(ONE, ['refer 1']);
  const kept = lastKept();
  assert.deepEqual([kept.lines, kept.rights.map(({ name, file }) => [name, file.text])], [['reference right-1.pas', 'refer 1'], [['right.pas', 'program r; ..']]]);
  const again = played();
  await again.dialog.run({ ...newSession(kept.name, fileOfText('program p; ..'), fileOfText('')), lines: kept.lines, rights: kept.rights });
  assert.deepEqual([again.turns[0].files.length, again.turns[0].save !== null, again.dialog.entries[1].kind], [1, true, 'wrong']);
  store.set('pasask.session', JSON.stringify({ ...JSON.parse(store.get('pasask.session')), rights: undefined }));
  assert.deepEqual(lastKept().rights, []);
});
