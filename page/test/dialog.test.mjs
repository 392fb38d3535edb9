// The dialog: what is asked, what is kept, and that nothing is lost when a turn fails. The command is played.
import assert from 'node:assert/strict';
import { test } from 'node:test';
import { fileOfText, utf8Bytes } from '../bytes.js';
import { Dialog } from '../dialog.js';
import { entriesOf, lastKept, newSession } from '../session.js';
import { digest } from '../transcript.js';

const store = new Map();
globalThis.localStorage = { getItem: (key) => store.get(key) ?? null, setItem: (key, value) => store.set(key, value), removeItem: (key) => store.delete(key) };

const CARDS = ['call 0 change\n  returned\n', 'call 1 seventy in call 0\n  changes coins = 52\n  returned\n', 'call 2 fifty in call 1\n  changes coins = 50\n  returned\n'];
const TREE = '0 change #0 wrong\n1 in 0 seventy #3 unjudged\n2 in 1 fifty #1 unjudged\n';

// A command that asks about call 1, then call 2, and then has found one.
function screenFor(lines, asks, knows) {
  const reports = [`ask 1 suspects 2 left 1\n${CARDS[1]}`, `ask 2 suspects 1 left 0\n${CARDS[2]}`, 'found call 1 seventy\n  line 8\n  returned\n'];
  let step = 0;
  const replies = lines.map((line, at) => {
    if (line === 'right 9') return 'no call 9\n';
    step = line.startsWith('back') ? Math.max(0, step - 1) : step + 1;
    return line.startsWith('back') ? `back ${at + 1}\n${reports[step]}` : `entry ${at + 2}\n${reports[Math.min(step, 2)]}`;
  });
  const answers = asks.map((ask) => {
    if (ask.kind === 'tree') return TREE;
    if (ask.kind === 'show') return CARDS[ask.call] ?? 'no call 9\n';
    if (ask.kind === 'trace') return '  line 8\n  call 2 fifty\n  returned\n';
    if (!knows) return 'not understood\n';
    if (ask.kind === 'carry') return ask.call > 2 ? `no call ${ask.call}\n` : `call ${ask.call} ${ask.call < ask.onto ? 'carries' : 'does not carry'} to call ${ask.onto}\n`;
    return ask.name === 'coins' ? '  coins = 0, then 50\n' : `no cell ${ask.name} at call ${ask.call}\n`;
  });
  return utf8Bytes([`${CARDS[0]}${reports[0]}${replies.join('')}`, ...answers, ''].join('not understood\n'));
}

function played({ knows = false } = {}) {
  const turns = [];
  const engine = {
    fails: null,
    stop() {},
    think(turn, lines) { engine.ahead = lines; },
    ask: (turn) => engine.line(turn),
    async line(turn) {
      turns.push(turn);
      if (engine.fails !== null) return engine.fails;
      const shown = digest(screenFor(turn.lines, turn.asks, knows), turn.asks);
      return { ...shown, status: 0, time: 5, memory: 1000, saved: turn.save ? utf8Bytes('{"budget":1,"entries":[]}') : null };
    },
  };
  return { dialog: new Dialog(engine, () => {}), engine, turns };
}

const session = () => newSession('change.pas', fileOfText('program change; ..'), fileOfText(''));

test('a run asks for the tree at once, and an answer for nothing besides', async () => {
  const { dialog, engine, turns } = played();
  await dialog.run(session());
  assert.deepEqual(turns[0].asks.map((ask) => ask.kind), ['tree', 'state', 'carry', 'slice', 'alike', 'refer']);
  assert.equal(dialog.questionCall, 1);
  assert.deepEqual([dialog.knowsState, dialog.knowsCarry, dialog.knowsSlice, dialog.knowsAlike, dialog.knowsRefer], [false, false, false, false, false]);
  dialog.thinkAhead();
  assert.deepEqual(engine.ahead, ['right 1', 'wrong 1']);
  await dialog.say('wrong 1');
  assert.deepEqual([turns[1].lines, turns[1].asks], [['wrong 1'], []]);
  assert.equal(dialog.questionCall, 2);
  assert.deepEqual([...dialog.tree.mark], [2, 2, 0]);
  assert.equal(lastKept().lines.length, 1);
});

test('a line that is refused is not kept, and its reply is told', async () => {
  const { dialog } = played();
  await dialog.run(session());
  await dialog.say('right 9');
  assert.deepEqual(dialog.session.lines, []);
  assert.equal(dialog.note, 'no call 9');
  await dialog.say('wrong 1');
  assert.equal(dialog.note, '');
});

test('what fails loses no answer', async () => {
  const { dialog, engine } = played();
  await dialog.run(session());
  await dialog.say('wrong 1');
  for (const fails of [{ stopped: true }, { trap: 'out of memory' }, { status: 7, raw: '' }]) {
    engine.fails = fails;
    await dialog.say('right 2');
    assert.notEqual(dialog.problem, null);
    assert.deepEqual(dialog.session.lines, ['wrong 1']);
    assert.equal(dialog.questionCall, 2);
  }
  engine.fails = null;
  await dialog.say('right 2');
  assert.equal(dialog.problem, null);
  assert.equal(dialog.report.kind, 'found');
});

test('cards and traces are asked for once', async () => {
  const { dialog, turns } = played();
  await dialog.run(session());
  const asks = [{ kind: 'show', call: 2 }, { kind: 'trace', call: 1 }];
  await dialog.fetch(asks);
  await dialog.fetch(asks);
  assert.equal(turns.length, 2);
  assert.equal(dialog.cards.get(2).name, 'fifty');
  assert.deepEqual([...dialog.traces.get(1).calls], [2]);
});

test('looking at a variable, where the command knows the line', async () => {
  const { dialog, turns } = played({ knows: true });
  await dialog.run(session());
  assert.equal(dialog.knowsState, true);
  const seen = await dialog.lookAt(2, 'coins');
  assert.deepEqual([seen.name, seen.reply, seen.cells.map(({ name, before, after }) => [name, before, after])], ['coins', '', [['coins', '0', '50']]]);
  const none = await dialog.lookAt(2, 'cent');
  assert.deepEqual([none.cells, none.reply], [[], 'no cell cent at call 2']);
  assert.equal(turns.length, 3);
  assert.equal(await dialog.lookAt(2, 'coins'), seen);
  assert.equal(turns.length, 3);
  dialog.looksAt(2).set('form coins', seen);
  assert.deepEqual([[...dialog.looksAt(2).keys()], dialog.looksAt(1).size], [['form coins'], 0]);
});

test('whether a call would have done the same, asked once, where the command knows the line', async () => {
  const { dialog, engine, turns } = played({ knows: true });
  await dialog.run(session());
  assert.equal(dialog.knowsCarry, true);
  assert.equal(dialog.carryKnown(1, 2), null);
  assert.equal(await dialog.compare(1, 2), true);
  assert.deepEqual([turns[1].lines, turns[1].asks], [[], [{ kind: 'carry', call: 1, onto: 2 }]]);
  assert.equal(await dialog.compare(1, 2), true);
  assert.equal(dialog.carryKnown(1, 2), true);
  assert.equal(turns.length, 2);
  // The card of call 2 is not there yet.
  assert.equal(await dialog.compare(2, 1), false);
  assert.deepEqual(turns[2].asks, [{ kind: 'carry', call: 2, onto: 1 }, { kind: 'show', call: 2 }]);
  assert.equal(dialog.cards.get(2).name, 'fifty');
  assert.equal(await dialog.compare(9, 1), null);
  engine.fails = { stopped: true };
  assert.equal(await dialog.compare(0, 1), null);
  assert.equal(dialog.carryKnown(0, 1), null);
  assert.deepEqual(dialog.session.lines, []);
});

test('a new program sets the answers of the old one aside', async () => {
  store.clear();
  const { dialog } = played();
  await dialog.run(session());
  await dialog.say('wrong 1');
  await dialog.run({ ...session(), name: 'other.pas' });
  assert.equal(lastKept().name, 'change.pas');
  await dialog.say('wrong 1');
  assert.equal(lastKept().name, 'other.pas');
});

test('a browser that keeps nothing is told of', async () => {
  const { dialog } = played();
  const { setItem } = globalThis.localStorage;
  globalThis.localStorage.setItem = () => { throw new Error('full'); };
  await dialog.run(session());
  await dialog.say('wrong 1');
  assert.equal(dialog.isKept, false);
  globalThis.localStorage.setItem = setItem;
});

test('notes stand on entries, and entries of another text are not taken over', () => {
  const saved = utf8Bytes('{"entries":[{"call":0,"kind":"wrong","standing":true},{"call":2,"kind":"right","note":"by hand","standing":true}]}');
  const of = (lines) => ({ ...newSession('c.pas', fileOfText(''), fileOfText(''), '1000000', saved), lines });
  const own = entriesOf(of(['right 1', 'note 3 as 2', 'note 1  all', 'note 9 none']), ['entry 3', 'noted 3', 'noted 1', 'no entry 9']);
  assert.deepEqual(own.map((entry) => [entry.number, entry.call, entry.note]), [[1, 0, 'all'], [2, 2, 'by hand'], [3, 1, 'as 2']]);
  const other = entriesOf(of(['right 1', 'note 2 new']), ['entry 2', 'noted 2'], true);
  assert.deepEqual(other.map((entry) => [entry.number, entry.call, entry.note]), [[1, 0, undefined], [2, 1, 'new']]);
});
