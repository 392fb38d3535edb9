// The instances of a worker: what each turn finds in its memory, and when there is another one. The module is played: all that an
// instance knows stands in its memory, as it does in a real one.
import assert from 'node:assert/strict';
import { test } from 'node:test';
import { utf8Bytes } from '../bytes.js';
import { Instances } from '../instance.js';

const PAGE = 65536, STACK = 16 * PAGE, MOST = 4096 * PAGE;
// Above the stack stand a constant, what counts the turns, and the place of the next block of the heap.
const CONSTANT = STACK, TURNS = STACK + 8, NEXT = STACK + 16, HEAP = STACK + 64;
const FULL = 6n;
let made = 0;

// An instance whose turn prints the console's bytes, how many turns it knows of, and where the heap began.
class Played {
  constructor() {
    made += 1;
    const memory = { buffer: new ArrayBuffer(STACK + PAGE) };
    const words = () => new BigUint64Array(memory.buffer);
    words()[CONSTANT / 8] = 0x5741534dn;
    const room = (size) => {
      const at = words()[NEXT / 8] || BigInt(HEAP), end = Number(at + size + 15n) & ~15;
      if (end > MOST) return 0n;
      if (end > memory.buffer.byteLength) {
        const grown = new Uint8Array(Math.ceil(end / PAGE) * PAGE);
        grown.set(new Uint8Array(memory.buffer));
        memory.buffer = grown.buffer;
      }
      words()[NEXT / 8] = BigInt(end);
      return at;
    };
    const turn = (...given) => {
      const [lines, length, screen, screenRoom, , , came] = given.slice(13);
      const text = new TextDecoder().decode(new Uint8Array(memory.buffer, Number(lines), Number(length)));
      if (text.startsWith('trap')) throw new Error('unreachable');
      words()[TURNS / 8] += 1n;
      // The stack and the heap are left as they are used.
      new Uint8Array(memory.buffer, 0, STACK).fill(7);
      const [wanted] = text.match(/\d+/) ?? ['0'];
      const isFull = screenRoom < BigInt(wanted), block = room(BigInt(wanted));
      new Uint8Array(memory.buffer, Number(block), Number(wanted)).fill(9);
      const shown = isFull ? '' : `${text} ${words()[TURNS / 8]} ${given[0]} ${words()[CONSTANT / 8].toString(16)}`;
      new Uint8Array(memory.buffer).set(utf8Bytes(shown), Number(screen));
      words().set([isFull ? FULL : 0n, BigInt(shown.length), 0n, 0n], Number(came) / 8);
    };
    this.exports = { memory, room, pasask_turn: turn };
  }
}

globalThis.WebAssembly = { Instance: Played };

const asked = (text) => ({ source: utf8Bytes('s'), input: utf8Bytes(''), budget: '1', session: null, text, isLong: false, printed: 0 });
const screenOf = (came) => new TextDecoder().decode(came.screen);

function opened() {
  made = 0;
  return new Instances({});
}

test('each turn finds what the first one found, in the same instance', () => {
  const instances = opened();
  const first = screenOf(instances.turn(asked('one')));
  assert.equal(first, `one 1 ${HEAP} 5741534d`);
  assert.equal(screenOf(instances.turn(asked('one'))), first);
  assert.equal(screenOf(instances.turn(asked('two'))), `two 1 ${HEAP} 5741534d`);
  assert.equal(made, 1);
});

test('further files go in one after the other, with the sizes of their names and of themselves', () => {
  const instances = opened();
  let given = null;
  const { exports } = instances;
  const turn = exports.pasask_turn;
  exports.pasask_turn = (...words) => {
    const numbers = (at, count) => Array.from(new BigUint64Array(exports.memory.buffer, Number(at), count), Number);
    const [sizes, count, files, length] = words.slice(9);
    given = [numbers(sizes, 2 * Number(count)), new TextDecoder().decode(new Uint8Array(exports.memory.buffer, Number(files), Number(length)))];
    turn(...words);
  };
  instances.turn(asked('none'));
  assert.deepEqual(given, [[], '']);
  instances.turn({ ...asked('two'), files: [{ name: 'a.pas', bytes: utf8Bytes('begin') }, { name: '\u00e9', bytes: utf8Bytes('') }] });
  assert.deepEqual(given, [[5, 5, 2, 0], 'a.pasbegin\u00e9']);
});

test('where there was no memory for an instance, the turn tries again, and tells', () => {
  globalThis.WebAssembly = { Instance: class { constructor() { throw new RangeError('no memory'); } } };
  const instances = opened();
  assert.throws(() => instances.turn(asked('one')), /no memory/);
  globalThis.WebAssembly = { Instance: Played };
  assert.equal(screenOf(instances.turn(asked('one'))), `one 1 ${HEAP} 5741534d`);
});

test('memory that the instance got stays for the turns that follow', () => {
  const instances = opened();
  const { memory } = instances.turn(asked('500000'));
  assert.equal(instances.turn(asked('one')).memory, memory);
  assert.equal(instances.turn(asked('500000')).memory, memory);
});

test('an instance that failed serves no more', () => {
  const instances = opened();
  assert.throws(() => instances.turn(asked('trap')), /unreachable/);
  assert.equal(screenOf(instances.turn(asked('one'))), `one 1 ${HEAP} 5741534d`);
  assert.equal(made, 2);
  assert.throws(() => instances.turn({ ...asked('one'), source: new Uint8Array(MOST) }), /out of memory/);
  assert.equal(screenOf(instances.turn(asked('one'))), `one 1 ${HEAP} 5741534d`);
  assert.equal(made, 3);
});

test('a screen that is too small is tried again with more room, from the beginning', () => {
  const instances = opened();
  assert.equal(screenOf(instances.turn(asked('2000000'))), `2000000 1 ${HEAP} 5741534d`);
  assert.equal(made, 1);
});
