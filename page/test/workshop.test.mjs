// One worker: it answers a turn, says what went wrong, and gives no answer once it was ended; the browser's workers are played.
import assert from 'node:assert/strict';
import { test } from 'node:test';
import { Workshop } from '../workshop.js';

// Answers each turn after a moment.
class Played {
  constructor() {
    this.isEnded = false;
    this.module = null;
  }

  postMessage({ module, turn }) {
    if (module !== undefined) this.module = module;
    else if (turn === 'fail') setTimeout(() => this.onerror({ message: 'too much' }), 1);
    else setTimeout(() => { if (!this.isEnded) this.onmessage({ data: { said: `${turn} in ${this.module}`, memory: turn.length } }); }, 1);
  }

  terminate() {
    this.isEnded = true;
  }
}

globalThis.Worker = Played;

test('turns are answered one after the other', { timeout: 60_000 }, async () => {
  const workshop = new Workshop('');
  workshop.open('m');
  assert.equal((await workshop.turn('one')).said, 'one in m');
  assert.equal((await workshop.turn('second')).said, 'second in m');
  assert.equal(workshop.memory, 6);
  assert.deepEqual(await workshop.turn('fail'), { trap: 'too much' });
  assert.equal(workshop.memory, 0);
});

test('a worker that did not start says so when it is asked', { timeout: 60_000 }, async () => {
  const workshop = new Workshop('');
  workshop.worker.onerror({ message: '' });
  assert.deepEqual(await workshop.turn('one'), { trap: 'the worker did not start' });
});

test('a worker that was ended gives no answer', { timeout: 60_000 }, async () => {
  const workshop = new Workshop('');
  const answer = workshop.turn('one').then(() => 'answered');
  workshop.end();
  const later = new Promise((done) => { setTimeout(() => done('nothing'), 50); });
  assert.equal(await Promise.race([answer, later]), 'nothing');
});
