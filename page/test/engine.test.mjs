// What is begun ahead, what comes first, what is ended, and which worker does what; with workers that do what the test says.
import assert from 'node:assert/strict';
import { after, test } from 'node:test';
import { Engine, RANK } from '../engine.js';

const MEGABYTE = 1024 * 1024;
const SLOW = { time: 1000, memory: 1 };
const HUGE = { time: 1000, memory: 600 * MEGABYTE };
const PAUSE = 20;
const engines = [];

// Nobody waits for the minute after which memory is given back.
after(() => engines.forEach((engine) => clearTimeout(engine.rest)));

// `running` tells what runs now, in the order in which it was begun; `alive` which workers there are.
function tried() {
  const workers = [];
  const engine = new Engine({}, () => {
    const worker = {
      number: workers.length, does: null, isEnded: false, begun: 0, memory: 0,
      open() {},
      turn(turn) {
        Object.assign(worker, { does: turn.lines.at(-1) ?? turn.asks[0]?.kind ?? 'run', printed: turn.printed, begun: worker.begun + 1 });
        return new Promise((done) => {
          worker.finish = (came) => {
            Object.assign(worker, { does: null, memory: came.memory ?? 1 });
            done({ memory: 1, ...came });
          };
        });
      },
      end() { worker.isEnded = true; worker.does = null; },
    };
    workers.push(worker);
    return worker;
  }, PAUSE);
  engines.push(engine);
  const running = () => engine.jobs.filter((job) => job.isRunning).map((job) => job.worker.does);
  const alive = () => workers.filter((worker) => !worker.isEnded);
  const doing = (what) => workers.find((worker) => worker.does === what);
  // The worker that does this comes to its end.
  const finish = async (what, came = {}) => {
    doing(what).finish(came);
    await breath();
  };
  // A question is there, and what both answers would come to is begun.
  const thought = async (lines, cost) => {
    engine.think(turnOf(lines), ['right 2', 'wrong 2'], cost);
    await paused();
  };
  return { engine, workers, running, alive, doing, finish, thought };
}

const turnOf = (lines, asks = []) => ({ lines, asks, save: null });
const asksFor = (kind) => turnOf([], [{ kind, call: 1 }]);
const breath = () => new Promise((done) => { setTimeout(done, 5); });
const paused = () => new Promise((done) => { setTimeout(done, PAUSE + 10); });

test('both answers are begun, each by a worker of its own, and given at once when asked for', async () => {
  const { engine, running, finish, thought } = tried();
  await thought(['wrong 1'], SLOW);
  assert.deepEqual(running(), ['right 2', 'wrong 2']);
  await finish('right 2', { said: 'r' });
  const answer = engine.line(turnOf(['wrong 1', 'right 2']));
  assert.deepEqual(running(), []);
  assert.equal((await answer).said, 'r');
});

test('an answer that is under way is waited for, and what the other would come to is ended', async () => {
  const { engine, running, finish, thought } = tried();
  await thought(['wrong 1'], SLOW);
  const answer = engine.line(turnOf(['wrong 1', 'wrong 2']));
  assert.deepEqual(running(), ['wrong 2']);
  await finish('wrong 2', { said: 'w' });
  assert.equal((await answer).said, 'w');
  assert.deepEqual(engine.jobs, []);
});

test('nothing is begun where a turn takes no time', async () => {
  const { running, thought } = tried();
  await thought([], { time: 5, memory: 1 });
  assert.deepEqual(running(), []);
});

test('whoever answers at once finds nothing at work, and nothing of that question is begun later', async () => {
  const { engine, workers, running, finish } = tried();
  engine.think(turnOf([]), ['right 2', 'wrong 2'], SLOW);
  const trace = engine.ask(asksFor('trace'), RANK.later);
  assert.deepEqual(running(), []);
  const answer = engine.line(turnOf(['wrong 2']));
  assert.deepEqual(running(), ['wrong 2']);
  assert.deepEqual(await trace, { stopped: true });
  await paused();
  assert.deepEqual(running(), ['wrong 2']);
  await finish('wrong 2', { said: 'w' });
  assert.equal((await answer).said, 'w');
  assert.deepEqual(engine.jobs, []);
  assert.equal(workers.filter((worker) => worker.begun > 0).length, 1);
});

test('a card that is asked for does not wait for the pause', async () => {
  const { engine, running } = tried();
  engine.think(turnOf([]), ['right 2', 'wrong 2'], SLOW);
  engine.ask(asksFor('show'), RANK.asked);
  assert.deepEqual(running(), ['show']);
  await paused();
  assert.deepEqual(running(), ['right 2', 'show']);
});

test('where one takes much memory there is one at a time', async () => {
  const { engine, running, alive, doing, finish, thought } = tried();
  engine.line(turnOf([]));
  await finish('run', { memory: HUGE.memory });
  await thought([], HUGE);
  assert.deepEqual(running(), ['right 2']);
  const first = doing('right 2');
  await finish('right 2', { memory: HUGE.memory });
  assert.deepEqual(running(), ['wrong 2']);
  assert.equal(doing('wrong 2'), first);
  await finish('wrong 2', { memory: HUGE.memory });
  // It holds its memory, and one more is left to a line.
  assert.equal(alive().filter((worker) => worker.memory > 0).length, 2);
});

for (const [cost, name] of [[SLOW, 'two instances'], [HUGE, 'one instance']]) {
  test(`a line that is not ahead begins at once, in a worker that is there already: ${name}`, async () => {
    const { engine, alive, running, doing, finish, thought } = tried();
    await thought(['wrong 1'], cost);
    engine.ask(asksFor('trace'), RANK.later);
    await breath();
    const spares = alive().filter((worker) => worker.begun === 0);
    assert.ok(spares.length >= 1);
    const answer = engine.line(turnOf(['wrong 1', 'unknown 2']));
    assert.deepEqual(running(), ['unknown 2']);
    assert.ok(spares.includes(doing('unknown 2')));
    await finish('unknown 2', { said: 'u' });
    assert.equal((await answer).said, 'u');
    assert.deepEqual(running(), []);
  });
}

test('a line begins at once beside a card that is asked for, or in its place, and the card comes after it', async () => {
  const { engine, running, finish, thought } = tried();
  await thought([], HUGE);
  const card = engine.ask(asksFor('show'), RANK.asked);
  const answer = engine.line(turnOf(['unknown 2']));
  assert.deepEqual(running(), ['unknown 2']);
  await finish('unknown 2', { said: 'u' });
  assert.equal((await answer).said, 'u');
  assert.deepEqual(running(), ['show']);
  await finish('show', { said: 'card' });
  assert.equal((await card).said, 'card');
});

test('what is asked for takes the place of the second answer, which goes on afterwards', async () => {
  const { engine, running, finish, thought } = tried();
  await thought([], SLOW);
  const card = engine.ask(asksFor('show'), RANK.asked);
  assert.deepEqual(running(), ['right 2', 'show']);
  await finish('show', { said: 'card' });
  assert.equal((await card).said, 'card');
  assert.deepEqual(running(), ['right 2', 'wrong 2']);
});

test('what only makes the page fuller waits until both answers are there, and ends with the question', async () => {
  const { engine, running, finish } = tried();
  engine.think(turnOf([]), ['right 2', 'wrong 2'], SLOW);
  const trace = engine.ask(asksFor('trace'), RANK.later);
  assert.deepEqual(running(), []);
  await paused();
  assert.deepEqual(running(), ['right 2', 'wrong 2']);
  await finish('right 2');
  assert.deepEqual(running(), ['wrong 2', 'trace']);
  engine.line(turnOf(['right 2']));
  assert.deepEqual(await trace, { stopped: true });
  assert.deepEqual(running(), []);
});

test('a new question forgets what was ahead of the old one', async () => {
  const { engine, running, thought } = tried();
  await thought([], SLOW);
  engine.think(turnOf(['right 2']), ['right 5'], SLOW);
  await paused();
  assert.deepEqual(running(), ['right 5']);
  assert.equal(engine.jobs.length, 1);
});

test('Stop ends all, and tells who waits', async () => {
  const { engine, running, finish } = tried();
  const long = engine.line(turnOf(['right 1']));
  engine.stop();
  assert.deepEqual(await long, { stopped: true });
  assert.deepEqual(running(), []);
  const next = engine.line(turnOf(['right 1']));
  await finish('right 1', { said: 'again' });
  assert.equal((await next).said, 'again');
});

test('what had too little memory beside another is tried alone', async () => {
  const { engine, workers, running, finish, thought } = tried();
  engine.line(turnOf([]));
  await finish('run', { memory: 400 * MEGABYTE });
  await thought([], SLOW);
  await finish('right 2', { trap: 'out of memory' });
  assert.equal(workers[0].isEnded, true);
  assert.deepEqual(running(), ['wrong 2']);
  await finish('wrong 2');
  assert.deepEqual(running(), ['right 2']);
  const wanted = engine.line(turnOf(['right 2']));
  await finish('right 2', { said: 'alone' });
  assert.equal((await wanted).said, 'alone');
});

test('a worker whose turn is over waits for the next one', async () => {
  const { engine, workers, finish } = tried();
  for (let i = 0; i < 10; i += 1) {
    engine.line(turnOf([`right ${i}`]));
    await finish(`right ${i}`);
  }
  assert.equal(workers.length, 1);
});

test('the worker whose instance has most memory does the next turn', async () => {
  const { engine, doing, finish, thought } = tried();
  await thought([], SLOW);
  const [right, wrong] = [doing('right 2'), doing('wrong 2')];
  await finish('wrong 2', { memory: 200 * MEGABYTE });
  await finish('right 2', { memory: 300 * MEGABYTE });
  engine.line(turnOf(['unknown 2']));
  assert.equal(doing('unknown 2'), right);
  engine.ask(asksFor('show'), RANK.asked);
  assert.equal(doing('show'), wrong);
});

test('the worker that holds most is left to a line while others compute ahead, where there is room for one more', async () => {
  for (const [size, isLeft] of [[490, true], [1020, true], [1030, false]]) {
    const { engine, workers, doing, finish, thought } = tried();
    engine.line(turnOf([]));
    await finish('run', { memory: size * MEGABYTE });
    await thought([], { time: 1000, memory: size * MEGABYTE });
    assert.equal(doing('right 2') !== workers[0], isLeft);
    engine.line(turnOf(['unknown 2']));
    assert.equal(doing('unknown 2') === workers[0], isLeft);
    await finish('unknown 2');
  }
});

test('workers that wait hold so much together; one that would hold more is ended', async () => {
  const { doing, finish, thought } = tried();
  await thought([], SLOW);
  const [right, wrong] = [doing('right 2'), doing('wrong 2')];
  await finish('right 2', { memory: 1100 * MEGABYTE });
  await finish('wrong 2', { memory: 1100 * MEGABYTE });
  assert.deepEqual([right.isEnded, wrong.isEnded], [false, true]);
});

test('one that holds much is kept whatever it holds, since its memory serves the next turn', async () => {
  const { engine, workers, alive, finish } = tried();
  for (const line of ['right 1', 'right 2']) {
    engine.line(turnOf([line]));
    await finish(line, { memory: 3000 * MEGABYTE });
  }
  assert.equal(workers[0].begun, 2);
  assert.deepEqual(alive().map((worker) => worker.begun), [2]);
});

test('an instance that failed serves no more', async () => {
  const { engine, workers, doing, finish } = tried();
  engine.line(turnOf(['right 1']));
  const worker = doing('right 1');
  await finish('right 1', { trap: 'out of memory' });
  assert.equal(worker.isEnded, true);
  engine.line(turnOf(['right 1']));
  assert.notEqual(doing('right 1'), worker);
  assert.equal(workers.filter((it) => it === worker).length, 1);
});

test('before another program runs, what the one before held is given back', async () => {
  const { engine, workers, finish } = tried();
  engine.line(turnOf(['right 1']));
  await finish('right 1', { memory: 100 * MEGABYTE });
  assert.equal(workers[0].isEnded, false);
  engine.stop();
  assert.equal(workers[0].isEnded, true);
  engine.line(turnOf(['right 1']));
  await finish('right 1', { memory: 20 * MEGABYTE });
  engine.stop();
  assert.equal(workers[1].isEnded, false);
});

test('where nobody asks for anything for a minute, what is held is given back', async (t) => {
  const { engine, workers, alive, finish } = tried();
  engine.line(turnOf(['right 1']));
  t.mock.timers.enable({ apis: ['setTimeout'] });
  workers[0].finish({ memory: 100 * MEGABYTE });
  for (let i = 0; i < 5; i += 1) await Promise.resolve();
  t.mock.timers.tick(59_000);
  assert.equal(workers[0].isEnded, false);
  t.mock.timers.tick(2_000);
  assert.equal(workers[0].isEnded, true);
  t.mock.timers.tick(1);
  t.mock.timers.reset();
  assert.equal(alive().length, 1);
  engine.line(turnOf(['right 2']));
  await finish('right 2');
});

test('a turn is told how much those before it printed, so that its screen has room', async () => {
  const { engine, workers, finish } = tried();
  const told = () => workers.find((worker) => worker.does !== null).printed;
  engine.line(turnOf(['right 1']));
  assert.equal(told(), 0);
  await finish('right 1', { printed: 2_000_000 });
  engine.line(turnOf(['right 2']));
  assert.equal(told(), 2_000_000);
  engine.stop();
  engine.line(turnOf([], [{ kind: 'tree' }]));
  assert.equal(told(), 0);
});

test('a browser that cannot take the module says so', async () => {
  const { engine } = tried();
  assert.equal(typeof (await engine.open('no module')).trap, 'string');
});
