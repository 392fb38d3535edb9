// Which turn runs when, and in which worker. What the page waits for comes first, and what it may ask for next is begun meanwhile.
import { utf8Bytes } from './bytes.js';
import { openModule } from './instance.js';
import { Workshop } from './workshop.js';

// How pressing a job is. A line of the dialog begins at once, whatever else runs; then comes what is asked for besides, as a card;
// then what each answer to the question would come to; and last what only makes the page fuller.
export const RANK = { later: 0, ahead: 1, asked: 2, line: 3 };

const AHEAD_FROM_MS = 60;
// Whoever answers as soon as a question is there finds nothing else at work.
const PAUSE_MS = 150;
const MEGABYTE = 1024 * 1024;
// Above this one turn is computed ahead at a time.
const LARGE = 500 * MEGABYTE;
// A worker keeps its instance, whose memory serves the next turn. So many wait, and where several hold memory, they hold no more
// together than a quarter of the machine's. Not every browser tells how many gigabytes that has.
const SPARES = 3;
const HELD = (globalThis.navigator?.deviceMemory ?? 8) * 256 * MEGABYTE;
// Where another program runs, or nobody has asked for anything for a while, those that hold more are ended.
const SMALL = 64 * MEGABYTE;
const REST_MS = 60_000;

// A browser compiles what it runs for the first time, and better what it runs often; either takes longer than a small run. So both
// are brought about before anybody asks: first a few steps, and then a loop.
const warmUp = (source) => ({
  source: utf8Bytes(source), input: new Uint8Array(), budget: '100000', session: null, lines: ['wrong 1'], asks: [{ kind: 'tree' }], save: null,
});
const FEW_STEPS = warmUp('program p(output); var x: integer; procedure q(n: integer); begin x := x + n end; begin x := 0; q(1); writeln(x) end.');
const MANY_STEPS = warmUp(`program p(output); var i, s: integer; a: array [0..9] of integer; procedure q(n: integer); begin s := s + n end;
begin s := 0; for i := 0 to 9 do a[i] := i; i := 0; while i < 200 do begin i := i + 1; s := (s + i) mod 1000; a[i mod 10] := s; q(a[3]) end; writeln(s) end.`);

const holdsMuch = (worker) => worker.memory > SMALL;

// What a turn of lines alone is known by.
const keyOf = (turn) => (turn.asks.length === 0 && !turn.save ? turn.lines.join('\n') : null);

class Job {
  constructor(turn, rank) {
    Object.assign(this, { turn, rank, key: keyOf(turn), worker: null, isOver: false, isAgain: false });
    this.answer = new Promise((done) => { this.done = done; });
  }

  get isRunning() {
    return this.worker !== null;
  }

  get isWaiting() {
    return this.worker === null && !this.isOver;
  }
}

export class Engine {
  constructor(packed, makeWorkshop = (script) => new Workshop(script), pauseMs = PAUSE_MS) {
    this.pauseMs = pauseMs;
    this.makeWorkshop = () => makeWorkshop(packed.worker);
    this.module = null;
    this.spares = [this.make()];
    // How many turns are computed at once beside a line, and what an instance of this program takes.
    this.most = 1;
    this.size = 0;
    this.jobs = [];
    // While it runs, nothing is begun ahead.
    this.pause = null;
    this.rest = null;
    // How much a turn of this program printed.
    this.printed = 0;
  }

  make() {
    const worker = this.makeWorkshop();
    if (this.module !== null) worker.open(this.module);
    return worker;
  }

  // The module is compiled once, and all workers share what the browser makes of it. What came of a small run; with `trap` where
  // this browser can do none.
  async open(module) {
    try {
      this.module = await openModule(module);
    } catch (error) {
      return { trap: String(error.message) };
    }
    for (const worker of this.spares) worker.open(this.module);
    const came = await this.warm(FEW_STEPS);
    // The worker that did this is left to whoever asks first.
    this.warm(MANY_STEPS, this.spares.shift());
    return came;
  }

  async warm(turn, worker = this.take()) {
    const came = await worker.turn(turn);
    this.giveBack(worker, came);
    return came;
  }

  // A line, or the first turn of a program: `{ source, input, budget, session, lines, asks, save }`. What was begun ahead is not
  // begun again; all else that was is ended, since it belongs to the question before.
  line(turn) {
    const key = keyOf(turn);
    const begun = key === null ? undefined : this.jobs.find((job) => job.rank === RANK.ahead && job.key === key);
    this.end((job) => job.rank <= RANK.ahead && job !== begun);
    if (begun === undefined) return this.ask(turn, RANK.line);
    begun.rank = RANK.line;
    this.jobs = this.jobs.filter((job) => !job.isOver);
    this.schedule();
    return begun.answer;
  }

  // What is asked for besides; `{ stopped: true }` comes where a line or a new question ended it.
  ask(turn, rank) {
    const job = new Job(turn, rank);
    this.jobs.push(job);
    this.schedule();
    return job.answer;
  }

  // Begins soon what each of these lines would come to, where a turn took long: both at once where one took little memory.
  think(turn, nextLines, { time, memory }) {
    this.end((job) => job.rank === RANK.ahead);
    this.most = memory < LARGE ? 2 : 1;
    this.size = memory;
    if (time < AHEAD_FROM_MS) return;
    for (const line of nextLines) this.jobs.push(new Job({ ...turn, lines: [...turn.lines, line], asks: [], save: null }, RANK.ahead));
    clearTimeout(this.pause);
    this.pause = setTimeout(() => {
      this.pause = null;
      this.schedule();
    }, this.pauseMs);
  }

  // Ends all that runs, before another program does.
  stop() {
    this.end(() => true);
    this.printed = 0;
    this.shrink();
  }

  // Ends some jobs, and tells who waits for them.
  end(isEnded) {
    const ended = this.jobs.filter(isEnded);
    this.jobs = this.jobs.filter((job) => !ended.includes(job));
    for (const job of ended) {
      this.halt(job);
      job.done({ stopped: true });
    }
  }

  // What runs of a job is ended, and its memory is given back.
  halt(job) {
    job.worker?.end();
    job.worker = null;
    this.tidy();
  }

  // A worker that is there already, since a new one takes a moment to begin; first the one that holds most memory. What is computed
  // ahead leaves that one to a line, where there is room for one more.
  take(rank = RANK.line) {
    const spares = this.spares.sort((one, other) => other.memory - one.memory);
    const isLeft = rank <= RANK.ahead && (this.most + 1) * this.size <= HELD;
    const [worker = this.make()] = spares.splice(isLeft ? 1 : 0, 1);
    this.tidy();
    return worker;
  }

  giveBack(worker, { trap }) {
    const held = this.spares.reduce((sum, { memory }) => sum + memory, 0);
    const hasRoom = held <= SMALL || held + worker.memory <= HELD;
    const isKept = trap === undefined && hasRoom && this.spares.length < SPARES;
    if (isKept) this.spares.push(worker);
    this.tidy(isKept ? null : worker);
  }

  // Ends a worker that is not kept, and sees to it that another one waits. The page shows first what came, and a line that runs is
  // not disturbed.
  tidy(worker = null) {
    setTimeout(() => {
      worker?.end();
      const isLineRunning = this.jobs.some((job) => job.rank === RANK.line && job.isRunning);
      if (this.spares.length === 0 && !isLineRunning) this.spares.push(this.make());
    });
    clearTimeout(this.rest);
    if (this.spares.some(holdsMuch)) this.rest = setTimeout(() => this.shrink(), REST_MS);
  }

  // Gives back what waiting workers hold.
  shrink() {
    for (const worker of this.spares.filter(holdsMuch)) worker.end();
    this.spares = this.spares.filter((worker) => !holdsMuch(worker));
    this.tidy();
  }

  schedule() {
    const waiting = this.jobs.filter((job) => job.isWaiting && (this.pause === null || job.rank > RANK.ahead)).sort((one, other) => other.rank - one.rank);
    for (const job of waiting) if (this.makesPlaceFor(job)) this.begin(job);
  }

  // Whether there is a place for a job. Where all are taken, the last of those that are less pressing is ended; it begins anew later.
  makesPlaceFor(job) {
    const running = this.jobs.filter((other) => other.isRunning).sort((one, other) => other.rank - one.rank);
    if (running.length < this.most) return true;
    const last = running[running.length - 1];
    if (last.rank >= job.rank) return false;
    this.halt(last);
    return true;
  }

  async begin(job) {
    const worker = this.take(job.rank);
    job.worker = worker;
    const came = await worker.turn({ ...job.turn, printed: this.printed });
    // It was ended meanwhile.
    if (job.worker !== worker) return;
    job.worker = null;
    this.giveBack(worker, came);
    this.printed = Math.max(this.printed, came.printed ?? 0);
    if (came.trap !== undefined && this.most > 1 && !job.isAgain) {
      // Beside another one it may have had too little memory: it is tried once more, alone.
      job.isAgain = true;
      this.most = 1;
      this.shrink();
    } else {
      job.isOver = true;
      job.done(came);
      // What was begun ahead is kept until it is asked for.
      if (job.rank !== RANK.ahead || came.trap !== undefined) this.jobs = this.jobs.filter((other) => other !== job);
    }
    this.schedule();
  }
}
