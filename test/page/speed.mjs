// How fast the page is beside the native program and beside its own function, and how much memory a run takes in it, as a table:
//
//     node --experimental-websocket speed.mjs PAGE NATIVE [--browser chromium|firefox] [--only WORD] [--rounds N]
//
// What is compared takes turns, N rounds long, and of each figure the median counts; the least and the greatest stand beside it. Times
// are the processor's, as the system tells them of the native program and of the browser, so that what else the machine does counts
// less; where the page's own clock tells less, it is that. Of each large program:
//
// - the time from Run to the first question, and the native program's for a session that ends there. Of a run of 4,000,000 steps
//   the page's may be three times as long; a lesson's is held against 50 ms. Of both it is the time of all processes;
// - the time of `right` and of `wrong` once both answers were computed ahead. They may take 300 ms once a turn's time has passed;
//   where an instance took 500 MB there is room for one alone, so two turns' time is waited;
// - the time of an answer that was not computed ahead, `unknown`: of one that comes as soon as the question is there, and of one
//   that comes half a turn later, while the page computes the other two. Soon after each comes its yardstick, one turn of the function
//   itself with the same lines in an instance of its own, in a worker beside the idle page. Of either the processor's time is that of
//   the page's own thread and of the worker that did it: all that whoever answers waits for. Each pair gives a ratio; and the answer may
//   take as long as its yardstick, and PAGE_MS for the page, in the median of all pairs;
// - the memory that one turn takes up, in Node, which has the same engine as Chromium, and the native program's. It may be 1.5
//   times as much and 32 MB. (What an instance could take up is shown below the page; most of a small one's is never touched.)
//
// `over` marks what is beyond these limits. The status is 1 where something is. A round has QUESTIONS pairs of either kind.
import { spawnSync } from 'node:child_process';
import { mkdtempSync, readdirSync, readFileSync, rmSync, writeFileSync } from 'node:fs';
import { cpus, loadavg, tmpdir, totalmem } from 'node:os';
import { join, resolve } from 'node:path';
import { fileURLToPath, pathToFileURL } from 'node:url';
import { parseArgs } from 'node:util';
import { Browser } from './browser.mjs';
import { builtPage } from './built.mjs';
import * as chromium from './chromium.mjs';
import * as firefox from './firefox.mjs';
import { LARGE } from './large.mjs';
import { openModule, turn, turnIn } from './turn.mjs';

const MEGABYTE = 1048576, ALONE = 500;
const PAGE_MS = 50;
const LIMITS = { lesson: 50, question: 3, ahead: 300, memory: 1.5, moreMemory: 32 };
const LONGEST = '4000000', SCREEN = (1 << 20) - 8;
const LESSON_ROUNDS = 9, QUESTIONS = 2, READING = 2000;
const WINDOW = { width: 1400, height: 900 };

const { values: options, positionals: [folder, program] } = parseArgs({
  allowPositionals: true,
  options: {
    browser: { type: 'string', default: 'chromium' }, only: { type: 'string', default: '' }, rounds: { type: 'string', default: '2' }, memory: { type: 'string' },
  },
});

// What a turn takes up, in a process of its own: the page's first turn, which asks for the tree.
function tellMemory(file, name) {
  const module = openModule(file), before = process.memoryUsage.rss();
  const { status } = turn(module, { ...LARGE.find((it) => it.name === name), console: '@\ntree\n@\nquit\n' }, 1 << 24);
  console.log(status === 0 ? (process.memoryUsage.rss() - before) / MEGABYTE : NaN);
}

function memoryOfTurn(file, name) {
  const { stdout } = spawnSync(process.execPath, [fileURLToPath(import.meta.url), file, 'none', '--memory', name]);
  return Number(stdout);
}

// The time of one run in milliseconds, the processor's where that is less, and its memory in megabytes.
function native({ source, budget }) {
  const place = mkdtempSync(join(tmpdir(), 'page-speed-'));
  writeFileSync(join(place, 'program.pas'), source);
  const begun = performance.now();
  const { stderr } = spawnSync('/usr/bin/time', ['-f', '%M %U %S', resolve(program), 'program.pas', `--budget=${budget}`], { cwd: place, input: 'quit\n', maxBuffer: 1 << 28 });
  const clock = performance.now() - begun;
  rmSync(place, { recursive: true });
  const [kilobytes, user, system] = String(stderr).trim().split('\n').at(-1).split(' ').map(Number);
  return { time: Math.min(clock, 1000 * (user + system) + 10), memory: kilobytes / 1024 };
}

// What a folder of /proc tells of its processes, or of the threads of one. In `stat` the name stands in parentheses; the second
// field after it is the parent, the twelfth and the next are the ticks of a hundredth of a second in which it ran.
function ranIn(folder) {
  return readdirSync(folder).filter((it) => /^\d+$/.test(it)).flatMap((id) => {
    try {
      const [, name, rest] = /^\d+ \((.*)\) (.*)$/s.exec(readFileSync(join(folder, id, 'stat'), 'latin1'));
      const fields = rest.split(' ').map(Number);
      return [{ id: Number(id), name, parent: fields[1], ticks: fields[11] + fields[12] }];
    } catch {
      // It ended meanwhile.
      return [];
    }
  });
}

// The processes of the browser.
function processesBelow(root) {
  const seen = ranIn('/proc'), isBelow = new Set([root]);
  for (let size = 0; size < isBelow.size;) {
    size = isBelow.size;
    for (const { id, parent } of seen) if (isBelow.has(parent)) isBelow.add(id);
  }
  return seen.filter(({ id }) => isBelow.has(id));
}

const ticksBelow = (root) => processesBelow(root).reduce((sum, { ticks }) => sum + ticks, 0);

// The ticks of the threads of the browser that run scripts: the first of each process, and workers.
function scriptTicks(root) {
  const threads = processesBelow(root).flatMap(({ id }) => ranIn(`/proc/${id}/task`).map((thread) => ({ ...thread, process: id })));
  return new Map(threads.filter(({ id, process, name }) => id === process || /worker/i.test(name)).map((thread) => [thread.id, thread]));
}

// What something in the page takes that answers its own milliseconds: these, and `used`, which is the processor's time of the
// browser where that is less.
async function timed(page, act) {
  const before = ticksBelow(page.driver.pid);
  const clock = await page.value(act);
  return { clock, used: Math.min(clock, 10 * (ticksBelow(page.driver.pid) - before + 1)) };
}

// The same of a worker's turn, where `used` is the time of the worker that worked most and of its page.
async function timedTurn(page, act) {
  const before = scriptTicks(page.driver.pid);
  const clock = await page.value(act);
  const ran = [...scriptTicks(page.driver.pid).values()].map((it) => ({ ...it, ticks: it.ticks - (before.get(it.id)?.ticks ?? 0) }));
  const most = ran.filter(({ id, process }) => id !== process).reduce((best, it) => (best === null || it.ticks > best.ticks ? it : best), null);
  const own = ran.find(({ id }) => id === most.process);
  return { clock, used: Math.min(clock, 10 * (most.ticks + own.ticks + 1)) };
}

// A worker that is ended after its turn stays for a moment, so that its time can be told. One that is ended for a line is ended at once.
const KEEPS_WORKERS = `(() => {
  const { terminate } = Worker.prototype;
  Worker.prototype.terminate = function () {
    if (window.isBegun || document.body.classList.contains('busy')) terminate.call(this);
    else setTimeout(() => terminate.call(this), 1000);
  };
})()`;

// Until the page is calm again, which is waited for without taking time of its own.
const untilCalm = (act) => `(async () => {
  const begun = performance.now();
  window.isBegun = true;
  ${act}
  window.isBegun = false;
  await new Promise((done) => setTimeout(done, 0));
  const isBusy = () => document.body.classList.contains('busy');
  if (isBusy()) {
    await new Promise((done) => new MutationObserver(() => isBusy() || done()).observe(document.body, { attributeFilter: ['class'] }));
    await new Promise((done) => setTimeout(done, 0));
  }
  return performance.now() - begun;
})()`;

const pressed = (key) => `document.body.dispatchEvent(new KeyboardEvent('keydown', { key: '${key}', bubbles: true }));`;
const hasQuestion = (page) => page.value('document.querySelector("#question") !== null');
const pause = (ms) => new Promise((done) => setTimeout(done, ms));

let visits = 0;

async function visited(page, url) {
  await page.value('localStorage.clear()').catch(() => {});
  visits += 1;
  await page.go(`${url}?visit=${visits}`);
  await page.until('document.body.dataset.ready === "yes"');
}

async function opened(page, url, { source, budget }) {
  await visited(page, url);
  await page.drop('#source', 'program.pas', source);
  await page.until(`document.querySelector('#source').value === ${JSON.stringify(source)}`);
  await page.value(`document.querySelector('#budget').value = '${budget}'`);
  await page.value(KEEPS_WORKERS);
  // Nobody presses Run as soon as the page is there.
  await pause(READING);
}

// A worker that does one turn of the function each time it is asked, in an instance of its own.
const TURN_ALONE = `${turnIn}
let code = null;
self.onmessage = async ({ data: { module, given, room } }) => {
  if (code === null) {
    const packed = new Blob([Uint8Array.from(atob(module), (it) => it.charCodeAt(0))]);
    code = await WebAssembly.compile(await new Response(packed.stream().pipeThrough(new DecompressionStream('gzip'))).arrayBuffer());
  }
  self.postMessage(turnIn(code, given, room).ms);
};`;
const STANDS_ALONE = `(() => {
  const worker = new Worker(URL.createObjectURL(new Blob([${JSON.stringify(TURN_ALONE)}])));
  window.alone = (given) => new Promise((done) => {
    worker.onmessage = ({ data }) => done(data);
    worker.postMessage({ module: PASASK.module, given, room: ${SCREEN} });
  });
})()`;

// The yardstick. Of two turns in a new worker the second counts, since the browser may compile in the first.
async function alone(page, { source, budget }, lines) {
  const act = `alone(${JSON.stringify({ source, budget, console: [...lines, '@', 'quit', ''].join('\n') })})`;
  if (await page.value('window.alone === undefined')) {
    await page.value(STANDS_ALONE);
    await page.value(act);
  }
  return (await timedTurn(page, act)).used;
}

// Figures of one kind.
class Figures {
  constructor() {
    this.all = [];
  }

  add(figure) {
    this.all.push(figure);
  }

  get isThere() {
    return this.all.length > 0;
  }

  get median() {
    const rising = this.all.toSorted((one, other) => one - other), half = rising.length >> 1;
    return rising.length % 2 === 1 ? rising[half] : (rising[half - 1] + rising[half]) / 2;
  }

  // With what is least and greatest.
  say(tell) {
    return this.isThere ? `${tell(this.median)} (${tell(Math.min(...this.all))} to ${tell(Math.max(...this.all))})` : '–';
  }
}

const KINDS = ['native', 'nativeTaken', 'question', 'grown', 'ahead', 'atOnce', 'atOnceTurn', 'atOnceRatio', 'atOnceMore', 'amid', 'amidTurn', 'amidRatio', 'amidMore'];

// One round in the page: the first question, and at several questions both answers that were computed ahead, two that were not, and
// the yardsticks of these.
async function inPage(page, given, figures) {
  const question = await timed(page, untilCalm('document.querySelector("#run").click();'));
  await page.until('document.querySelector("#card h2") !== null', 120);
  const grown = Number(/([\d,]+) MB/.exec(await page.value('document.querySelector("#cost").textContent'))[1].replace(/,/g, ''));
  figures.question.add(question.used);
  figures.grown.add(grown);
  const thinking = () => pause(question.clock * (grown < ALONE ? 1 : 2) + 200);
  const lines = [];
  const answered = async (key, word, by) => {
    lines.push(`${word} ${await page.value('document.querySelector("#question").dataset.call')}`);
    return (await by(page, untilCalm(pressed(key)))).used;
  };
  if (await hasQuestion(page)) await thinking();
  for (let i = 0; i < QUESTIONS && await hasQuestion(page); i++) {
    const right = await answered('r', 'right', timed);
    // Later the yardsticks come in between, and it has more time.
    if (i === 0) figures.ahead.add(right);
    const said = {};
    for (const [what, after] of [['atOnce', 0], ['amid', question.clock / 2]]) {
      if (!(await hasQuestion(page))) continue;
      await pause(after);
      said[what] = { used: await answered('d', 'unknown', timedTurn), lines: [...lines] };
    }
    await thinking();
    if (i === QUESTIONS - 1 && await hasQuestion(page)) {
      figures.ahead.add(await answered('w', 'wrong', timed));
      if (await hasQuestion(page)) await thinking();
    }
    for (const [what, { used, lines: those }] of Object.entries(said)) {
      const turn = await alone(page, given, those);
      for (const [kind, figure] of [['', used], ['Turn', turn], ['Ratio', used / turn], ['More', used - turn]]) figures[what + kind].add(figure);
    }
  }
}

async function measured(page, url, given, module) {
  const isLesson = given === LARGE[0], figures = Object.fromEntries(KINDS.map((kind) => [kind, new Figures()]));
  for (let i = 0; i < (isLesson ? LESSON_ROUNDS : Number(options.rounds)); i++) {
    const { time, memory } = native(given);
    figures.native.add(time);
    figures.nativeTaken.add(memory);
    await opened(page, url, given);
    await inPage(page, given, figures);
  }
  return { ...figures, isLesson, isLong: given.budget === LONGEST, taken: memoryOfTurn(module, given.name) };
}

let over = 0;
const ms = (it) => (it < 100 ? `${it.toFixed(0)} ms` : `${(it / 1000).toFixed(2)} s`);
const mb = (it) => `${it.toFixed(0)} MB`;
const share = (it) => it.toFixed(2);

function marked(text, isOver) {
  if (isOver) over++;
  return isOver ? `${text} over` : text;
}

function rowOf(name, it) {
  const [question, native] = [it.question.median, it.native.median];
  const isSlow = it.isLesson ? question > LIMITS.lesson : it.isLong && question > LIMITS.question * native;
  const isLate = it.ahead.isThere && it.ahead.median > LIMITS.ahead;
  const beside = (what) => (it[what].isThere
    ? marked(`${ms(it[what].median)} of ${ms(it[`${what}Turn`].median)}: ${it[`${what}Ratio`].say(share)}`, it[`${what}More`].median > PAGE_MS) : '–');
  const isLarge = it.taken > LIMITS.memory * it.nativeTaken.median + LIMITS.moreMemory;
  return `| ${name} | ${marked(it.question.say(ms), isSlow)} | ${it.native.say(ms)} | ${(question / native).toFixed(1)} times | ${marked(it.ahead.say(ms), isLate)} | `
    + `${beside('atOnce')} | ${beside('amid')} | ${marked(mb(it.taken), isLarge)} | ${mb(it.nativeTaken.median)} | ${mb(it.grown.median)} |`;
}

async function main() {
  const browser = { chromium, firefox }[options.browser];
  const page = new Browser(await browser.start());
  await page.resize(WINDOW);
  const url = pathToFileURL(join(resolve(folder), 'index.html')).href;
  const work = mkdtempSync(join(tmpdir(), 'page-speed-')), module = join(work, 'page.wasm');
  writeFileSync(module, builtPage(folder).module);
  const load = () => loadavg()[0].toFixed(1);
  const [{ model }, begun] = [cpus()[0], load()];
  console.log(`| program (${browser.name}) | first question | native | ratio | answer computed ahead | at once, of one turn | amid, of one turn | taken up | native | could take up |`);
  console.log('|---|---|---|---|---|---|---|---|---|---|');
  for (const it of LARGE.filter(({ name }) => name.includes(options.only))) console.log(rowOf(it.name, await measured(page, url, it, module)));
  console.log(`\nOn ${cpus().length} processors (${model.trim()}), ${(totalmem() / 2 ** 30).toFixed(0)} GB; load ${begun} at the beginning and ${load()} at the end. `
    + `${over === 0 ? 'Within all limits.' : `${over} over a limit.`}`);
  await page.close();
  rmSync(work, { recursive: true });
  process.exit(over === 0 ? 0 : 1);
}

if (options.memory !== undefined) {
  tellMemory(folder, options.memory);
} else if (program === undefined) {
  console.error('usage: speed.mjs PAGE NATIVE [--browser chromium|firefox] [--only WORD] [--rounds N]');
  process.exit(2);
} else {
  await main();
}
