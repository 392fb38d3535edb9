// Whether the page's module and the native program are the same:
//
//     same.mjs MODULE.wasm NATIVE [--only WORD] [--share N]
//
// Both get each program of crates/worked_cases that a page can play, and the large and deep ones, with the same console; the
// exit status, the screen and the saved session have to be the same, byte by byte. With WORD only cases with it in their names.
// With N only each N-th of the cases, by their order in the index, and all the large and deep ones.
//
// A worker for each processor takes one case after the other: it runs the native program, and the module as the page does, in an
// instance that begins each turn as it began the first. Cases with lines that no page sends get an instance of their own. The module
// is compiled once. The large ones, which take gigabytes, are left to one worker.
import { spawnSync } from 'node:child_process';
import { existsSync, mkdtempSync, readFileSync, rmSync, writeFileSync } from 'node:fs';
import { availableParallelism, tmpdir } from 'node:os';
import { join, resolve } from 'node:path';
import { fileURLToPath } from 'node:url';
import { parseArgs } from 'node:util';
import { isMainThread, parentPort, Worker, workerData } from 'node:worker_threads';
import { Instances } from '../../page/instance.js';
import { casesIn } from './cases.mjs';
import { DEEP, LARGE } from './large.mjs';
import { openModule, turn } from './turn.mjs';

const DATA = fileURLToPath(new URL('../../crates/worked_cases/data', import.meta.url));
const MOST_AT_ONCE = 8, SAVED = 'page.session';
// An instance that took more serves no further case.
const MOST_KEPT = 1 << 29;
const LARGE_LINES = 'tree\nwrong 1\nback\ntrace 0\nslice 1 way\nslice 0 gives\nalike 1\nshared right 1\nshared back 1\nreference program.pas\nrefer 1\nsave page.session\nquit\n';

// The native program with the case's files, under the names that the module has for them.
function native(program, given) {
  const folder = mkdtempSync(join(tmpdir(), 'page-same-'));
  const words = ['program.pas', '--input', 'program.input', `--budget=${given.budget}`];
  writeFileSync(join(folder, 'program.pas'), given.source);
  writeFileSync(join(folder, 'program.input'), given.input);
  if (given.session !== null) {
    writeFileSync(join(folder, 'loaded.session'), given.session);
    words.push('--load', 'loaded.session');
  }
  for (const [name, bytes] of Object.entries(given.files)) writeFileSync(join(folder, name), bytes);
  const { status, signal, stdout, error } = spawnSync(resolve(program), words, {
    cwd: folder, input: given.console, stdio: ['pipe', 'pipe', 'ignore'], maxBuffer: 1 << 30,
  });
  const saved = join(folder, SAVED);
  // It may end before it has read all lines, which is no fault.
  const came = { status: status ?? signal ?? String(error), screen: stdout ?? Buffer.alloc(0), saved: existsSync(saved) ? readFileSync(saved) : null };
  rmSync(folder, { recursive: true });
  return came;
}

let instances = null;

// The lines as the page sends them, or null where they are no UTF-8.
function textOf(lines) {
  try {
    return new TextDecoder('utf-8', { fatal: true, ignoreBOM: true }).decode(lines);
  } catch {
    return null;
  }
}

function inModule(module, given) {
  try {
    const text = textOf(given.console);
    if (text === null) return turn(module, given);
    instances ??= new Instances(module);
    const files = Object.entries(given.files).map(([name, bytes]) => ({ name, bytes }));
    const came = instances.turn({ ...given, files, text, isLong: false, printed: 0 });
    if (came.memory > MOST_KEPT) instances = null;
    return came;
  } catch (error) {
    return { status: `a trap (${error.message})`, screen: Buffer.alloc(0), saved: null };
  }
}

// Where two texts differ first, as lines.
function firstDifference(one, other) {
  const [a, b] = [one, other].map((it) => Buffer.from(it).toString('latin1').split('\n'));
  const at = a.findIndex((line, i) => line !== b[i]);
  const line = at < 0 ? a.length : at;
  return `line ${line + 1}: native ${JSON.stringify((b[line] ?? 'its end').slice(0, 200))}, module ${JSON.stringify((a[line] ?? 'its end').slice(0, 200))}`;
}

const isSame = (one, other) => (one === null || other === null ? one === other : Buffer.compare(Buffer.from(one), Buffer.from(other)) === 0);

// What differs between the two, or nothing.
function differences(ours, theirs) {
  const found = [];
  if (ours.status !== theirs.status) found.push(`status: native ${theirs.status}, module ${ours.status}`);
  if (!isSame(ours.screen, theirs.screen)) found.push(`screen, ${firstDifference(ours.screen, theirs.screen)}`);
  if (!isSame(ours.saved, theirs.saved)) found.push('the saved session');
  return found;
}

// ---- a worker

function work({ module, program }) {
  parentPort.on('message', (given) => {
    const theirs = native(program, given), ours = inModule(module, given);
    parentPort.postMessage({ status: theirs.status, found: differences(ours, theirs) });
  });
}

// ---- the round

const own = ({ name, source, budget }) => ({
  name, budget, source: Buffer.from(source), input: Buffer.alloc(0), session: null, files: {}, console: Buffer.from(LARGE_LINES),
});

// Hands the cases to workers. `tell(given, came)` hears of each.
function playAll(played, shared, tell) {
  const large = new Set(LARGE.map(({ name }) => name));
  const [alone, others] = [played.filter((it) => large.has(it.name)), played.filter((it) => !large.has(it.name))];
  const playing = (worker, cases) => new Promise((done, failed) => {
    let given;
    const next = () => {
      given = cases.shift() ?? others.shift();
      if (given === undefined) worker.terminate().then(done);
      else worker.postMessage(given);
    };
    worker.on('error', failed);
    worker.on('message', (came) => { tell(given, came); next(); });
    next();
  });
  const count = Math.min(MOST_AT_ONCE, availableParallelism());
  return Promise.all(Array.from({ length: count }, (_, i) => playing(new Worker(new URL(import.meta.url), { workerData: shared }), i === 0 ? alone : [])));
}

async function main() {
  const { values: options, positionals: [file, program] } = parseArgs({
    allowPositionals: true, options: { only: { type: 'string', default: '' }, share: { type: 'string', default: '1' } },
  });
  const share = Number(options.share);
  if (program === undefined || !(share >= 1)) {
    console.error('usage: same.mjs MODULE.wasm NATIVE [--only WORD] [--share N]');
    process.exit(2);
  }
  const begun = Date.now();
  const cases = casesIn(DATA), playable = cases.filter((it) => it.leftOut === undefined);
  const chosen = [...playable.filter((_, i) => i % share === 0), ...DEEP.map(own), ...LARGE.map(own)].filter((it) => it.name.includes(options.only));
  const statuses = new Map();
  let same = 0, differ = 0;
  await playAll(chosen, { module: openModule(file), program }, ({ name }, { status, found }) => {
    statuses.set(status, (statuses.get(status) ?? 0) + 1);
    if (found.length === 0) same++;
    else differ++;
    for (const it of found) console.log(`differs: ${name}: ${it}`);
  });
  const seen = [...statuses].sort().map(([status, count]) => `${count} with status ${status}`).join(', ');
  const part = share === 1 ? '' : `; one in ${share} of the ${playable.length} cases, and all ${DEEP.length + LARGE.length} large and deep ones`;
  console.log(`same: ${same} the same, ${differ} differ, ${cases.length - playable.length} that a page can't play; ${seen}${part}; ${Math.round((Date.now() - begun) / 1000)} s`);
  process.exit(differ === 0 && same > 0 ? 0 : 1);
}

if (isMainThread) await main();
else work(workerData);
