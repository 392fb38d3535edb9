// The tests of the page in real browsers:
//
//     node --experimental-websocket run.mjs PAGE [--browser chromium|firefox] [--pictures FOLDER] [--native PROGRAM] [--only WORD] [--but WORD]
//
// PAGE is a folder that bin/build-page has made. With --native what the page saves and shows is compared with the program's
// own. With --only just the tests with WORD in their names are run, with --but just the others; those left out are said. Each line is `ok`, `FAIL` or `note`; the last one is `N passed, M failed`.
import { spawnSync } from 'node:child_process';
import { accessSync, constants, existsSync, mkdirSync, mkdtempSync, readFileSync, rmSync, writeFileSync } from 'node:fs';
import { createServer } from 'node:http';
import { tmpdir } from 'node:os';
import { join, resolve } from 'node:path';
import { fileURLToPath, pathToFileURL } from 'node:url';
import { parseArgs } from 'node:util';
import { Browser } from './browser.mjs';
import * as chromium from './chromium.mjs';
import * as firefox from './firefox.mjs';
import { builtPage } from './built.mjs';
import { TESTS } from './page_tests.mjs';

const DESK = { width: 1400, height: 900 };
// The page may not stand still for longer than this, in milliseconds. A machine at other work may be given more.
const PATIENCE = Number(process.env.PATIENCE ?? 2000);
const TYPES = { '.html': 'text/html', '.js': 'text/javascript', '.css': 'text/css' };

const { values: options, positionals: [folder] } = parseArgs({
  allowPositionals: true,
  options: { browser: { type: 'string' }, pictures: { type: 'string' }, native: { type: 'string' }, only: { type: 'string' }, but: { type: 'string' } },
});
if (folder === undefined) {
  console.error('usage: run.mjs PAGE [--browser chromium|firefox] [--pictures FOLDER] [--native PROGRAM] [--only WORD] [--but WORD]');
  process.exit(2);
}

let passed = 0, failed = 0, leftOut = 0;

// The sentences for refusals, as the table of the repository has them.
function sentences() {
  const table = fileURLToPath(new URL('../../share/refusals.tsv', import.meta.url));
  return readFileSync(table, 'utf8').split('\n').filter((line) => line !== '' && !line.startsWith('#')).map((line) => line.split('\t'));
}

// A web server for the page, as plain as they come.
function serve(root) {
  const server = createServer((request, answer) => {
    const name = new URL(request.url, 'http://127.0.0.1').pathname.slice(1) || 'index.html', file = join(root, name);
    if (!existsSync(file)) return answer.writeHead(404).end();
    return answer.writeHead(200, { 'content-type': TYPES[/\.\w+$/.exec(name)?.[0]] ?? 'application/octet-stream' }).end(readFileSync(file));
  });
  return new Promise((done) => server.listen(0, '127.0.0.1', () => done({ url: `http://127.0.0.1:${server.address().port}/index.html`, end: () => server.close() })));
}

// What a test is given: the browser's page, and what it needs around it.
class Test {
  constructor(kind, page, around) {
    Object.assign(this, around, { kind, page, faultsSeen: 0, visits: 0, isDark: false });
    this.patience = PATIENCE;
    this.canPrint = kind === chromium;
  }

  report(is, what, more = '') {
    if (is) passed++;
    else failed++;
    if (!is) console.log(`FAIL ${this.kind.name}, ${this.test}: ${what}${more}`);
  }

  holds(what, is) {
    this.report(Boolean(is), what);
  }

  equal(what, got, wanted) {
    const [is, should] = [got, wanted].map((it) => JSON.stringify(it));
    this.report(is === should, what, `\n     got    ${is}\n     wanted ${should}`);
  }

  note(text) {
    console.log(`note ${this.kind.name}, ${this.test}: ${text}`);
  }

  // The page as it is opened for the first time.
  async fresh(hash = '', url = this.url) {
    await this.page.value('localStorage.clear()').catch(() => {});
    this.visits += 1;
    await this.page.go(`${url}?visit=${this.visits}${hash}`);
    await this.ready();
  }

  async reload() {
    this.visits += 1;
    await this.page.go(`${this.url}?visit=${this.visits}`);
    await this.ready();
  }

  async ready() {
    await this.page.until('document.body.dataset.ready !== undefined');
    if (await this.page.value('document.body.dataset.ready') !== 'yes') throw new Error('the page says that it cannot run here');
  }

  async picture(name) {
    if (this.pictures === undefined) return;
    await this.page.value('new Promise((done) => setTimeout(done, 400))');
    await this.page.picture(join(this.pictures, `${this.kind.name.toLowerCase()}-${name}.png`));
  }

  example(name) {
    return this.built.examples.find((it) => it.name === name);
  }

  // The page is shown in the dark from here on. Whether that goes.
  async darken() {
    await this.page.resize({ ...DESK, isDark: true });
    return this.page.value('matchMedia("(prefers-color-scheme: dark)").matches');
  }

  // What a button gives to be saved: the name and the text of the file.
  async download(selector) {
    await this.page.value(`(() => {
      window.given = null;
      const { click } = HTMLAnchorElement.prototype;
      HTMLAnchorElement.prototype.click = function () {
        if (this.download === '') return click.call(this);
        fetch(this.href).then((it) => it.text()).then((bytes) => { window.given = { name: this.download, bytes }; });
      };
    })()`);
    await this.page.click(selector);
    await this.page.until('window.given !== null');
    return this.page.value('window.given');
  }

  // What the native program shows and saves for a source, further files by their names and lines of the console, or null where there
  // is none.
  async native({ source, files = {}, console: lines }) {
    if (this.program === undefined) return null;
    const place = mkdtempSync(join(tmpdir(), 'page-native-'));
    writeFileSync(join(place, 'program.pas'), source);
    writeFileSync(join(place, 'program.input'), '');
    for (const [name, bytes] of Object.entries(files)) writeFileSync(join(place, name), bytes);
    const { stdout } = spawnSync(this.program, ['program.pas', '--input', 'program.input', '--budget=1000000'], { cwd: place, input: lines, maxBuffer: 1 << 28 });
    const saved = join(place, 'page.session');
    const came = { screen: stdout, saved: existsSync(saved) ? readFileSync(saved) : null };
    rmSync(place, { recursive: true });
    return came;
  }
}

async function inBrowser(kind, around) {
  const page = new Browser(await kind.start());
  try {
    await testsIn(kind, page, around);
  } finally {
    await page.close();
  }
}

async function testsIn(kind, page, around) {
  const begun = Date.now();
  await page.resize(DESK);
  const t = new Test(kind, page, around);
  // A page that does not come up is one fault, and not one for each test.
  await t.fresh();
  for (const [name, test] of Object.entries(TESTS)) {
    if (!name.includes(options.only ?? '') || (options.but !== undefined && name.includes(options.but))) {
      leftOut++;
      continue;
    }
    t.test = name;
    const before = failed, start = Date.now();
    try {
      await test(t);
    } catch (error) {
      t.report(false, error.message);
      if (t.pictures !== undefined) await page.picture(join(t.pictures, `${kind.name.toLowerCase()}-failed-${name.replace(/\W+/g, '-')}.png`)).catch(() => {});
    }
    t.equal('errors of the page', page.faults.splice(0), []);
    t.equal('what it asked a network for', page.fetched.splice(0).filter((it) => !/^(file|blob|data|about):/.test(it) && !it.startsWith(t.served.replace('index.html', ''))), []);
    console.log(`${failed === before ? 'ok  ' : 'FAIL'} ${kind.name}: ${name} (${((Date.now() - start) / 1000).toFixed(1)} s)`);
  }
  console.log(`note ${kind.name}: ${((Date.now() - begun) / 1000).toFixed(0)} s in all`);
}

function isThere(program) {
  if (program.includes('/')) {
    try {
      accessSync(program, constants.X_OK);
      return true;
    } catch {
      return false;
    }
  }
  return spawnSync('sh', ['-c', 'command -v "$1"', 'sh', program]).status === 0;
}

if (options.pictures !== undefined) mkdirSync(options.pictures, { recursive: true });
const server = await serve(resolve(folder));
const around = {
  url: pathToFileURL(join(resolve(folder), 'index.html')).href, served: server.url, built: builtPage(folder), sentences: sentences(),
  pictures: options.pictures, program: options.native === undefined ? undefined : resolve(options.native),
};
let notRun = 0;
for (const [word, kind] of Object.entries({ chromium, firefox })) {
  if (options.browser !== undefined && options.browser !== word) continue;
  if (isThere(kind.program)) {
    try {
      await inBrowser(kind, around);
    } catch (error) {
      failed++;
      console.log(`FAIL ${kind.name}: ${error.message}`);
    }
  } else {
    notRun++;
    console.log(`not run: ${kind.name}, since ${kind.program} is not there`);
  }
}
server.end();
console.log(`${passed} passed, ${failed} failed${leftOut > 0 ? `, ${leftOut} tests left out` : ''}${notRun > 0 ? `, ${notRun} of the browsers not run` : ''}`);
process.exit(failed === 0 && passed > 0 ? 0 : 1);
