// What the tests do in a browser, whichever it is. A driver has `value`, `go`, `resize`, `press`, `clickAt`, `image`, `close`,
// and the lists `faults` (errors of the page) and `fetched` (the addresses that it asked for).
import { spawn } from 'node:child_process';
import { mkdtempSync, rmSync, writeFileSync } from 'node:fs';
import { tmpdir } from 'node:os';
import { join } from 'node:path';

const sleep = (ms) => new Promise((done) => setTimeout(done, ms));

// Starts a program with a folder of its own for all that it keeps.
export function startProgram(program, wordsFor, stdio) {
  const home = mkdtempSync(join(tmpdir(), 'page-test-'));
  const child = spawn(program, wordsFor(home), { stdio, env: { ...process.env, HOME: home } });
  const gone = new Promise((done) => child.once('close', done));
  child.once('error', () => {});
  const end = async () => {
    child.kill();
    await Promise.race([gone, sleep(5000)]);
    child.kill('SIGKILL');
    await Promise.race([gone, sleep(5000)]);
    rmSync(home, { recursive: true, force: true, maxRetries: 5 });
  };
  return { child, home, gone, end };
}

// Calls that wait for an answer of the same number.
export class Calls {
  constructor(write) {
    this.write = write;
    this.waiting = new Map();
    this.number = 0;
  }

  send(message) {
    return new Promise((done, failed) => {
      this.number += 1;
      this.waiting.set(this.number, { done, failed });
      this.write(JSON.stringify({ id: this.number, ...message }));
    });
  }

  // Whether this was an answer.
  answered(id, failure, result) {
    const call = this.waiting.get(id);
    if (call === undefined) return false;
    this.waiting.delete(id);
    if (failure) call.failed(new Error(failure));
    else call.done(result);
    return true;
  }

  end(why) {
    for (const { failed } of this.waiting.values()) failed(new Error(why));
    this.waiting.clear();
  }
}

export class Browser {
  constructor(driver) {
    this.driver = driver;
  }

  // What an expression of the page's script comes to; a promise is waited for.
  value(expression) {
    return this.driver.value(expression);
  }

  // Waits until an expression holds. The page may be on its way from one document to the next.
  async until(expression, seconds = 60) {
    let last = '';
    for (const end = Date.now() + seconds * 1000; Date.now() < end; await sleep(30)) {
      try {
        if (await this.value(expression)) return;
        last = '';
      } catch (error) {
        last = `: ${error.message}`;
      }
    }
    throw new Error(`not within ${seconds} s: ${expression}${last}`);
  }

  async go(url) {
    await this.driver.go(url);
    await this.until('document.readyState === "complete"');
  }

  // The first thing that can be seen of a selector is clicked in its middle, with the mouse.
  async click(selector) {
    const place = await this.value(`(() => {
      const it = [...document.querySelectorAll(${JSON.stringify(selector)})].find((it) => it.checkVisibility());
      if (!it) return null;
      it.scrollIntoView({ block: 'center', inline: 'nearest' });
      const { left, top, width, height } = it.getBoundingClientRect();
      return [left + width / 2, top + height / 2];
    })()`);
    if (place === null) throw new Error(`nothing to click: ${selector}`);
    await this.driver.clickAt(Math.round(place[0]), Math.round(place[1]));
  }

  // A key, as `r`, `Enter`, `Tab`, `Shift+Tab` or `Control+Enter`.
  press(key) {
    const parts = key.split('+');
    return this.driver.press(parts.at(-1), parts.slice(0, -1));
  }

  async text(selector) {
    return this.value(`[...document.querySelectorAll(${JSON.stringify(selector)})].filter((it) => it.checkVisibility()).map((it) => it.innerText.trim())`);
  }

  // A file is dropped onto what a selector names.
  drop(selector, name, text) {
    return this.value(`(() => {
      const data = new DataTransfer();
      data.items.add(new File([${JSON.stringify(text)}], ${JSON.stringify(name)}));
      const target = document.querySelector(${JSON.stringify(selector)});
      for (const kind of ['dragenter', 'dragover', 'drop']) target.dispatchEvent(new DragEvent(kind, { dataTransfer: data, bubbles: true, cancelable: true }));
    })()`);
  }

  // A file is chosen in a field for files.
  choose(selector, name, text) {
    return this.value(`(() => {
      const data = new DataTransfer();
      data.items.add(new File([${JSON.stringify(text)}], ${JSON.stringify(name)}));
      const field = document.querySelector(${JSON.stringify(selector)});
      field.files = data.files;
      field.dispatchEvent(new Event('input', { bubbles: true }));
      field.dispatchEvent(new Event('change', { bubbles: true }));
    })()`);
  }

  resize(size) {
    return this.driver.resize(size);
  }

  async picture(file) {
    writeFileSync(file, Buffer.from(await this.driver.image(), 'base64'));
  }

  get faults() {
    return this.driver.faults;
  }

  get fetched() {
    return this.driver.fetched;
  }

  close() {
    return this.driver.close();
  }
}
