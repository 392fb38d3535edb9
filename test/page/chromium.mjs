// Chromium, driven over its own protocol through a pipe.
import { Calls, startProgram } from './browser.mjs';

const CODES = { Enter: 13, Tab: 9, Escape: 27, ' ': 32, ArrowLeft: 37, ArrowUp: 38, ArrowRight: 39, ArrowDown: 40, Home: 36, End: 35 };
const BITS = { Alt: 1, Control: 2, Meta: 4, Shift: 8 };

export const name = 'Chromium';
// The program itself: Debian's `chromium` is a script around it.
export const program = process.env.CHROMIUM || '/usr/lib/chromium/chromium';

export async function start() {
  const { child, gone, end } = startProgram(program, (home) => [
    '--headless', '--no-sandbox', '--disable-gpu', '--disable-dev-shm-usage', '--no-first-run', '--disable-extensions',
    // So that a page that asks for anything from elsewhere is found out.
    '--host-resolver-rules=MAP * ~NOTFOUND , EXCLUDE 127.0.0.1', `--user-data-dir=${home}`, '--remote-debugging-pipe', 'about:blank',
  ], ['ignore', 'ignore', 'ignore', 'pipe', 'pipe']);
  const faults = [], fetched = [];
  const calls = new Calls((text) => child.stdio[3].write(`${text}\0`));
  child.stdio[3].on('error', () => {});
  gone.then(() => calls.end('Chromium has ended'));
  child.once('error', (error) => calls.end(error.message));

  function heard({ method, params }) {
    if (method === 'Runtime.exceptionThrown') faults.push(params.exceptionDetails.exception?.description ?? params.exceptionDetails.text);
    if (method === 'Runtime.consoleAPICalled' && params.type === 'error') faults.push(params.args.map((it) => it.description ?? it.value).join(' '));
    if (method === 'Log.entryAdded' && params.entry.level === 'error') faults.push(params.entry.text);
    if (method === 'Network.requestWillBeSent') fetched.push(params.request.url);
  }

  let rest = '';
  child.stdio[4].setEncoding('utf8');
  child.stdio[4].on('data', (piece) => {
    const parts = (rest + piece).split('\0');
    rest = parts.pop();
    for (const message of parts.map((it) => JSON.parse(it))) {
      if (!calls.answered(message.id, message.error?.message, message.result)) heard(message);
    }
  });

  const { targetInfos } = await calls.send({ method: 'Target.getTargets' });
  const { sessionId } = await calls.send({
    method: 'Target.attachToTarget', params: { targetId: targetInfos.find((it) => it.type === 'page').targetId, flatten: true },
  });
  const call = (method, params = {}) => calls.send({ method, params, sessionId });
  for (const domain of ['Page', 'Runtime', 'Log', 'Network']) await call(`${domain}.enable`);

  return {
    faults, fetched, pid: child.pid,
    go: (url) => call('Page.navigate', { url }),
    async value(expression) {
      const { result, exceptionDetails } = await call('Runtime.evaluate', { expression, awaitPromise: true, returnByValue: true });
      if (exceptionDetails) throw new Error(exceptionDetails.exception?.description ?? exceptionDetails.text);
      return result.value;
    },
    async resize({ width, height, scale = 1, isDark = false, isPrinted = false }) {
      await call('Emulation.setDeviceMetricsOverride', { width, height, deviceScaleFactor: scale, mobile: false });
      await call('Emulation.setEmulatedMedia', {
        media: isPrinted ? 'print' : '', features: [{ name: 'prefers-color-scheme', value: isDark ? 'dark' : 'light' }],
      });
    },
    async press(key, held) {
      const modifiers = held.reduce((bits, it) => bits | BITS[it], 0);
      const code = CODES[key] ?? key.toUpperCase().charCodeAt(0);
      // A key that is held with Control writes nothing.
      const text = key === 'Enter' ? '\r' : key.length === 1 && (modifiers & ~BITS.Shift) === 0 ? key : undefined;
      const common = { key, windowsVirtualKeyCode: code, modifiers, code: key.length === 1 && /[a-z]/i.test(key) ? `Key${key.toUpperCase()}` : key };
      await call('Input.dispatchKeyEvent', { type: text === undefined ? 'rawKeyDown' : 'keyDown', text, ...common });
      await call('Input.dispatchKeyEvent', { type: 'keyUp', ...common });
    },
    async clickAt(x, y) {
      for (const type of ['mouseMoved', 'mousePressed', 'mouseReleased']) {
        await call('Input.dispatchMouseEvent', { type, x, y, button: type === 'mouseMoved' ? 'none' : 'left', clickCount: type === 'mouseMoved' ? 0 : 1 });
      }
    },
    image: async () => (await call('Page.captureScreenshot', { format: 'png' })).data,
    async close() {
      await Promise.race([calls.send({ method: 'Browser.close' }).catch(() => {}), gone]);
      await end();
    },
  };
}
