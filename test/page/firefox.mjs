// Firefox, driven over WebDriver BiDi. Before Node 22 it takes `node --experimental-websocket`.
import { writeFileSync } from 'node:fs';
import { createServer } from 'node:net';
import { Calls, startProgram } from './browser.mjs';

const KEYS = {
  Enter: '\uE007', Tab: '\uE004', Escape: '\uE00C', ArrowLeft: '\uE012', ArrowUp: '\uE013', ArrowRight: '\uE014', ArrowDown: '\uE015',
  Home: '\uE011', End: '\uE010', Shift: '\uE008', Control: '\uE009', Alt: '\uE00A', Meta: '\uE03D',
};
const TRIES = 240;

export const name = 'Firefox';
export const program = process.env.FIREFOX || 'firefox-esr';

const sleep = (ms) => new Promise((done) => setTimeout(done, ms));

function freePort() {
  return new Promise((done) => {
    const server = createServer().listen(0, '127.0.0.1', () => {
      const { port } = server.address();
      server.close(() => done(port));
    });
  });
}

function opened(url) {
  return new Promise((done, failed) => {
    const socket = new WebSocket(url);
    socket.onopen = () => done(socket);
    socket.onerror = () => failed(new Error(`no answer at ${url}`));
  });
}

// What a value of the protocol stands for.
function plain(it) {
  switch (it.type) {
    case 'undefined': return undefined;
    case 'null': return null;
    case 'array': return it.value.map(plain);
    case 'object': return Object.fromEntries(it.value.map(([key, value]) => [key, plain(value)]));
    default: return it.value;
  }
}

export async function start({ isDark = false } = {}) {
  const port = await freePort();
  const { child, gone, end } = startProgram(program, (home) => {
    // Nothing is asked of the network, and the scheme of colours is the wanted one.
    writeFileSync(`${home}/user.js`, [
      ['network.dns.disabled', true], ['layout.css.prefers-color-scheme.content-override', isDark ? 0 : 1],
      ['datareporting.policy.dataSubmissionEnabled', false], ['browser.shell.checkDefaultBrowser', false],
      ['app.normandy.enabled', false], ['extensions.update.enabled', false], ['browser.safebrowsing.downloads.remote.enabled', false],
    ].map(([key, value]) => `user_pref(${JSON.stringify(key)}, ${value});\n`).join(''));
    return ['--headless', '--no-remote', '--profile', home, `--remote-debugging-port=${port}`, 'about:blank'];
  }, 'ignore');
  let hasEnded = false;
  gone.then(() => { hasEnded = true; });
  child.once('error', () => { hasEnded = true; });

  let socket = null;
  for (let i = 0; socket === null; i++) {
    try {
      socket = await opened(`ws://127.0.0.1:${port}/session`);
    } catch (error) {
      if (hasEnded || i === TRIES) {
        await end();
        throw error;
      }
      await sleep(250);
    }
  }
  const faults = [], fetched = [];
  const calls = new Calls((text) => socket.send(text));
  socket.onclose = () => calls.end('Firefox has ended');
  socket.onmessage = ({ data }) => {
    const message = JSON.parse(data);
    const failure = message.type === 'error' ? `${message.error}: ${message.message}` : undefined;
    if (calls.answered(message.id, failure, message.result)) return;
    if (message.method === 'log.entryAdded' && message.params.level === 'error') faults.push(message.params.text);
    if (message.method === 'network.beforeRequestSent') fetched.push(message.params.request.url);
  };
  const call = (method, params = {}) => calls.send({ method, params });
  await call('session.new', { capabilities: {} });
  // The first window of a browser that nobody sees does not get the focus, and a second one does.
  const { context } = await call('browsingContext.create', { type: 'window' });
  await call('session.subscribe', { events: ['log.entryAdded', 'network.beforeRequestSent'] });

  return {
    faults, fetched, pid: child.pid,
    go: (url) => call('browsingContext.navigate', { context, url, wait: 'complete' }),
    async value(expression) {
      const { type, result, exceptionDetails } = await call('script.evaluate', {
        expression, target: { context }, awaitPromise: true, serializationOptions: { maxObjectDepth: 20 },
      });
      if (type === 'exception') throw new Error(exceptionDetails.text);
      return plain(result);
    },
    resize: ({ width, height }) => call('browsingContext.setViewport', { context, viewport: { width, height } }),
    async press(key, held) {
      const value = KEYS[key] ?? key, modifiers = held.map((it) => KEYS[it]);
      const actions = [
        ...modifiers.map((it) => ({ type: 'keyDown', value: it })), { type: 'keyDown', value }, { type: 'keyUp', value },
        ...modifiers.reverse().map((it) => ({ type: 'keyUp', value: it })),
      ];
      await call('input.performActions', { context, actions: [{ type: 'key', id: 'keys', actions }] });
    },
    async clickAt(x, y) {
      const actions = [{ type: 'pointerMove', x, y }, { type: 'pointerDown', button: 0 }, { type: 'pointerUp', button: 0 }];
      await call('input.performActions', { context, actions: [{ type: 'pointer', id: 'mouse', parameters: { pointerType: 'mouse' }, actions }] });
    },
    image: async () => (await call('browsingContext.captureScreenshot', { context })).data,
    async close() {
      await Promise.race([call('browser.close').catch(() => {}), gone, sleep(5000)]);
      await end();
    },
  };
}
