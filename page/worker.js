// What runs beside the page: a turn of the command, and taking apart what it printed.
import { consoleOf, digest } from './transcript.js';
import { latin } from './bytes.js';
import { Instances } from './instance.js';

const NORMAL = 0;
// More things asked for at once than these may fill a screen.
const MANY = 100;

let instances = null;

function turnOf({ lines, asks, save, ...given }) {
  const start = performance.now();
  const text = consoleOf(lines, save ? [...asks, { kind: 'save', file: save }] : asks);
  const isLong = asks.length > MANY || asks.some((ask) => ask.kind === 'tree');
  const came = instances.turn({ ...given, text, isLong });
  const shown = came.status === NORMAL ? digest(came.screen, asks) : { raw: latin(came.screen.subarray(0, 100_000)) };
  return { ...shown, status: came.status, saved: came.saved, memory: came.memory, time: performance.now() - start };
}

// First comes the module, then turns.
self.onmessage = ({ data: { module, turn } }) => {
  if (module !== undefined) {
    instances = new Instances(module);
    return;
  }
  try {
    self.postMessage(turnOf(turn));
  } catch (error) {
    self.postMessage({ trap: String((error && error.message) || error) });
  }
};
