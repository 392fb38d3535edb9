// The proved module: its one export over slices of its own memory. An instance begins each turn as it began the first, so nothing
// is left over from the turn before. One that failed serves no more, so an instance that ran out of memory harms no other.
import { bytesOfBase64, utf8Bytes } from './bytes.js';

// Room for the screen. The tree of 500,000 calls takes 13 MB, and much that is asked for at once may, too; all else is small. The
// heap puts a word of 8 bytes before a block, and takes whole powers of two. A saved session has at most SESSION_ROOM bytes,
// and gets room only where a line saves one.
const WORD = 8;
const SMALL_ROOM = (1 << 20) - WORD;
const LARGE_ROOM = (1 << 24) - WORD;
const MOST_ROOM = (1 << 28) - WORD;
const SESSION_ROOM = 40_000_000;
const SAVES = /^[ \t]*save[ \t]/m;
const SCREEN_FAILED = 6;
// What came: the status, the bytes of the screen, whether a session was saved, and its bytes.
const CAME_WORDS = 4;
const SAVED = 1;

export async function openModule(base64) {
  const packed = new Blob([bytesOfBase64(base64)]);
  const stream = packed.stream().pipeThrough(new DecompressionStream('gzip'));
  return WebAssembly.compile(await new Response(stream).arrayBuffer());
}

// The names and the bytes of further files, one after the other, and how many bytes each has.
function putFiles(files, memory, roomFor, put) {
  const pieces = files.flatMap(({ name, bytes }) => [utf8Bytes(name), bytes]);
  const sizes = roomFor(WORD * (pieces.length + 1));
  new BigUint64Array(memory.buffer, Number(sizes), pieces.length).set(pieces.map(({ length }) => BigInt(length)));
  const whole = new Uint8Array(pieces.reduce((sum, { length }) => sum + length, 0));
  pieces.reduce((at, piece) => (whole.set(piece, at), at + piece.length), 0);
  return [sizes, BigInt(files.length), ...put(whole)];
}

// One turn of an instance, with that much room for the screen.
function once({ memory, room: roomAt, pasask_turn: turn }, { source, input, budget, session, files = [], text }, room) {
  const roomFor = (size) => {
    const at = roomAt(BigInt(size));
    if (at === 0n) throw new RangeError('out of memory');
    return at;
  };
  const put = (bytes) => {
    const at = roomFor(bytes.length + 1);
    new Uint8Array(memory.buffer).set(bytes, Number(at));
    return [at, BigInt(bytes.length)];
  };
  const given = [source, input, utf8Bytes(budget)].flatMap(put);
  const loaded = [session === null ? 0 : 1, ...put(session ?? new Uint8Array())];
  const further = putFiles(files, memory, roomFor, put);
  const lines = put(utf8Bytes(text));
  const savedRoom = SAVES.test(text) ? SESSION_ROOM : 0;
  const [screen, saved, came] = [roomFor(room), roomFor(savedRoom + 1), roomFor(8 * CAME_WORDS)];
  turn(...given, ...loaded, ...further, ...lines, screen, BigInt(room), saved, BigInt(savedRoom), came);
  // Views are made after the call: those from before are dead once the memory grew.
  const [status, shown, isSaved, stored] = Array.from(new BigUint64Array(memory.buffer, Number(came), CAME_WORDS), Number);
  const bytesAt = (at, size) => new Uint8Array(memory.buffer, Number(at), size).slice();
  return {
    status, screen: bytesAt(screen, shown), saved: isSaved === SAVED ? bytesAt(saved, stored) : null, memory: memory.buffer.byteLength,
  };
}

// What an instance has in its memory when it begins, and from where on: below lies the stack, of which nothing is read before it
// is written.
function beginningOf(memory) {
  const words = new Int32Array(memory.buffer);
  let from = 0;
  while (from < words.length && words[from] === 0) from += 1;
  return { at: 4 * from, bytes: new Uint8Array(memory.buffer, 4 * from).slice() };
}

// The instance of a worker, and another one where it failed.
export class Instances {
  constructor(module) {
    this.module = module;
    this.beginning = null;
    this.exports = null;
    this.isNew = false;
    try {
      this.make();
    } catch {
      // The first turn tries once more, and tells.
    }
  }

  make() {
    this.exports = new WebAssembly.Instance(this.module, {}).exports;
    this.isNew = true;
    this.beginning ??= beginningOf(this.exports.memory);
  }

  // An instance as it begins. What its heap hands out stays as it is, since none of it is read before it is written: a system takes
  // longer to give so much memory than to run a good part of the program.
  begun() {
    if (this.exports === null) this.make();
    if (!this.isNew) new Uint8Array(this.exports.memory.buffer).set(this.beginning.bytes, this.beginning.at);
    this.isNew = false;
    return this.exports;
  }

  once(asked, room) {
    const exports = this.begun();
    this.exports = null;
    const came = once(exports, asked, room);
    this.exports = exports;
    return came;
  }

  // A screen that was too small holds a first part; the same turn with more room prints the same and the rest. `printed` is how
  // much the turns before printed, which this one prints again.
  turn(asked) {
    const isLong = asked.isLong || asked.printed > SMALL_ROOM / 4;
    for (let room = isLong ? LARGE_ROOM : SMALL_ROOM; ; room = room * 16 + 15 * WORD) {
      const came = this.once(asked, room);
      if (came.status !== SCREEN_FAILED || room >= MOST_ROOM) return came;
    }
  }
}
