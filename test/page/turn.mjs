// One turn of the page's module, as the page's worker does one: the bytes go into the module's own memory, the export is
// called in a new instance, and what it wrote is copied out. Nothing of the page itself is used here.
import { readFileSync } from 'node:fs';

const SCREEN_FULL = 6, FIRST_ROOM = 1 << 20, MOST_ROOM = 1 << 29;

export const openModule = (file) => new WebAssembly.Module(readFileSync(file));

// One turn in a new instance, with that much room for the screen. It uses nothing from outside of it, so its text can be given to a
// browser's worker, too.
export function turnIn(module, given, screenRoom) {
  const WORD = 8, CAME_WORDS = 4, SESSION_SAVED = 1, MOST_SESSION = 40_000_000;
  const bytesOf = (text) => (typeof text === 'string' ? new TextEncoder().encode(text) : text);
  const { exports } = new WebAssembly.Instance(module, {});
  const roomFor = (size) => {
    const at = exports.room(BigInt(size));
    if (at === 0n) throw new RangeError(`no room for ${size} bytes`);
    return at;
  };
  const memory = (at, size) => new Uint8Array(exports.memory.buffer, Number(at), size);
  const put = (text) => {
    const bytes = bytesOf(text), at = roomFor(bytes.length);
    memory(at, bytes.length).set(bytes);
    return [at, BigInt(bytes.length)];
  };
  const names = Object.keys(given.files ?? {}), pieces = names.flatMap((name) => [bytesOf(name), bytesOf(given.files[name])]);
  const sizes = roomFor(WORD * pieces.length);
  new BigUint64Array(exports.memory.buffer, Number(sizes), pieces.length).set(pieces.map((it) => BigInt(it.length)));
  const files = new Uint8Array(pieces.reduce((sum, it) => sum + it.length, 0));
  pieces.reduce((at, it) => (files.set(it, at), at + it.length), 0);
  const session = given.session ?? null, lines = bytesOf(given.console ?? '');
  const parts = [
    ...put(given.source), ...put(given.input ?? ''), ...put(given.budget ?? '1000000'), session === null ? 0 : 1, ...put(session ?? ''),
    sizes, BigInt(names.length), ...put(files), ...put(lines),
  ];
  const sessionRoom = /^save /m.test(new TextDecoder('latin1').decode(lines)) ? MOST_SESSION : 0;
  const screen = roomFor(screenRoom), saved = roomFor(sessionRoom), came = roomFor(WORD * CAME_WORDS);
  const begun = performance.now();
  exports.pasask_turn(...parts, screen, BigInt(screenRoom), saved, BigInt(sessionRoom), came);
  const ms = performance.now() - begun;
  const [status, shown, kept, stored] = Array.from(new BigUint64Array(exports.memory.buffer, Number(came), CAME_WORDS), Number);
  return {
    status, ms, screen: memory(screen, shown).slice(), saved: kept === SESSION_SAVED ? memory(saved, stored).slice() : null,
    memory: exports.memory.buffer.byteLength, exports,
  };
}

// `given` has source, input, budget, session, files by name and console, as text or bytes; all but the source may be left out.
export function turn(module, given, firstRoom = FIRST_ROOM) {
  for (let room = firstRoom; ; room *= 8) {
    const came = turnIn(module, given, room);
    if (came.status !== SCREEN_FULL || room >= MOST_ROOM) return came;
  }
}
