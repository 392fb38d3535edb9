// How much of its stack the module takes for sources that nest about as deep as a source may: stack.mjs MODULE.wasm
// The stack lies at the bottom of the memory, which is zero before it is written. Each has to end with status 0.
import { DEEP } from './large.mjs';
import { openModule, turn } from './turn.mjs';

const STACK = 4194304;

if (process.argv[2] === undefined) {
  console.error('usage: stack.mjs MODULE.wasm');
  process.exit(2);
}
const module = openModule(process.argv[2]);
let isFine = true;
for (const given of DEEP) {
  const { status, exports } = turn(module, { ...given, console: 'quit\n' });
  const lowest = new Uint8Array(exports.memory.buffer, 0, STACK).findIndex((byte) => byte !== 0);
  const used = lowest < 0 ? 0 : STACK - lowest;
  isFine &&= status === 0 && used < STACK / 2;
  console.log(`${given.name}: ${used.toLocaleString('en')} bytes of ${STACK.toLocaleString('en')}, status ${status}`);
}
process.exit(isFine ? 0 : 1);
