// Calls the module of narrow_test.c, with addresses below and above 2 GiB.
import { readFileSync } from 'node:fs';
import assert from 'node:assert/strict';

const module = new WebAssembly.Module(readFileSync(process.argv[2]));
assert.deepEqual(WebAssembly.Module.imports(module), []);
const { exports: e } = new WebAssembly.Instance(module, {});
const view = () => new DataView(e.memory.buffer);
const PAGE = 65536;
let tried = 0;

// Of each kind: its size, a value, and what the value and the one after it come to.
const KINDS = {
  i8: [1, -7, -13, 'Int8'], u8: [1, 250, 245, 'Uint8'], i16: [2, -300, -599, 'Int16'], u16: [2, 65000, 64465, 'Uint16'],
  i32: [4, -70000, -139999, 'Int32'], u32: [4, 3000000000, 1705032705, 'Uint32'], u64: [8, 2n ** 63n + 5n, 11n, 'BigUint64'],
  f32: [4, 0.5, 2, 'Float32'], f64: [8, 1e300, 2e300, 'Float64'],
};

function accessesAt(base) {
  for (const [kind, [size, value, wanted, name]] of Object.entries(KINDS)) {
    const one = typeof value === 'bigint' ? 1n : 1;
    e[`put_${kind}`](base, value);
    assert.equal(view()[`get${name}`](Number(base), true), value, kind);
    assert.equal(view()[`get${name}`](Number(base) + 5 * size, true), value + one, kind);
    assert.equal(e[`get_${kind}`](base - BigInt(size), 1n), wanted, kind);
    tried += 3;
  }
  e.narrow_to_small(0x1122334455667788n, base, base + 8n, base + 16n);
  assert.deepEqual([view().getUint8(Number(base)), view().getUint16(Number(base) + 8, true), view().getUint32(Number(base) + 16, true)], [0x88, 0x7788, 0x55667788]);
  view().setInt8(Number(base), -1);
  view().setUint16(Number(base) + 8, 65535, true);
  view().setInt32(Number(base) + 16, -2, true);
  assert.equal(BigInt.asUintN(64, e.wide_from_small(base, base + 8n, base + 16n, base + 32n)), 65532n);
  e.filled(base, 0xab, 100n);
  e.moved(base + 50n, base + 20n, 60n);
  assert.deepEqual([...new Uint8Array(e.memory.buffer, Number(base), 111)], [...Array(110).fill(0xab), 0]);
  e.filled(base, 0, 128n);
  tried += 6;
}

// Below: data at a constant place, calls by a table, and every access.
const place = Number(e.data_place());
assert.equal(new TextDecoder().decode(new Uint8Array(e.memory.buffer, place, 4)), 'what');
assert.deepEqual([e.stepped(0n, 21n), e.stepped(1n, 21n)], [42n, 22n]);
const first = e.pages();
assert.equal(first, BigInt(e.memory.buffer.byteLength / PAGE));
assert.equal(e.grown(4n), first);
accessesAt(first * BigInt(PAGE) + 64n);

// The stack: what fits, and an overflow, which ends in a trap and writes over nothing.
const before = new Uint8Array(e.memory.buffer, place, 32).slice();
assert.equal(typeof e.deep(100n), 'bigint');
assert.throws(() => new WebAssembly.Instance(module, {}).exports.deep(100000n), (error) => error instanceof WebAssembly.RuntimeError || error instanceof RangeError);
assert.throws(() => e.deep(6000n), WebAssembly.RuntimeError);
assert.deepEqual(new Uint8Array(e.memory.buffer, place, 32), before);
tried += 7;

// Beyond the end of the memory each access is a trap, and so is one that no address of 32 bits has.
for (const at of [BigInt(e.memory.buffer.byteLength), BigInt(e.memory.buffer.byteLength) - 3n, -8n, -1n]) {
  assert.throws(() => e.put_u64(at, 1n), WebAssembly.RuntimeError);
  assert.throws(() => e.get_u64(at, 0n), WebAssembly.RuntimeError);
  assert.throws(() => e.filled(at, 1, 16n), WebAssembly.RuntimeError);
  assert.throws(() => e.moved(at, 64n, 16n), WebAssembly.RuntimeError);
  tried += 4;
}

// Above 2 GiB, where an address of 32 bits would be a negative number; and the end of what may be.
assert.equal(e.grown(BigInt(2 ** 31 / PAGE)), first + 4n);
accessesAt(2n ** 31n + 64n);
assert.equal(BigInt.asIntN(64, e.grown(65536n)), -1n);
const left = 65536n - 256n - e.pages();
assert.equal(BigInt.asIntN(64, e.grown(left + 1n)), -1n);
tried += 3;
console.log(`narrow: ${tried} accesses and calls are as they should be`);
