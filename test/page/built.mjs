// What a built page carries in its parts/engine.js: the line of the proof, the examples, and the module.
//
//     node built.mjs PAGE OUT.wasm      writes the module out, and prints the line
import { readFileSync, writeFileSync } from 'node:fs';
import { join } from 'node:path';
import { fileURLToPath } from 'node:url';
import { gunzipSync } from 'node:zlib';

export function builtPage(folder) {
  const text = readFileSync(join(folder, 'parts', 'engine.js'), 'utf8');
  const { verdict, examples, module } = JSON.parse(text.slice(text.indexOf('{'), text.lastIndexOf('}') + 1));
  return { verdict, examples, module: gunzipSync(Buffer.from(module, 'base64')) };
}

if (process.argv[1] === fileURLToPath(import.meta.url)) {
  const [folder, out] = process.argv.slice(2);
  const { verdict, module } = builtPage(folder);
  writeFileSync(out, module);
  console.log(verdict);
}
