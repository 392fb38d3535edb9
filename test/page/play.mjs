// Plays one turn of the page's module, for scripts that are not in JavaScript:
//
//     play.mjs MODULE.wasm < GIVEN
//
// GIVEN is JSON with source, input, console and budget; what comes is JSON with the status, the screen and the saved session or
// null. Bytes are held as text of one character each.
import { readFileSync } from 'node:fs';
import { openModule, turn } from './turn.mjs';

const bytesOf = (text) => Buffer.from(text, 'latin1');
const textOf = (bytes) => Buffer.from(bytes).toString('latin1');

const { source, input, console: lines, budget } = JSON.parse(readFileSync(0, 'utf8'));
const given = { source: bytesOf(source), input: bytesOf(input), console: bytesOf(lines), budget };
const { status, screen, saved } = turn(openModule(process.argv[2]), given);
process.stdout.write(JSON.stringify({ status, screen: textOf(screen), saved: saved === null ? null : textOf(saved) }));
