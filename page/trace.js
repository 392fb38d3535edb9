// A trace: how often each line of the source was begun, which calls were made where, and how the body ended.
import { latin } from './bytes.js';

const NEWLINE = 10;
const FIRST_EVENTS = 500;
const LETTER_L = 108;

function numberAt(bytes, from, to) {
  let number = 0;
  let at = from;
  for (; at < to && bytes[at] >= 48 && bytes[at] <= 57; at += 1) number = number * 10 + bytes[at] - 48;
  return { number, at };
}

// `counts` of the lines; the first `events`, of `total`; of each call that the body made the line, in order of entry;
// the `end`, as the last line has it.
export function traceOf(bytes, from = 0, to = bytes.length) {
  const counts = new Map();
  const events = [];
  const calls = [];
  const callLines = [];
  let total = 0;
  let line = 0;
  let end = '';
  for (let at = from; at < to;) {
    const found = bytes.indexOf(NEWLINE, at);
    const stop = found < 0 || found > to ? to : found;
    const number = bytes[at + 2] === LETTER_L && bytes[at + 6] === 32 ? numberAt(bytes, at + 7, stop) : null;
    total += 1;
    if (number !== null && number.at === stop && stop > at + 7) {
      line = number.number;
      counts.set(line, (counts.get(line) ?? 0) + 1);
      if (events.length < FIRST_EVENTS) events.push({ line });
    } else {
      const text = latin(bytes.subarray(at, Math.min(stop, at + 10000))).replace(/^ {2}/, '');
      const call = /^call (\d+) (\S+)$/.exec(text);
      if (call !== null) {
        calls.push(Number(call[1]));
        callLines.push(line);
        if (events.length < FIRST_EVENTS) events.push({ call: Number(call[1]), name: call[2], line });
      } else {
        end = text;
        total -= 1;
      }
    }
    at = stop + 1;
  }
  return { counts, events, total, calls: Int32Array.from(calls), callLines: Int32Array.from(callLines), end };
}

// The line on which a body made a call, or 0.
export function lineOfCall(trace, call) {
  const at = trace.calls.indexOf(call);
  return at < 0 ? 0 : trace.callLines[at];
}
