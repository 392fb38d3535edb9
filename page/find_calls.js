// Which calls a search is for: by name, number, argument or output, or by a line of the source.
import { routineAt } from './pascal.js';

export function lineAsked(query) {
  const found = /^line (\d+)$/.exec(query.trim().toLowerCase());
  return found === null ? 0 : Number(found[1]);
}

// `ran(call)` tells whether a call's body ran the line, where that is known: true, false or null.
export function callsOfLine(tree, routines, line, ran) {
  const { number } = routineAt(routines, line);
  const calls = [];
  for (let call = 0; call < tree.routine.length; call += 1) {
    if (tree.routine[call] === number && ran(call) !== false) calls.push(call);
  }
  return Int32Array.from(calls);
}

// `briefs` has what each call was given, returned and printed, as far as it is known.
export function callsFound(tree, query, briefs) {
  const wanted = query.trim().toLowerCase();
  const number = /^(call )?(\d+)$/.exec(wanted);
  const isNamed = tree.names.map((name) => (name ?? '').toLowerCase().includes(wanted));
  const calls = [];
  for (let call = 0; call < tree.routine.length; call += 1) {
    const isNumber = number !== null && Number(number[2]) === call;
    const brief = briefs.get(call);
    const text = brief === undefined ? '' : `${tree.names[tree.routine[call]]}${brief}`.toLowerCase();
    if (isNumber || isNamed[tree.routine[call]] || text.includes(wanted)) calls.push(call);
  }
  return Int32Array.from(calls);
}
