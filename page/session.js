// A session: a program, its input, the steps, the right programs that answer for the person, and the lines that were typed. With
// these the command prints the same each time, so nothing else is kept.
import { base64OfBytes, bytesOfBase64, fileOfBytes, latin } from './bytes.js';

const STEPS = '1000000';

// `told` has what each entry says and of which call, by the entry's number, as far as a saved session has told it. `rights` has the
// right programs, one for each line that reads one, in the order of these.
export const newSession = (name, source, input, budget = STEPS, saved = null) => ({ name, source, input, budget, saved, rights: [], lines: [], told: [] });

function entriesIn(saved) {
  try {
    return JSON.parse(latin(saved)).entries.map((entry, at) => ({ number: at + 1, ...entry }));
  } catch {
    return [];
  }
}

// The entries that a saved session begins with; call 0 counts as wrong from the start. A session of another text of the
// program gives no entries.
const firstEntries = (saved, isRepliesOnly) => (saved === null || isRepliesOnly ? [{ number: 1, kind: 'wrong', call: 0, standing: true }] : entriesIn(saved));

// By the number of each entry of a saved session, what it says and the call that it is on; a routine's has none.
export const toldIn = (saved) => [{}, ...entriesIn(saved).map(({ kind, call }) => ({ kind, call }))];

// ---- right programs

// Each stands under a name of its own, so that a line means the same in each turn.
const rightName = (at) => `right-${at + 1}.pas`;
export const rightFiles = ({ rights }) => rights.map(({ file }, at) => ({ name: rightName(at), bytes: file.bytes }));

// The line that reads one more, and the number of it by its line; and the line that lets it judge a call.
export const lineOfNextRight = ({ rights }) => `reference ${rightName(rights.length)}`;
const READS = /^reference right-\d+\.pas$/;
const REFERS = /^refer (\d+)$/;
export const readsRight = (line) => READS.test(line);
export const isReferred = (line) => REFERS.test(line);

// The one that answers by now, or null: each line that was kept has read one.
export const rightOf = ({ rights }) => rights.at(-1) ?? null;

// The lines that are answers, or are about answers.
export const answersIn = (lines) => lines.filter((line) => !readsRight(line));

// ---- what lines say

const SHARED = /^shared (right|wrong|unknown) (\d+)$/;

// `told` is what a saved session has told of the entry.
function saidBy(line, told = {}) {
  const judged = /^(right|wrong|unknown) (\d+)$/.exec(line);
  if (judged !== null) return { kind: judged[1], call: Number(judged[2]) };
  const sliced = /^slice (\d+) (.+)$/.exec(line);
  if (sliced !== null) return { kind: 'wrong', call: Number(sliced[1]), output: sliced[2] };
  const shared = SHARED.exec(line);
  if (shared !== null) return { kind: shared[1], call: Number(shared[2]) };
  const referred = REFERS.exec(line);
  if (referred !== null) return { kind: told.kind ?? 'judged', call: Number(referred[1]), isReferred: true };
  const trusted = /^trust #(\d+)$/.exec(line);
  return trusted === null ? null : { kind: 'trust', routine: Number(trusted[1]) };
}

const REPLY = /^(entry|entries|back|taken back|noted) (\d+)(?: to (\d+))?$/;

// Whether a line leaves calls out, and whether it answers for all calls that were asked the same.
export const leavesOut = (line) => line.startsWith('slice ');
export const isShared = (line) => SHARED.test(line);

// Whether a line makes entries on several calls.
export const isOnSeveral = (line) => leavesOut(line) || isShared(line);

// Whether the reply to a line tells less than is shown: on which calls it made entries, or what a right program said. The session
// does, once it is saved.
export const isNews = (line) => isOnSeveral(line) || isReferred(line);

// The entries that a line made, from a number to the last one, each with its number.
function madeBy(line, number, last, told) {
  const said = saidBy(line, told[number]);
  if (said === null) return [];
  const numbers = Array.from({ length: last - number + 1 }, (_, at) => number + at);
  const callOf = (it) => told[it]?.call;
  if (!isShared(line)) return numbers.map((it) => [it, it === number ? said : { kind: 'right', call: callOf(it), leftOutBy: number }]);
  const own = numbers.find((it) => callOf(it) === said.call) ?? number;
  return numbers.map((it) => [it, { kind: said.kind, call: callOf(it), sharedWith: own }]);
}

// The calls that were asked the same as one, as far as an answer for all of them has told.
function callsSharedWith(entries, call) {
  const answer = entries.find((entry) => entry.sharedWith !== undefined && entry.call === call);
  return new Set(answer === undefined ? [call] : entries.filter((entry) => entry.sharedWith === answer.sharedWith).map((entry) => entry.call));
}

// Takes back what stands on the calls that were asked the same as one.
function takeBackShared(entries, call) {
  const calls = callsSharedWith(entries, call);
  for (const entry of entries) if (calls.has(entry.call)) entry.standing = false;
}

// All entries by the lines and the reply that each got: `number`, `kind`, `call` or `routine`, whether it stands, and the
// `note` on it, if it has one. An answer on a wrong output has the `output`; each call that it left out has an entry of its own,
// with its number as `leftOutBy`. Of an answer for all calls that were asked the same, each entry has as `sharedWith` the number of
// the one on the call that was asked about. An answer of a right program has `isReferred`.
export function entriesOf(session, replies, isRepliesOnly = false) {
  const entries = new Map(firstEntries(session.saved, isRepliesOnly).map((entry) => [entry.number, entry]));
  const put = (number, entry) => entries.set(number, { number, ...entry, standing: true });
  session.lines.forEach((line, at) => {
    const [, word = '', ...numbers] = REPLY.exec(replies[at] ?? '') ?? [];
    const [number, last] = numbers.map(Number);
    if (word.startsWith('entr')) for (const [it, entry] of madeBy(line, number, last || number, session.told)) put(it, entry);
    if (word === 'taken back') takeBackShared([...entries.values()], Number(line.split(' ').at(-1)));
    if (word === 'noted' && entries.has(number)) entries.get(number).note = line.replace(/^note \d+ /, '').trim();
    if (word === 'back' && entries.has(number)) entries.get(number).standing = false;
  });
  return [...entries.values()];
}

// The lines that take back an answer with all its entries, the last one first. One line is enough for all calls that were asked the
// same, where no other answer on any of them stands.
export function linesBack(entries, number) {
  const isOwn = (entry) => entry.number === number || entry.leftOutBy === number || entry.sharedWith === number;
  const own = entries.filter((entry) => entry.standing && isOwn(entry));
  const { sharedWith, call } = own.at(-1) ?? {};
  if (sharedWith === number && own.length > 1 && call !== undefined) {
    const calls = callsSharedWith(entries, call);
    if (!entries.some((entry) => entry.standing && !isOwn(entry) && calls.has(entry.call))) return [`shared back ${call}`];
  }
  return own.map((entry) => `back ${entry.number}`).reverse();
}

// The number of the last answer, where that made entries on several calls, or left none out; or null.
export function lastOnSeveral(entries) {
  const last = entries.filter((entry) => entry.standing).at(-1);
  return last?.leftOutBy ?? last?.sharedWith ?? (last?.output === undefined ? null : last.number);
}

// The entries that an answer on a wrong output made for the calls that it left out, and those that one for all calls that were asked
// the same made for the others.
export const leftOutBy = (entries, number) => entries.filter((entry) => entry.leftOutBy === number);
export const sharedWith = (entries, number) => entries.filter((entry) => entry.sharedWith === number && entry.number !== number);

// The answer that an entry belongs to, where it is not an answer of its own; or undefined.
export const answerOf = (entry) => entry.leftOutBy ?? (entry.sharedWith === entry.number ? undefined : entry.sharedWith);

// ---- what the browser keeps, so that a page that is closed loses no answer

const NOW = 'pasask.session';
const BEFORE = 'pasask.session.before';

const fileKept = (file) => ({ bytes: base64OfBytes(file.bytes) });

// Keeps a session that has answers. Whether that went well.
export function keep(session) {
  try {
    localStorage.setItem(NOW, JSON.stringify({
      name: session.name, source: fileKept(session.source), input: fileKept(session.input), budget: session.budget,
      saved: session.saved === null ? null : base64OfBytes(session.saved), lines: session.lines,
      rights: session.rights.map(({ name, file }) => ({ name, ...fileKept(file) })),
    }));
    return true;
  } catch {
    return false;
  }
}

function keptAt(key) {
  try {
    const it = JSON.parse(localStorage.getItem(key));
    if (it === null || answersIn(it.lines).length === 0) return null;
    return {
      name: String(it.name), source: bytesOfBase64(it.source.bytes), input: bytesOfBase64(it.input.bytes), budget: String(it.budget),
      saved: it.saved === null ? null : bytesOfBase64(it.saved), lines: it.lines.map(String),
      rights: (it.rights ?? []).map(({ name, bytes }) => ({ name: String(name), file: fileOfBytes(bytesOfBase64(bytes)) })),
    };
  } catch {
    return null;
  }
}

// The last session with answers, with its files as bytes, or null.
export const lastKept = () => keptAt(NOW) ?? keptAt(BEFORE);
export const keptBefore = () => keptAt(BEFORE);

// Another session begins: the one of now is kept beside it.
export function setAside() {
  try {
    const now = localStorage.getItem(NOW);
    if (now === null) return;
    localStorage.setItem(BEFORE, now);
    localStorage.removeItem(NOW);
  } catch {
    // A browser that keeps nothing has nothing to set aside.
  }
}
