// The programs of crates/worked_cases that a page can play: the cases of the command, and the sources and runs of the other
// files with a console of their own.
import { readFileSync } from 'node:fs';
import { join } from 'node:path';

const ESCAPES = { n: '\n', r: '\r', t: '\t', '.': '' };
// What the consoles of sources and runs say. The source is its own right program.
const LINES = 'tree\ntrace 0\nwrong 1\nunknown\nright\nback\nslice 1 result\nslice 1 gives\nslice 1 takes\nslice 1 makes\nslice 1 way\nslice 0 gives\nalike 1\nshared unknown\nshared right 1\nshared back 1\nreference program.pas\nrefer 1\nrefer\nquit\n';

// Bytes are held as text of one character each, as the files are read.
const bytesOf = (text) => Buffer.from(text, 'latin1');

function unescapedPlain(text) {
  return text.replace(/\\(x([0-9a-fA-F]{2})|[nrt.])/g, (_, word, digits) => (digits ? String.fromCharCode(parseInt(digits, 16)) : ESCAPES[word]));
}

// `\n`, `\r`, `\t`, `\xHH` and `\.`, and a count and a text between two backquotes.
function unescaped(text) {
  return text.split('`').map((part, i) => {
    if (i % 2 === 0) return unescapedPlain(part);
    const at = part.indexOf(' ');
    return unescapedPlain(part.slice(at + 1)).repeat(Number(part.slice(0, at)));
  }).join('');
}

// The sections of a file: `== HEADING`, and the lines below it without the blank ones at its end.
function sectionsOf(text) {
  return `\n${text}`.split('\n== ').slice(1).map((part) => {
    const at = part.indexOf('\n');
    return at < 0 ? { heading: part, text: '' } : { heading: part.slice(0, at), text: part.slice(at + 1).replace(/\n+$/, '') };
  });
}

// The sections of each case: from a heading `case NAME` to the next.
function casesOf(text) {
  const cases = [];
  for (const section of sectionsOf(text)) {
    if (section.heading.startsWith('case ')) cases.push({ name: section.heading.slice(5), sections: [] });
    else if (cases.length > 0) cases.at(-1).sections.push(section);
  }
  return cases;
}

// The bytes of a section of a case: those of a file, those that the lines stand for, or the lines.
function textOf(folder, { heading, text }) {
  const from = / from (\S+)$/.exec(heading);
  if (from) return readFileSync(join(folder, from[1]), 'latin1');
  if (heading.endsWith(' escaped')) return unescaped(text);
  return text === '' ? '' : `${text}\n`;
}

// What the words of the command ask for: the names of the source, input and session, and the budget; or null.
function asked(words) {
  const found = { source: null, input: null, session: null, budget: null };
  const options = { '--input': 'input', '--load': 'session', '--budget': 'budget' };
  for (let i = 1; i < words.length; i++) {
    const at = words[i].indexOf('='), option = at < 0 ? words[i] : words[i].slice(0, at);
    if (option in options) {
      const value = at < 0 ? words[++i] : words[i].slice(at + 1);
      if (value === undefined || found[options[option]] !== null) return null;
      found[options[option]] = value;
    } else if (words[i].startsWith('-') || found.source !== null) {
      return null;
    } else {
      found.source = words[i];
    }
  }
  return found.source === null ? null : found;
}

const isPlainName = (name) => /^[A-Za-z0-9_.-]{1,100}$/.test(name) && !name.startsWith('.');

// A case of the command, or why a page can't play it. Lines that save a session get the one name that a page saves to.
function commandCase(folder, file, { name, sections }) {
  const given = { name: `${file} ${name}`, files: {} };
  let words = ['pasask', 'F'], console = '';
  for (const section of sections) {
    const [what, which, ...rest] = section.heading.split(' ');
    if (which === 'fails' || which === 'room' || what === 'each') return { ...given, leftOut: 'the keeper, the console or the screen fails' };
    if (what === 'words') words = [which, ...rest].filter((it) => it !== undefined).map(unescaped);
    if (what === 'file') given.files[which] = bytesOf(textOf(folder, section));
    if (what === 'console') console = textOf(folder, section);
  }
  const found = asked(words);
  if (found === null) return { ...given, leftOut: 'its words are not those of a source' };
  const { source, input, session, budget } = found;
  for (const it of [source, input, session]) {
    if (it !== null && !(it in given.files)) return { ...given, leftOut: 'a file is missing' };
  }
  const own = (it) => (it === null ? null : given.files[it]);
  const further = Object.entries(given.files).filter(([it]) => ![source, input, session].includes(it));
  if (!further.every(([it]) => isPlainName(it))) return { ...given, leftOut: 'a file has a name that no file has' };
  if (/[^\x21-\x7e]/.test(budget ?? '')) return { ...given, leftOut: 'its words are not those of a source' };
  console = console.replace(/^save .*$/gm, 'save page.session');
  return {
    ...given, source: own(source), input: own(input) ?? Buffer.alloc(0), session: own(session), budget: budget ?? '1000000',
    files: Object.fromEntries(further), console: bytesOf(console),
  };
}

const playedAlone = (name, source, input, budget) => ({
  name, source: bytesOf(source), input: bytesOf(input), session: null, budget, files: {}, console: bytesOf(LINES),
});

// Each run of a file of runs.
function runCases(file, text) {
  return casesOf(text).flatMap(({ name, sections }) => {
    let source = '', input = '', budget = '1000000';
    const runs = [];
    for (const section of sections) {
      const [what, ...rest] = section.heading.split(' ');
      const is = (it) => section.heading === it || section.heading === `${it} escaped`;
      const own = section.heading.endsWith(' escaped') ? unescaped(section.text) : section.text;
      if (is('source')) source = own;
      if (is('input')) input = own;
      if (what === 'budget') budget = rest[0];
      if (what === 'run') runs.push(playedAlone(`${file} ${name} ${budget}`, source, input, budget));
    }
    return runs;
  });
}

// Each row `WHY: SOURCE` of a file of sources, in which `|` marks where a source is refused.
function sourceCases(file, text) {
  return text.split('\n').flatMap((line, i) => {
    const at = line.indexOf(': ');
    if (line === '' || line.startsWith('#') || at < 0) return [];
    return [playedAlone(`${file} line ${i + 1}`, line.slice(at + 2).split('|').map(unescaped).join(''), '', '100000')];
  });
}

// All that can be played of the folder `data`, in the index's order; those left out have `leftOut`, which says why.
export function casesIn(folder) {
  const index = readFileSync(join(folder, 'index'), 'latin1').split('\n').map((line) => line.split(' '));
  const seen = new Set();
  return index.flatMap(([kind, file]) => {
    if (!file || kind.startsWith('#') || kind === 'tables' || seen.has(file)) return [];
    seen.add(file);
    const text = readFileSync(join(folder, file), 'latin1');
    if (kind === 'command') return casesOf(text).map((it) => commandCase(folder, file, it));
    return kind === 'runs' ? runCases(file, text) : sourceCases(file, text);
  });
}
