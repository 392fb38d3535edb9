// Pascal's tokens with their places, and the routines of a source. This is for the eye alone, colours and where a text
// begins: it takes any text, and decides nothing.

const WORDS = new Set(('and array begin case const div do downto else end file for function goto if in label mod nil not of '
  + 'or packed procedure program record repeat set then to type until var while with').split(' '));
const PIECE = /(\{[^]*?(?:\}|\*\)|$)|\(\*[^]*?(?:\}|\*\)|$))|('(?:[^'\n]|'')*(?:'|$|(?=\n)))|([A-Za-z][A-Za-z0-9]*)|(\d+)|(:=|<>|<=|>=|\.\.|[^\s])/g;
const KINDS = ['comment', 'string', 'word', 'number', 'symbol'];

// `kind`, `text` (words in small letters), and from where to where: places, lines from 1.
export function tokensOf(source) {
  const tokens = [];
  let line = 1;
  let counted = 0;
  for (const found of source.matchAll(PIECE)) {
    const from = found.index;
    for (let at = source.indexOf('\n', counted); at >= 0 && at < from; at = source.indexOf('\n', at + 1)) {
      line += 1;
      counted = at + 1;
    }
    const start = line;
    const kind = KINDS[found.slice(1).findIndex((piece) => piece !== undefined)];
    for (let at = found[0].indexOf('\n'); at >= 0; at = found[0].indexOf('\n', at + 1)) line += 1;
    counted = from + found[0].length;
    const text = kind === 'word' ? found[0].toLowerCase() : found[0];
    tokens.push({ kind: kind === 'word' && WORDS.has(text) ? 'reserved' : kind, text, from, to: counted, line: start, lastLine: line });
  }
  return tokens;
}

class Reader {
  constructor(source) {
    this.source = source;
    this.all = tokensOf(source);
    this.tokens = this.all.filter((token) => token.kind !== 'comment');
    this.at = 0;
    this.routines = [];
    this.records = [];
  }

  get text() {
    return this.at < this.tokens.length ? this.tokens[this.at].text : '';
  }

  // The comments that stand right before a place, or right after a heading, say what a routine is meant to do.
  commentsAround(from, headingEnd) {
    const said = (token) => this.source.slice(token.from, token.to).replace(/^(\{|\(\*)|(\}|\*\))$/g, '').trim();
    const near = (token) => {
      const gapBefore = this.source.slice(token.to, from);
      const isBefore = token.to <= from && /^\s*$/.test(gapBefore) && gapBefore.split('\n').length <= 3;
      const isAfter = token.from >= headingEnd && /^[\s;]*$/.test(this.source.slice(headingEnd, token.from));
      return isBefore || isAfter;
    };
    return this.all.filter((token) => token.kind === 'comment' && near(token)).map(said).filter((text) => text !== '');
  }

  heading() {
    let deep = 0;
    for (; this.at < this.tokens.length; this.at += 1) {
      if (this.text === '(') deep += 1;
      if (this.text === ')') deep -= 1;
      if (this.text === ';' && deep <= 0) break;
    }
    this.at += 1;
  }

  // The fields of a record type: all, and those outside of its variants. Of a variant part the tag field is one of them, and
  // the constants of its variants are none.
  record() {
    const record = { fields: [], fixed: [] };
    const parts = [];
    let names = [];
    let deep = 0;
    for (this.at += 1; this.at < this.tokens.length && this.text !== 'end'; this.at += 1) {
      const { kind, text } = this.tokens[this.at];
      if (text === '(' || text === '[') deep += 1;
      if (text === ')' || text === ']') deep -= 1;
      if (text === 'record') this.record();
      if (text === 'case') parts.push({ deep, isBegun: false });
      if (text === 'of' && parts.length > 0) parts[parts.length - 1].isBegun = true;
      if (text === ':' && !parts.some((part) => part.isBegun && part.deep === deep)) {
        record.fields.push(...names);
        if (!parts.some((part) => part.isBegun)) record.fixed.push(...names);
      }
      if (kind === 'word') names = this.tokens[this.at - 1].text === ',' ? [...names, text] : [text];
      else if (text !== ',') names = [];
    }
    this.records.push(record);
  }

  // Declarations and then one compound statement; answers the last line.
  block(forwards) {
    for (; this.at < this.tokens.length; this.at += 1) {
      if (this.text === 'procedure' || this.text === 'function') this.routine(forwards);
      else if (this.text === 'record') this.record();
      else if (this.text === 'begin') return this.compound();
    }
    return this.lastLine();
  }

  lastLine() {
    return this.tokens.length === 0 ? 1 : this.tokens[Math.min(this.at, this.tokens.length - 1)].lastLine;
  }

  compound() {
    let open = 0;
    for (; this.at < this.tokens.length; this.at += 1) {
      if (this.text === 'begin' || this.text === 'case') open += 1;
      if (this.text === 'end') open -= 1;
      if (open === 0) return this.lastLine();
    }
    return this.lastLine();
  }

  routine(forwards) {
    const start = this.tokens[this.at];
    const name = this.tokens[this.at + 1];
    this.heading();
    const key = name === undefined ? '' : name.text;
    const known = forwards.get(key);
    const own = known ?? { name: name === undefined ? '' : this.source.slice(name.from, name.to), number: this.routines.length, comments: [] };
    if (known === undefined) this.routines.push(own);
    own.from = start.line;
    own.comments.push(...this.commentsAround(start.from, this.tokens[Math.min(this.at, this.tokens.length) - 1]?.to ?? 0));
    if (this.text === 'forward') {
      forwards.set(key, own);
      own.to = this.lastLine();
    } else {
      own.to = this.block(new Map());
    }
  }
}

// The routines in the order of their headings, as the command numbers them; number 0 is the program. Each has a name, its
// first and last line, and the comments beside its heading. `records` are the fields of each record type.
export function outlineOf(source) {
  const reader = new Reader(source);
  const program = { name: reader.tokens[1]?.text ?? 'program', number: 0, from: 1, to: 1, comments: [] };
  reader.routines.push(program);
  reader.heading();
  program.comments = reader.commentsAround(reader.tokens[0]?.from ?? 0, reader.tokens[Math.min(reader.at, reader.tokens.length) - 1]?.to ?? 0);
  reader.block(new Map());
  program.to = reader.tokens[reader.tokens.length - 1]?.lastLine ?? 1;
  return { routines: reader.routines, records: reader.records, tokens: reader.all };
}

// The innermost routine whose text has a line.
export function routineAt(routines, line) {
  let found = routines[0];
  for (const routine of routines) {
    if (routine.from <= line && line <= routine.to && routine.to - routine.from <= found.to - found.from) found = routine;
  }
  return found;
}
