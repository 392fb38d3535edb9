// Says in words why a source is refused, and shows where. This is `refusal.awk` once more, for a browser and for node, and gives the
// same text; the sentences and the language of their conditions stand in refusals.tsv.

const WORDS = new Set(("and array begin case const div do downto else end file for function goto if in label mod nil not of or " +
    "packed procedure program record repeat set then to type until var while with").split(" "));
const SYMBOLS = new Set("+ - * / = < > [ ] . , : ; ^ ( ) <> <= >= := .. // { (*".split(" "));

// What a token does to the place where the walk stands. One that is not listed belongs to an expression.
const ROLES = new Map();
for (const [role, spellings] of [
    ["operator", "+ - * / = <> < <= > >= in and or not div mod .."],
    ["opening", "begin case repeat record ( ["],
    ["closing", "end until ) ]"],
    ["part", "label const type var procedure function"],
    ["other", "program if then else while do for to downto with of goto array packed set file : :="],
    ["semicolon", ";"],
    ["comma", ","],
]) for (const spelling of spellings.split(" ")) ROLES.set(spelling, role);

/**
 * Explains a refusal.
 *
 * @param {string} table the text of refusals.tsv
 * @param {Uint8Array} source the bytes of the source
 * @param {string} screen what pasask printed, with a line such as `refused: Rule 20, line 1, byte 52`
 * @param {string} name the name of the source that is shown
 * @returns {{line: number, column: number, sentence: string, text: string} | null} the place, counted from 1 in characters; the
 *     sentence; and the whole text, its three lines. Null where the screen has no refusal.
 */
export function explain(table, source, screen, name) {
    const refused = /^refused: ([A-Za-z]+(?: [0-9]+)?), line [0-9]+, byte ([0-9]+)\r?$/m.exec(screen);
    if (!refused) return null;
    const walk = new Walk(linesOf(source), Number(refused[2]));
    walk.go(refused[1] === "Rule 1");
    const sentence = firstSentence(readTable(table), refused[1], walk.places(), walk.words());
    const line = walk.shownLine;
    const column = charactersIn(walk.lines[line - 1] ?? "", walk.shownByte - 1) + 1;
    const text = `${name}:${line}:${column}: ${sentence}\n${shown(walk.lines[line - 1] ?? "", walk.shownByte)}\n`;
    return { line, column, sentence, text };
}

// ---- the table

// The rows of the table and its sets, each written out.
export function readTable(table) {
    const rows = [];
    const sets = new Map();
    for (const line of table.split("\n")) {
        const row = line.replace(/\r$/, "");
        if (row === "" || row.startsWith("#")) continue;
        const columns = row.split("\t");
        if (columns.length !== 3) throw new Error(`a row of the table has not three columns: ${row}`);
        if (columns[0] === "set") sets.set(columns[1], writtenOut(sets, columns[2]));
        else rows.push({ refusal: columns[0], condition: columns[1], sentence: columns[2] });
    }
    return { rows, sets };
}

// A list in which each set is replaced by what it holds.
function writtenOut(sets, list) {
    return list.split(" ").flatMap((value) => sets.get(value) ?? [value]);
}

function firstSentence({ rows, sets }, refusal, places, words) {
    for (const row of rows) {
        if (row.refusal === refusal && holds(sets, row.condition, places)) return filledIn(row.sentence, words);
    }
    return `pasask refuses the source here: ${refusal}.`;
}

function holds(sets, condition, places) {
    return condition === "always" || condition.split(" & ").every((term) => isTrue(sets, term, places));
}

function isTrue(sets, term, places) {
    const denied = term.startsWith("not ");
    const [place, ...values] = (denied ? term.slice(4) : term).split(" ");
    if (!(place in places)) throw new Error(`no such place: ${place}`);
    const all = writtenOut(sets, values.join(" "));
    return places[place].some((spelling) => all.includes(spelling) || all.includes(kindOf(spelling))) !== denied;
}

function filledIn(sentence, words) {
    return sentence.replace(/\{([a-z][a-z0-9 ]*)\}/g, (_, key) => {
        if (!(key in words)) throw new Error(`no such word: {${key}}`);
        return words[key];
    });
}

// ---- texts: a text of the source has a character for each of its bytes

function linesOf(source) {
    const parts = [];
    for (let at = 0; at < source.length; at += 8192) parts.push(String.fromCharCode(...source.subarray(at, at + 8192)));
    const lines = parts.join("").split("\n");
    if (lines.at(-1) === "") lines.pop();
    return lines;
}

function decoded(text) {
    return new TextDecoder("utf-8", { ignoreBOM: true }).decode(Uint8Array.from(text, (byte) => byte.charCodeAt(0)));
}

// How many bytes the character has that begins here in UTF-8. A byte that begins none is a character by itself.
function characterLength(text, at) {
    const first = text.charCodeAt(at);
    const size = first >= 194 && first < 224 ? 2 : first >= 224 && first < 240 ? 3 : first >= 240 && first < 245 ? 4 : 1;
    for (let i = 1; i < size; i++) if (!isContinued(text, at + i)) return 1;
    return size;
}

function isContinued(text, at) {
    const byte = text.charCodeAt(at);
    return byte >= 128 && byte < 192;
}

// What a character that is no token is called: U+00E4, or BYTE-228 where it is none in UTF-8.
function codeOf(text) {
    if (text.length === 1 && text.charCodeAt(0) >= 128) return `BYTE-${text.charCodeAt(0)}`;
    let number = text.charCodeAt(0) % [128, 32, 16, 8][text.length - 1];
    for (let i = 1; i < text.length; i++) number = number * 64 + (text.charCodeAt(i) % 64);
    return `U+${number.toString(16).toUpperCase().padStart(4, "0")}`;
}

// The text as it can be printed: tabs stay, and a control character or a byte that is none in UTF-8 becomes a question mark.
function printable(text) {
    let result = "";
    for (let at = 0, size; at < text.length; at += size) {
        size = characterLength(text, at);
        const part = text.slice(at, at + size);
        result += size > 1 || /[\t -~]/.test(part) ? part : "?";
    }
    return result;
}

function charactersIn(text, bytes) {
    let count = 0;
    for (let at = 0; at < bytes; at += characterLength(text, at)) count++;
    return count;
}

// A text for a sentence, shortened where it is long.
function quoted(text) {
    const part = printable(text.replace(/\r$/, ""));
    return decoded(part.length > 40 ? `${cutAt(part, 36)}..` : part);
}

// The first bytes of a text, but no part of a character.
function cutAt(text, bytes) {
    while (bytes > 0 && isContinued(text, bytes)) bytes--;
    return text.slice(0, bytes);
}

// The line, and below it a caret at this byte of it. Of a long line only what stands around is shown.
function shown(line, byte) {
    let from = byte > 120 ? byte - 80 : 1;
    while (from > 1 && isContinued(line, from - 1)) from--;
    const cut = line.length > from + 159;
    const part = cut ? cutAt(line, from + 119) : line.replace(/\r$/, "");
    const lead = from > 1 ? ".." : "";
    const front = decoded(printable(lead + line.slice(from - 1, byte - 1)));
    const caret = Array.from(front, (character) => (character === "\t" ? "\t" : " ")).join("") + "^";
    return `${decoded(lead + printable(part.slice(from - 1)))}${cut ? ".." : ""}\n${caret}`;
}

// ---- tokens

// The kind of a token with this spelling.
function kindOf(spelling) {
    if (spelling === "END" || spelling === "NONE") return spelling;
    if (WORDS.has(spelling)) return "WORD";
    if (SYMBOLS.has(spelling)) return "SYMBOL";
    if (/^[a-z]/.test(spelling)) return "NAME";
    if (/^[0-9]+$/.test(spelling)) return "NUMBER";
    if (spelling === "'") return "STRING";
    if (/^U\+00([01].|7F)$/.test(spelling)) return "CONTROL";
    if (spelling.startsWith("U+")) return "FOREIGN";
    if (spelling.startsWith("BYTE")) return "BYTE";
    return "CHARACTER";
}

const BLANKS = /[ \t\r\f]*/y;
const NAME = /[A-Za-z][A-Za-z0-9]*/y;
// A number goes on over a fraction and a scale factor, and over letters, so that one that is refused is shown whole.
const NUMBER = /[0-9]+(?:\.[0-9]+(?:[eE][-+]?[0-9]+)?|[eE][-+]?[0-9]+|[A-Za-z0-9]+)?/y;
const PAIR = /<>|<=|>=|:=|\.\.|\(\.|\.\)|\(\*|\/\//y;

function matchAt(pattern, line, at) {
    pattern.lastIndex = at;
    const found = pattern.exec(line);
    return found ? found[0] : "";
}

// A string goes to the last apostrophe that can end it, or to the end of the line.
function stringAt(line, at) {
    let end = 0;
    for (let from = at + 1; (from = line.indexOf("'", from)) >= 0; from += 2) {
        end = from;
        if (line[from + 1] !== "'") break;
    }
    return line.slice(at, end ? end + 1 : line.length);
}

// The text and the spelling of the token that stands here.
function tokenAt(line, at) {
    let text = matchAt(NAME, line, at) || matchAt(NUMBER, line, at);
    if (text) return [text, text.toLowerCase()];
    if (line[at] === "'") return [stringAt(line, at), "'"];
    text = matchAt(PAIR, line, at) || line.slice(at, at + characterLength(line, at));
    return [text, markSpelling(text)];
}

function markSpelling(text) {
    if (SYMBOLS.has(text)) return text;
    if (text === "@") return "^";
    if (text === "(.") return "[";
    if (text === ".)") return "]";
    return /^[!-~]$/.test(text) && text !== "&" ? text : codeOf(text);
}

// ---- the walk over the tokens: up to the one that is refused, and then as far as is needed

// What is open, and what was met since: a level of brackets.
class Level {
    constructor(opener, line, called) {
        this.opener = opener.spelling;
        this.text = opener.text;
        this.line = line;
        this.called = called;
        this.since = opener.spelling;
        this.left = new Set();
        this.waiting = 0;
        this.waited = 0;
    }
}

const NOTHING = { spelling: "NONE", text: "" };

class Walk {
    constructor(lines, target) {
        this.lines = lines;
        this.target = target;
        this.levels = [new Level(NOTHING, 0, NOTHING)];
        this.blocks = [{ kind: "program", name: "" }];
        this.part = "NONE";
        this.closed = "";
        this.before = this.before2 = this.after = this.token = NOTHING;
        this.previous = "NONE";
        this.earlier = new Set();
        this.later = new Set();
        this.earlierLine = this.laterLine = "";
        this.right = new Set();
        this.rightDepth = 0;
        this.lastLine = this.lastEnd = 0;
        this.met = this.rightEnds = this.inComment = this.done = false;
    }

    get level() {
        return this.levels.at(-1);
    }

    get block() {
        return this.blocks.at(-1);
    }

    go(toTheEnd) {
        this.toTheEnd = toTheEnd;
        this.starts = [];
        let start = 0;
        for (const line of this.lines) {
            this.starts.push(start);
            start += line.length + 1;
        }
        this.aim();
        for (let i = 0; i < this.lines.length && !this.done; i++) this.walkLine(this.lines[i], i);
        if (!this.done) this.take({ spelling: "END", text: "" }, this.lines.length, (this.lines.at(-1) ?? "").length + 1, true);
    }

    // Finds the name or number at the target, so that the walk knows it when it stands elsewhere.
    aim() {
        let i = 0;
        while (i + 1 < this.lines.length && this.starts[i + 1] <= this.target) i++;
        const text = this.lines[i] ?? "";
        const at = this.target - this.starts[i];
        this.aimed = (matchAt(NAME, text, at) || matchAt(/[0-9]+/y, text, at)).toLowerCase();
    }

    walkLine(line, index) {
        let at = 0;
        while (at < line.length) {
            if (this.inComment) {
                at = this.afterComment(line, at);
                continue;
            }
            at += matchAt(BLANKS, line, at).length;
            if (at >= line.length) return;
            const [text, spelling] = tokenAt(line, at);
            if ((spelling === "{" || spelling === "(*") && (this.met || this.starts[index] + at < this.target)) {
                this.inComment = true;
                at += text.length;
                continue;
            }
            this.take({ spelling, text }, index + 1, at + 1, this.starts[index] + at >= this.target);
            if (this.done) return;
            at += text.length;
        }
    }

    afterComment(line, at) {
        const end = /\}|\*\)/g;
        end.lastIndex = at;
        if (!end.exec(line)) return line.length;
        this.inComment = false;
        return end.lastIndex;
    }

    // Takes one token: its line and its byte in it are counted from 1.
    take(token, line, byte, isReached) {
        if (this.met) this.lookBehind(token, line);
        else if (isReached) this.meet(token, line, byte);
        else {
            if (token.spelling === this.aimed) {
                this.earlier.add(this.before.spelling);
                this.earlierLine = line;
            }
            const role = ROLES.get(token.spelling);
            if (role) this.step(token, role, line);
            else if (this.levels.length === 1) this.noteOuterName(token);
            this.before2 = this.before;
            this.before = token;
            this.lastLine = line;
            this.lastEnd = byte + token.text.length;
        }
    }

    // A name outside of all brackets: that of a routine, or a directive, which takes the place of the routine's block.
    noteOuterName(token) {
        const before = this.before.spelling;
        if (before === "procedure" || before === "function" || before === "program") this.block.name = token.text;
        else if ((this.part === "procedure" || this.part === "function") && before === ";" && kindOf(token.spelling) === "NAME") {
            this.part = "directive";
            this.blocks.pop();
        }
    }

    // Takes a token that changes where the walk stands.
    step(token, role, line) {
        const spelling = token.spelling;
        if (role === "operator") {
            this.level.left.add(spelling);
            return;
        }
        if (spelling !== "(" && spelling !== "[") this.level.left.clear();
        if (role === "opening") this.open(token, line);
        else if (role === "closing") this.close(spelling);
        else if (role === "part") this.beginPart(spelling);
        else if (role === "semicolon") this.endStatement();
        else if (role === "other") this.goOn(spelling);
    }

    open(token, line) {
        const spelling = token.spelling;
        // The variants of a record have no `end` of their own.
        if (spelling === "case" && (this.level.opener === "record" || this.level.opener === "(")) {
            this.level.since = spelling;
            return;
        }
        if (spelling === "begin" && this.levels.length === 1) this.part = "begin";
        this.levels.push(new Level(token, line, kindOf(this.before.spelling) === "NAME" ? this.before : NOTHING));
    }

    close(spelling) {
        if (this.levels.length === 1) return;
        const closed = this.levels.pop();
        if (spelling === "until") this.level.since = spelling;
        if (closed.opener === "begin" && this.levels.length === 1) this.endBlock();
    }

    endBlock() {
        this.closed = this.block.name;
        this.part = this.blocks.length > 1 ? "end" : "done";
        if (this.blocks.length > 1) this.blocks.pop();
    }

    beginPart(spelling) {
        this.level.since = spelling;
        if (this.levels.length > 1) return;
        this.part = spelling;
        if (spelling === "procedure" || spelling === "function") this.blocks.push({ kind: spelling, name: "" });
    }

    endStatement() {
        this.level.since = ";";
        this.level.waited = this.level.waiting;
        this.level.waiting = 0;
        if (this.part === "directive" && this.levels.length === 1) this.part = "end";
    }

    goOn(spelling) {
        if (spelling === "program") this.part = spelling;
        if (spelling === "if") this.level.waiting++;
        if (spelling === "else" && this.level.waiting) this.level.waiting--;
        this.level.since = spelling === ":=" && this.before2.spelling === "for" ? "for" : spelling;
    }

    // Meets the token that is refused. Where the source ends too early, the place after its last token is shown.
    meet(token, line, byte) {
        this.met = true;
        this.token = token;
        this.sameLine = line === this.lastLine;
        const isEnd = token.spelling === "END";
        if (isEnd && this.lastLine) {
            line = this.lastLine;
            byte = this.lastEnd;
        }
        this.shownLine = Math.max(line, 1);
        this.shownByte = byte;
        if (isEnd) this.done = true;
    }

    // Looks at a token behind it: the next one, those of the same expression, and later uses of the name.
    lookBehind(token, line) {
        if (this.after === NOTHING) this.after = token;
        if (!this.rightEnds) this.lookRight(token.spelling);
        if (token.spelling === this.aimed) {
            this.later.add(this.previous);
            if ((this.previous === "procedure" || this.previous === "function") && !this.laterLine) this.laterLine = line;
        }
        this.previous = token.spelling;
        if (this.rightEnds && !this.toTheEnd) this.done = true;
    }

    // Notes an operator on the right, or the token that ends the expression.
    lookRight(spelling) {
        const role = ROLES.get(spelling);
        if (spelling === "(" || spelling === "[") this.rightDepth++;
        else if (this.rightDepth && (spelling === ")" || spelling === "]")) this.rightDepth--;
        else if (!this.rightDepth && role) {
            this.right.add(spelling);
            if (role !== "operator") this.rightEnds = true;
        }
        if (spelling === "END" || (this.rightDepth && spelling === ";")) this.rightEnds = true;
    }

    // What the conditions speak of.
    places() {
        const list = (set) => (set.size ? [...set] : ["NONE"]);
        const left = list(this.level.left);
        const right = list(this.right);
        const around = this.levels.slice(1).map((level) => level.opener);
        return {
            token: [this.token.spelling],
            before: [this.before.spelling],
            before2: [this.before2.spelling],
            after: [this.after.spelling],
            line: [this.sameLine ? "same" : "new"],
            inside: [this.level.opener],
            around: around.length ? around : ["NONE"],
            called: [this.level.called.spelling],
            since: [this.level.since],
            part: [this.part],
            block: [this.block.kind],
            left,
            right,
            beside: [...left, ...right],
            waiting: [(this.before.spelling === ";" ? this.level.waited : this.level.waiting) ? "if" : "NONE"],
            outer: [this.levels.at(-2)?.waiting ? "if" : "NONE"],
            earlier: list(this.earlier),
            later: list(this.later),
        };
    }

    // What is put into the sentences.
    words() {
        const token = this.token.spelling;
        return {
            token: quoted(this.token.text),
            before: quoted(this.before.text),
            before2: quoted(this.before2.text),
            after: quoted(this.after.text),
            code: token.startsWith("BYTE") ? token.slice(5) : token,
            open: this.level.text,
            "open line": this.level.line,
            called: quoted(this.level.called.text),
            since: this.level.since,
            routine: quoted(this.block.name),
            closed: quoted(this.closed),
            "earlier line": this.earlierLine,
            "later line": this.laterLine,
        };
    }
}
