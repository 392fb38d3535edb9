// What a user does with the page, and what has to come of it. Each test is given `t`: see run.mjs.
import { accessibilityFaults } from './accessibility.mjs';
import { LARGE } from './large.mjs';

const DESK = { width: 1400, height: 900 }, PHONE = { width: 390, height: 844 };
const largest = LARGE.find((it) => it.name === '500,000 calls'), flat = LARGE.find((it) => it.name === '200,000 calls');

const BAD = `program bad;
var x: integer;
begin
  x := true
end.
`;

const SQUARES = `program powers(output);
var i: integer;
function square(n: integer): integer;
begin square := n * n + n div 3 end;
procedure show(n: integer);
begin writeln(n: 1, ' ', square(n): 1) end;
begin for i := 1 to 4 do show(i) end.
`;

const BUMP = `program bumping(output);
var a: array [1..4] of integer; i: integer;
procedure bump;
begin a[2] := a[2] + 1 end;
begin
  for i := 1 to 4 do a[i] := i;
  bump;
  writeln(a[2])
end.
`;

// Calls 1 and 2 of `sum` do the same work, and call 3 meets another `a[3]`.
const SHARE = `program share;
var a: array [1..3] of integer; each, left: integer;

function sum: integer;
begin
  sum := a[1] + a[2] + a[3]
end;

begin
  a[1] := 4;
  a[2] := 5;
  a[3] := 8;
  each := sum div 3;
  left := sum - each * 3;
  a[3] := 9;
  left := sum
end.
`;

// Neither call of `a` looks at what was in x.
const TWICE = `program z;
var x: integer;
procedure a;
begin x := 0 end;
begin x := 1; a; x := 2; a end.
`;

// Calls 1 to 5 of `dot` do the same work, and call 6 prints something else.
const DOTS = `program dots(output);
var i: integer;
procedure dot(c: char);
begin write(c) end;
begin for i := 1 to 5 do dot('.'); dot(',') end.
`;

// Call 1 of `half` was made by the program, and call 3, which has the same card, by `halve`.
const HALVES = `program halves(output);
var x: integer;
function half(n: integer): integer;
begin half := n div 2 end;
procedure halve;
begin x := half(8) + 1 end;
begin
  x := half(8);
  halve;
  writeln(x: 1)
end.
`;

// Of what `m` changed b had no part in x, and a and c had none in y.
const PARTS = `program parts;
var x, y: integer;
procedure a;
begin x := 1 end;
procedure b;
begin y := 2 end;
procedure c;
begin x := x + 1 end;
procedure m;
begin a; b; c end;
begin m end.
`;

// What goes wrong in `work`: a part of an array, variables made by new, the input, the output, a result, and how it ends.
const WRONGS = `program wrongs(input, output);
type link = ^item; item = record key: integer; next: link end;
var a: array [1..3] of integer; n: integer; first: link;
procedure fill;
begin a[1] := 1; a[2] := 2 end;
procedure take;
begin read(n) end;
procedure make;
begin new(first); first^.key := n; first^.next := nil end;
procedure tell;
begin write(n: 1) end;
function work: integer;
begin fill; take; make; tell; work := n; a[3] := n div a[3] end;
begin a[3] := 0; n := work end.
`;

// A hand-in, whose `a` should add 2, and which sorts a list of its own; a right program has both routines that count.
const HAND_IN = `program p;
type link = ^item; item = record next: link end;
var x: integer; l: link;
procedure a;
begin x := x + 1 end;
procedure b;
begin a; a end;
procedure list;
begin new(l); l^.next := nil end;
begin x := 1; b; list end.
`;

const RIGHT = `program r;
var x: integer;
procedure a;
begin x := x + 2 end;
procedure b;
begin x := x + 4 end;
begin end.
`;

const NO_PROGRAM = `program r;
var x: integer;
procedure a;
begin x := true end;
begin end.
`;

const FILLING = `program filling(output);
var a: array [1..60000] of integer;
procedure fill;
var i: integer;
begin for i := 1 to 60000 do a[i] := i end;
procedure show;
begin writeln(a[60000]) end;
begin fill; show end.
`;

// `put` is given an array by its address and a text as a copy of its own, which `letter`, within it, reads and changes.
const OWN_SIZES = `program sizes(output);
var a: array [3..5] of integer; s: packed array [1..4] of char;
procedure put(var v: array [lo..hi: integer] of integer; t: packed array [x..y: integer] of char);
  procedure letter(i: integer);
  begin v[i] := ord(t[x]); t[x] := t[y] end;
begin letter(lo); letter(hi) end;
begin a[3] := 0; a[4] := 0; a[5] := 0; s := 'abcz'; put(a, s); writeln(a[5]: 1) end.
`;

const isCalm = '!document.body.classList.contains("busy")';
const button = (word) => `[data-say=${word}]`;

// The page with an example and answers, as a link opens it.
async function opened(t, example, answers = []) {
  await t.fresh(`#example=${example}&answers=${answers.join(',')}`);
  await calm(t, answers.length);
}

const calm = (t, turns, seconds) => t.page.until(`document.body.dataset.turns === '${turns}' && ${isCalm} && document.querySelector('#question, #verdict') !== null`, seconds);
const title = (t) => t.page.value('document.querySelector("#card h2").textContent');
const asked = (t) => t.page.value('document.querySelector("#question")?.dataset.name ?? ""');
const verdict = (t) => t.page.value('document.querySelector("#verdict")?.dataset.name ?? ""');
const notices = async (t) => (await t.page.text('#notices')).join('\n');

// A program is dropped onto the page and run by a click.
async function ran(t, name, source, budget = '1000000', seconds = 60) {
  await t.page.drop('#source', name, source);
  await t.page.until(`document.querySelector('#source').value === ${JSON.stringify(source)}`);
  await t.page.value(`(() => { const field = document.querySelector('#budget'); field.value = '${budget}'; field.dispatchEvent(new Event('input', { bubbles: true })); })()`);
  await t.page.click('#run');
  if (seconds > 0) await t.page.until(`${isCalm} && document.querySelector('#question, #verdict, .notice.bad') !== null`, seconds);
}

async function accessible(t, what) {
  t.equal(`accessibility, ${what}`, await t.page.value(`(${accessibilityFaults})()`), []);
}

// Tab is pressed until the focus is on what a selector names.
async function tabTo(t, selector, most = 60) {
  const isThere = () => t.page.value(`document.activeElement.matches(${JSON.stringify(selector)})`);
  for (let i = 0; i < most; i++) {
    await t.page.press('Tab');
    if (await isThere()) return;
  }
  throw new Error(`Tab does not come to ${selector}`);
}

// A call is chosen in the tree. Where its row was made anew between press and release, it is pressed once more.
async function choose(t, call) {
  const isShown = `document.querySelector('#detail [data-call="${call}"] .trace') !== null`;
  for (let left = 2; ; left--) {
    await t.page.click(`#tree .row[data-call="${call}"]`);
    try {
      return await t.page.until(isShown, 20);
    } catch (fault) {
      if (left === 0) throw fault;
    }
  }
}

const seen = async (t, selector) => (await t.page.text(selector)).map((text) => text.replace(/\s+/g, ' '));

export const TESTS = {
  async 'the first view'(t) {
    await t.fresh();
    t.holds('it says what it is for', (await t.page.text('#card h2'))[0].length > 10);
    t.holds('there are examples', (await t.page.text('#card button.example')).length >= 5);
    const { verdict: built } = t.built;
    t.holds('the foot says whether its engine is proved', built.startsWith('logic=proved ') === /proved program/.test((await t.page.text('#trust'))[0]));
    t.equal('and has the line of the proof', await t.page.value('document.querySelector("#trust").title'), built);
    t.equal('there is nothing to run yet', await t.page.value('document.querySelector("#run").getAttribute("aria-disabled")'), 'true');
    t.holds('the calls will stand to the right', /will stand here/.test((await t.page.text('#right'))[0]));
    await t.picture('1-first');
    await accessible(t, 'first view');
    await t.page.choose('#sessionFile', 'friday.session', '{}');
    await t.page.until('document.querySelector(".notice") !== null');
    t.holds('answers want their program first', /Open the program first/.test(await notices(t)));
    await t.page.click('#trusted');
    t.equal('the focus is on what is trusted', await t.page.value('document.activeElement.textContent'), 'What is trusted');
    const trusted = (await t.page.text('#helpBox'))[0];
    t.equal('which is told by name', ['compiler', 'memory', 'addresses', 'worker', 'browser'].filter((it) => !trusted.includes(it)), []);
    await t.picture('1-trusted');
    await accessible(t, 'what is trusted');
    await t.page.press('Escape');
  },

  // As somebody goes about it who has read nothing: what stands out is pressed, and what is seen is judged by the story.
  async 'the first minute'(t) {
    await t.fresh();
    t.equal('one thing stands out', (await t.page.text('#middle button.main')).length, 1);
    t.equal('and it is seen without scrolling', await t.page.value('(() => { const it = document.querySelector("#middle button.main").getBoundingClientRect(); return it.top > 0 && it.bottom < innerHeight; })()'), true);
    await t.page.click('#middle button.main');
    await calm(t, 0);
    t.holds('the story says what should come', /add 70 to coins/.test((await t.page.text('.story'))[0]));
    t.holds('the first question says what to judge', /^Judge what this call did with what it got/.test((await t.page.text('#question .judge'))[0] ?? ''));
    t.holds('the tree says where the mistake is', /^change mistake in here 0$/.test((await seen(t, '#tree .row[data-call="0"]'))[0].replace(/^\W+/, '')));
    t.equal('and of a program that prints nothing no more is said', await seen(t, '#outputBox'), ['The program printed (nothing)']);
    t.equal('and the question what came', await seen(t, '#question .cells th, #question .cells td:nth-child(2)'), ['coins', '0 \u2192 52']);
    await t.picture('0-first-minute-question');
    await t.page.click(button('wrong'));
    await calm(t, 1);
    t.equal('which is said once', await t.page.text('#question .judge'), []);
    t.equal('50 is what fifty should add', await seen(t, '#question .cells td:nth-child(2)'), ['0 \u2192 50']);
    await t.page.click(button('right'));
    await calm(t, 2);
    t.equal('2 is not what twenty should add', await seen(t, '#question .cells td:nth-child(2)'), ['50 \u2192 52']);
    await t.page.click(button('wrong'));
    await calm(t, 3);
    t.holds('the body with the mistake', /The mistake is in the body of twenty/.test(await title(t)));
    t.equal('its line', await t.page.text('#verdict .trace code'), ['begin coins := coins + 2 end;']);
    t.holds('and what to do then', /mend the program, and run it again/.test((await t.page.text('#verdict'))[0]));
    await t.picture('0-first-minute-verdict');
    await t.page.value('(() => { const it = document.querySelector("#source"); it.value = it.value.replace("+ 2 ", "+ 20 "); it.dispatchEvent(new Event("input")); })()');
    await t.page.click('#run');
    await calm(t, 0);
    t.equal('mended, it adds 70', await seen(t, '#question .cells td:nth-child(2)'), ['0 \u2192 70']);
    await opened(t, 'sort');
    t.equal('what the program printed is seen', await seen(t, '#output pre'), ['10 30 40 20']);
    t.holds('and that it may be right', /nothing is wrong/.test((await t.page.text('#output'))[0]));
    await t.picture('0-first-minute-output');
    await opened(t, 'shop');
    t.holds('and where it broke off', /broke off at line \d+/.test((await t.page.text('#output .bad'))[0] ?? ''));
    await accessible(t, 'what was printed');
  },

  async 'a session from the first question to the verdict'(t) {
    await t.fresh();
    await t.page.click('#card button.example');
    await calm(t, 0);
    t.equal('the first question', await asked(t), 'seventy');
    t.holds('it says how many calls may be to blame', /3 calls/.test((await t.page.text('#left-text'))[0]));
    t.equal('the routine is marked', await t.page.value('[...document.querySelectorAll("#under .asked")].map((it) => it.textContent)'), ['procedure seventy;', 'begin fifty; twenty end;']);
    t.equal('what it changed', await seen(t, '#question .cells th, #question .cells td:nth-child(2)'), ['coins', '0 → 52']);
    await t.picture('2-question');
    await accessible(t, 'a question');
    await t.page.click(button('wrong'));
    await calm(t, 1);
    t.equal('the second question', await asked(t), 'fifty');
    await t.page.press('r');
    await calm(t, 2);
    t.equal('the third question', await asked(t), 'twenty');
    await t.page.press('w');
    await calm(t, 3);
    t.equal('the verdict', await verdict(t), 'twenty');
    t.holds('in words', /twenty/.test(await title(t)));
    t.equal('the line that its body ran', await t.page.value('[...document.querySelectorAll("#gutter .ran")].map((it) => it.innerText.replace(/\\s+/g, " "))'), ['×1 6']);
    t.equal('nothing is asked any more', await t.page.text('#answers button'), []);
    await t.picture('3-verdict');
    await accessible(t, 'a verdict');
    const raw = await t.page.value('document.querySelector("#raw").textContent');
    const native = await t.native({ source: t.example('change').source, console: 'wrong 1\nright 2\nwrong 3\nquit\n' });
    if (native !== null) t.holds('what was printed begins as the native program prints', raw.startsWith(native.screen.toString('latin1')));
  },

  async 'trust and doubt'(t) {
    await opened(t, 'change', ['wrong']);
    await t.page.press('t');
    await calm(t, 2);
    t.equal('fifty is trusted', await t.page.value('[...document.querySelectorAll("#tree .row")].filter((it) => it.querySelector(".trusted")).map((it) => it.dataset.call)'), ['2']);
    t.equal('and twenty is asked about', await asked(t), 'twenty');
    await t.page.click(button('unknown'));
    await calm(t, 3);
    t.equal('it is narrowed down', await verdict(t), 'seventy');
    t.equal('to the calls that could not be judged', await t.page.text('.doubts li'), ['twenty call 3']);
    await t.picture('4-narrowed');
    await accessible(t, 'a doubt');
    await t.page.click('.doubts button');
    await t.page.until('document.querySelector("#detail .trace") !== null');
    await t.page.click('#detail button.wrong');
    await calm(t, 4);
    t.equal('a doubt that is judged after all', await verdict(t), 'twenty');
  },

  async 'a press outlives a change of the page'(t) {
    await opened(t, 'change', ['wrong']);
    await choose(t, 2);
    const press = (kind) => t.page.value(`(() => {
      window.held ??= document.querySelector('#detail button.wrong');
      window.held.dispatchEvent(new PointerEvent('pointer${kind}', { bubbles: true }));
    })()`);
    await press('down');
    await t.page.value('document.querySelector("#tree").focus()');
    await t.page.press('Home');
    await t.page.press('Enter');
    await t.page.until('document.querySelector("#tree .row.chosen")?.dataset.call === "0"');
    t.equal('what is held down stays', await t.page.value('[window.held.isConnected, document.querySelector("#detail [data-call]").dataset.call]'), [true, '2']);
    await press('up');
    await t.page.until('document.querySelector("#detail [data-call]").dataset.call === "0"');
    t.equal('and goes when it is let go', await t.page.value('window.held.isConnected'), false);
  },

  async 'taking back'(t) {
    await opened(t, 'change', ['wrong', 'right', 'wrong']);
    await t.page.press('b');
    await calm(t, 4);
    t.equal('the last answer', await asked(t), 'twenty');
    // The third entry is that on fifty, after those on the program and on seventy.
    await t.page.click('.history li:nth-child(3) button.small');
    await calm(t, 5);
    t.equal('any answer', await asked(t), 'fifty');
    t.equal('the list says so', await t.page.value('[...document.querySelectorAll(".history li")].map((it) => it.className)'), ['', '', 'gone', 'gone']);
    await t.picture('5-taken-back');
  },

  async 'sessions are saved and loaded'(t) {
    await opened(t, 'change', ['wrong', 'right']);
    const saved = await t.download('#save');
    t.equal('its name', saved.name, 'change.session');
    t.equal('its answers', JSON.parse(saved.bytes).entries.map((it) => `${it.kind} ${it.call}`), ['wrong 0', 'wrong 1', 'right 2']);
    const native = await t.native({ source: t.example('change').source, console: 'wrong 1\nright 2\nsave page.session\nquit\n' });
    if (native !== null) t.equal('it is the file of the native program', saved.bytes, native.saved.toString());
    await t.fresh();
    await t.page.drop('#source', 'change.pas', t.example('change').source);
    await t.page.choose('#sessionFile', 'friday.session', saved.bytes);
    await calm(t, 0);
    t.equal('it goes on where it was', await asked(t), 'twenty');
    t.equal('the answers are listed', (await t.page.text('.history li')).length, 3);
    await t.page.choose('#sessionFile', 'odd.session', '{}');
    await t.page.until(`${isCalm} && document.querySelector('.notice.bad') !== null`);
    t.holds('what is no session is refused', /holds no saved answers/.test(await notices(t)));
    await ran(t, 'powers.pas', SQUARES);
    await t.page.choose('#sessionFile', 'friday.session', saved.bytes);
    await t.page.until(`${isCalm} && document.querySelector('.notice') !== null`);
    t.holds('of one of another program the answers alone are there', /another text of the program/.test(await notices(t)));
    t.equal('and no entry', (await t.page.text('.history li')).length, 1);
  },

  async 'notes, and answers for a corrected program'(t) {
    const put = (selector, text) => t.page.value(`(() => { const field = document.querySelector('${selector}'); field.value = ${JSON.stringify(text)}; field.dispatchEvent(new Event('input', { bubbles: true })); })()`);
    await opened(t, 'change', ['wrong', 'right']);
    await t.page.click('.history li:nth-child(3) .noting summary');
    await t.page.until('document.querySelector(".noting input") !== null');
    await put('.history li:nth-child(3) .noting input', 'by hand');
    await t.page.click('.history li:nth-child(3) .noting button');
    await t.page.until('document.querySelector(".history .noted") !== null');
    t.equal('the note stands on its answer', await t.page.text('.history .noted'), ['by hand']);
    const saved = await t.download('#save');
    t.equal('and is saved', JSON.parse(saved.bytes).entries.map((it) => it.note ?? ''), ['', '', 'by hand']);
    await put('#source', t.example('change').source.replace('coins + 2 ', 'coins + 21 '));
    await t.page.click('#run');
    await t.page.until(`${isCalm} && document.querySelectorAll(".history li").length === 1 && document.querySelector("#question") !== null`);
    t.holds('the corrected program begins anew', /another text of the program/.test(await notices(t)));
    t.equal('its first question is new', [await asked(t), await t.page.text('#same')], ['seventy', []]);
    await t.page.press('w');
    await t.page.until(`${isCalm} && document.querySelector("#same") !== null`);
    t.equal('the next one was answered before', await asked(t), 'fifty');
    await t.page.click('#same');
    await t.page.until(`${isCalm} && document.querySelectorAll(".history li").length === 3`);
    t.equal('and is answered so again', await asked(t), 'twenty');
    await t.picture('5-kept');
  },

  async 'a refused program'(t) {
    await t.fresh();
    await ran(t, 'bad.pas', BAD);
    const [, , sentence] = t.sentences.find(([refusal, condition]) => refusal === 'Rule 18' && condition === 'always');
    t.equal('the sentence is that of the table', (await t.page.text('.notice.bad strong'))[0], sentence.replace(/`/g, ''));
    t.equal('a caret under the place', await t.page.value('document.querySelector(".notice.bad pre").textContent'), '  x := true\n    ^');
    t.equal('the line has a mark in the margin', await t.page.value('[...document.querySelectorAll("#gutter em.bad")].map((it) => it.parentNode.dataset.line)'), ['4']);
    t.equal('nothing can be answered', await t.page.text('#answers button'), []);
    await t.picture('6-refused');
    await accessible(t, 'a refusal');
    await ran(t, 'good.pas', BAD.replace('true', '1'));
    t.equal('once it is put right it runs', (await t.page.text('.notice.bad')).length, 0);
  },

  async 'a call with a fault'(t) {
    await t.fresh();
    await ran(t, 'fault.pas', 'program fault;\nvar n: integer;\nprocedure half(var k: integer);\nbegin\n  k := k div n\nend;\nbegin\n  n := 0;\n  half(n)\nend.\n');
    t.equal('it is asked about', await asked(t), 'half');
    t.equal('the fault stands in the margin', await t.page.value('[...document.querySelectorAll("#gutter em.bad")].map((it) => it.parentNode.dataset.line)'), ['5']);
    t.holds('and in the card', /line 5/.test((await t.page.text('#question .end.bad'))[0] ?? ''));
    await t.picture('7-fault');
  },

  async 'a card is folded'(t) {
    await opened(t, 'best');
    // fill makes all three records, of which the card has each cell.
    const card = await t.page.value('document.querySelector("#question .raw pre")?.textContent ?? ""');
    t.equal('the raw card is not made before it is asked for', card, '');
    t.holds('records are rows', (await t.page.value('document.querySelectorAll("#question table.list tbody tr").length')) >= 3);
    t.holds('strings of chars are text', /Blaise/.test((await t.page.text('#question'))[0]));
    await t.page.click('#question details.raw summary');
    await t.page.until('document.querySelector("#question details.raw pre") !== null', 5);
    t.holds('the raw card is one click away', /^call \d+ \w+/.test((await t.page.text('#question details.raw pre'))[0]));
    await t.picture('8-folded');
    await accessible(t, 'a folded card');
  },

  async 'arrays whose bounds a call gives are folded'(t) {
    // The rows of a part of the card: a label and what stands beside it, where that is no list.
    const rows = (heading) => t.page.value(`[...document.querySelectorAll('#question .part')].filter((it) => it.querySelector('h3').textContent === '${heading}')
      .flatMap((it) => [...it.querySelectorAll('table.cells > tbody > tr')]).filter((row) => row.cells[0].tagName === 'TH').map((row) => [row.cells[0], ...(row.querySelector('table.list') === null ? [row.cells[1]] : [])]
        .map((cell) => cell.innerText.replace(/\\s+/g, ' ').trim()))`);
    await t.fresh();
    await ran(t, 'sizes.pas', OWN_SIZES);
    t.equal('the first question', await asked(t), 'put');
    t.equal('bounds stand before the array that is meant, and before the copy, which is a text', await rows('It was given'),
      [['lo', '3'], ['hi', '5'], ['v', 'stands for a'], ['x', '1'], ['y', '4'], ['t', '\u201cabcz\u201d']]);
    t.equal('what it changed is called by the name of the array', await rows('It changed'), [['a']]);
    t.equal('with its own numbers', await t.page.text('#question table.list thead th'), ['3', '5']);
    await t.picture('8-own-sizes');
    await accessible(t, 'a card with bounds');
    await t.page.click('#question button[data-look="a"]');
    await t.page.until('document.querySelector("#question .looked:not([hidden]) table") !== null', 20);
    t.equal('all of the array can be looked at', await seen(t, '#question .looked table.list thead th'), ['3', '4', '5']);
    await t.page.click(button('wrong'));
    await calm(t, 1);
    t.equal('the second question', await asked(t), 'letter');
    const [read, changed] = [await rows('It read'), await rows('It changed')];
    t.equal('the bounds of another call are read', read.map(([label]) => label.split(' ')[0]), ['lo', 'hi', 'v', 'x', 'y']);
    t.equal('its copy is a text in pieces, without the cell that leads to it', changed.filter(([label]) => label.startsWith('t[')).map(([label, value]) => [label.split(' ')[0], value]),
      [['t[1]', '\u201ca\u201d \u2192 \u201cz\u201d'], ['t[4]', '\u201cz\u201d']]);
    // What was read comes before what was only changed.
    t.equal('and nothing else of it', changed.map(([label]) => label.split(' ')[0]), ['t[1]', 't[4]', 'a[3]']);
    await accessible(t, 'a card with the copy of another call');
  },

  async 'a drawn list'(t) {
    await opened(t, 'list');
    for (let turn = 1; turn < 6 && (await t.page.value('document.querySelectorAll("figure.heap svg").length')) < 2; turn++) {
      await t.page.press('r');
      await calm(t, turn);
    }
    const drawn = await t.page.value(`[...document.querySelectorAll('figure.heap svg')].map((it) => ({
      boxes: it.querySelectorAll('.box').length, arrows: it.querySelectorAll('.arrow').length, said: it.getAttribute('aria-label') }))`);
    t.equal('before and after', drawn.length, 2);
    t.holds('with boxes', drawn.every((it) => it.boxes >= 1));
    t.holds('and arrows', drawn.some((it) => it.arrows >= 1));
    t.holds('and a text for those who do not see it', drawn.every((it) => it.said.length > 20));
    t.holds('what the numbers are', /number of the box/.test((await t.page.text('#question .legend')).join(' ')));
    await t.picture('9-list');
    await accessible(t, 'a drawn list');
    await opened(t, 'tree');
    await t.picture('9-tree');
  },

  async 'a variable is looked at'(t) {
    await t.fresh();
    await ran(t, 'bumping.pas', BUMP);
    t.equal('the row of a component', await seen(t, '#question .cells th'), ['a[2]']);
    await t.page.press('q');
    await tabTo(t, '#question button[data-look="a"]');
    t.equal('its button says what it does', await t.page.value('document.activeElement.getAttribute("aria-label")'), 'Look at a');
    await t.page.press('Enter');
    await t.page.until('document.querySelector("#question .looked:not([hidden]) table") !== null', 20);
    t.equal('all of the array, before and after', await seen(t, '#question .looked table.list tr'), ['1 2 3 4', 'before 1 2 3 4', 'after 1 3 3 4']);
    t.equal('and in words', await seen(t, '#question .looked p'), ['All of a, before the call \u2192 after it:']);
    t.equal('the focus stays', await t.page.value('[document.activeElement.dataset.look, document.activeElement.getAttribute("aria-expanded")]'), ['a', 'true']);
    await t.picture('9-look-array');
    await accessible(t, 'a look at an array');
    await t.page.press('Enter');
    t.equal('pressed again, it is put away', await seen(t, '#question .looked'), []);
    t.equal('a look is no answer', await t.page.value('document.body.dataset.turns'), '0');
  },

  async 'the same work twice'(t) {
    const offer = () => seen(t, '#question .compare');
    const compared = async (outcome) => {
      await t.page.until(`document.querySelector('#question .compare [data-outcome]')?.dataset.outcome === '${outcome}'`, 20);
      return seen(t, '#question .compare [role="status"]');
    };
    await t.fresh();
    await ran(t, 'share.pas', SHARE);
    t.equal('nothing is judged yet, and nothing offered', [await asked(t), await offer()], ['sum', []]);
    await t.page.press('r');
    await calm(t, 1);
    t.equal('call 2 is asked about', await t.page.value('document.querySelector("#question").dataset.call'), '2');
    t.equal('and call 1 offered', await offer(), ['Call 1 of sum was judged right. Did it do the same as this one? Compare']);
    await t.picture('9-compare-offer');
    await t.page.press('q');
    await tabTo(t, '#question .compare button.small');
    t.equal('its button says what it does', await t.page.value('document.activeElement.getAttribute("aria-label")'), 'Compare with call 1');
    await t.page.press('Enter');
    t.equal('it did the same', await compared('same'), ['Call 1 would have done exactly the same here, so the same answer holds: Right R']);
    t.equal('the focus stays', await t.page.value('document.activeElement.getAttribute("aria-label")'), 'Compare with call 1');
    t.equal('a comparison is no answer', await t.page.value('[document.body.dataset.turns, document.querySelector("#question").dataset.call]'), ['1', '2']);
    await t.picture('9-compare-same');
    await accessible(t, 'a comparison');
    await t.page.press('r');
    await calm(t, 2);
    t.equal('of two calls with the same card the later one', await offer(), ['Call 2 of sum was judged right. Did it do the same as this one? Compare']);
    await t.page.click('#question .compare button.small');
    t.equal('which met something else', await compared('different'), ['Something that call 2 met is different here, so judge this one by itself.']);
    await t.page.press('b');
    await calm(t, 3);
    t.equal('what was compared is still known', await compared('same'), ['Call 1 would have done exactly the same here, so the same answer holds: Right R']);
    const native = await t.native({ source: SHARE, console: 'carry 1 2\ncarry 2 3\nquit\n' });
    if (native !== null) t.holds('the native program says the same', /\ncall 1 carries to call 2\ncall 2 does not carry to call 3\n/.test(native.screen.toString('latin1')));
    await ran(t, 'halves.pas', HALVES);
    await choose(t, 1);
    await t.page.click('#detail button.right');
    await calm(t, 1);
    t.equal('no call of the routine is judged', [await asked(t), await offer()], ['halve', []]);
    await t.page.press('w');
    await calm(t, 2);
    t.equal('the same values, within another call', await offer(), ['Call 1 of half was judged right. Did it do the same as this one? Compare']);
    await t.page.click('#question .compare button.small');
    t.holds('nothing is promised', /^The two cards are alike, but .* judge this one by itself\.$/.test((await compared('alike'))[0]));
    await t.picture('9-compare-alike');
    await t.page.resize(PHONE);
    await t.picture('9-compare-phone');
    await accessible(t, 'a comparison on a phone');
    await t.page.resize(DESK);
  },

  async 'one answer for many calls'(t) {
    const offer = () => seen(t, '#question .alike p');
    const found = () => t.page.until('document.querySelector("#question .alike p") !== null', 20);
    const known = () => t.page.until('(document.querySelector("#question .alike")?.dataset.known ?? "") !== ""', 20);
    const box = () => t.page.value('(() => { const it = document.querySelector("#forAll"); return it.checkVisibility() ? [it.checked, it.labels[0].textContent.trim()] : null; })()');
    const signs = () => t.page.value('[...document.querySelectorAll("#tree .row .sign")].map((it) => it.textContent)');
    const answers = () => t.page.value('[...document.querySelectorAll(".history > li")].map((it) => it.className)');
    const BOTH = 'Another call was asked just the same: it was given and found the same, so it did the same. Your answer can be for both.';
    await t.fresh();
    await ran(t, 'z.pas', TWICE);
    await found();
    t.equal('the question says that another call was asked the same', [await asked(t), await offer()], ['a', [BOTH]]);
    t.equal('and offers one answer for both, which nobody gives unasked', await box(), [false, 'Also for the other call that was asked the same']);
    await t.picture('9-alike');
    await accessible(t, 'an offer for another call');
    await t.page.click('#question .alike summary');
    await t.page.until('document.querySelector("#question .alike li")?.checkVisibility()');
    t.equal('it names the call', await seen(t, '#question .alike li'), ['a call 2']);
    await t.page.click('#forAll');
    t.equal('each answer says for how many', await t.page.value('[...document.querySelectorAll("#answers [data-say]:not([hidden])")].map((it) => it.getAttribute("aria-label"))'),
      ['Right, for all 2 calls', 'Wrong, for all 2 calls', 'Don\u2019t know, for all 2 calls', 'Trust a']);
    t.equal('and what was opened stays open', await seen(t, '#question .alike li'), ['a call 2']);
    await t.picture('9-alike-ticked');
    await accessible(t, 'an answer for both');
    await t.page.click(button('right'));
    await calm(t, 1);
    t.equal('one press marks both', [await verdict(t), await signs()], ['z', ['\u2717', '\u2713', '\u2713']]);
    t.equal('which is said', await seen(t, '.notice'), ['Call 1 of a is right. Your answer is also for 1 other call that was asked the same. Take this back']);
    t.equal('and is one answer', (await seen(t, '.history > li')).map((it) => it.replace(/ ?add a note$/, '').replace(/ ?take back/, ' take back')),
      ['the program z is wrong, to begin with take back', 'a call 1 is right take back also for 1 other call that was asked the same']);
    await t.picture('9-alike-answered');
    await accessible(t, 'one answer for two calls');
    const saved = await t.download('#save');
    t.equal('all is saved', JSON.parse(saved.bytes).entries.map((it) => `${it.kind} ${it.call}`), ['wrong 0', 'right 1', 'right 2']);
    const native = await t.native({ source: TWICE, console: 'shared right 1\nsave page.session\nquit\n' });
    if (native !== null) t.equal('as the native program saves it', saved.bytes, native.saved.toString());
    await t.reload();
    await t.page.click('#notices button.main');
    await calm(t, 1);
    t.equal('after a reload as before', [await verdict(t), await signs(), await answers()], ['z', ['\u2717', '\u2713', '\u2713'], ['', '']]);
    await t.page.press('b');
    await calm(t, 2);
    await found();
    t.equal('taken back at once', [await asked(t), await signs(), await answers(), await box()], ['a', ['\u2717', '\u00b7', '\u00b7'], ['', 'gone'], [false, 'Also for the other call that was asked the same']]);
    await t.page.press('r');
    await calm(t, 3);
    await found();
    t.equal('without it an answer is for one', [await signs(), await offer()], [['\u2717', '\u2713', '\u00b7'], [`${BOTH} It was judged right before.`]]);
    await t.page.press('a');
    t.equal('a key ticks it', [await box(), await t.page.value('document.activeElement.id')], [[true, 'Also for the other call that was asked the same'], 'forAll']);
    await t.page.press('w');
    await calm(t, 4);
    t.equal('and the keys of answers are for both', [await signs(), await answers()], [['\u2717', '\u2717', '\u2717'], ['', 'gone', '', '']]);
    t.holds('they go on from the verdict', await t.page.value('document.activeElement.matches("#card h2")'));
    await t.page.click('.notice button.small');
    await calm(t, 6);
    t.equal('what was answered before stays where it is taken back', await signs(), ['\u2717', '\u2713', '\u00b7']);

    await ran(t, 'dots.pas', DOTS);
    await found();
    const asks = await t.page.value('Number(document.querySelector("#question").dataset.call)');
    t.equal('several other calls', [(await offer())[0].split(':')[0], await box()], ['4 other calls were asked just the same', [false, 'Also for the 4 other calls that were asked the same']]);
    await t.page.press('q');
    await tabTo(t, '#forAll');
    await t.page.press(' ');
    await t.page.press('d');
    await calm(t, 1);
    await known();
    t.equal('all five are left open, by keys alone', [await signs(), asks < 6], [['\u2717', '?', '?', '?', '?', '?', '\u00b7'], true]);
    await t.page.value('window.print = () => { window.printed = true; }');
    await t.page.click('#print');
    await t.page.until('window.printed === true');
    t.equal('on paper it is one answer', await t.page.value('[...document.querySelectorAll("#report .entry > h3")].map((it) => it.textContent)'),
      ['1. dots, call 0, is wrong', '2. dot, call 1, could not be judged (also for 4 other calls that were asked the same)']);
    t.equal('a call that is like no other has no offer', [await t.page.value('document.querySelector("#question").dataset.call'), await offer(), await box()], ['6', [], null]);
    await t.page.click('.history > li:nth-child(2) .noting summary');
    await t.page.until('document.querySelector(".history .shared li")?.checkVisibility()');
    t.equal('the others are listed', (await seen(t, '.history .shared li')).length, 4);
    await t.picture('9-alike-list');
    await accessible(t, 'a list of those asked the same');
    await t.page.click('.history .shared li:last-child button.small');
    await calm(t, 2);
    t.equal('one of them after all', (await signs()).filter((it) => it === '?').length, 4);
    await t.page.resize(PHONE);
    await t.page.click(button('back'));
    await calm(t, 3);
    await found();
    t.equal('the rest at once', (await signs()).filter((it) => it === '?').length, 0);
    await t.picture('9-alike-phone');
    await accessible(t, 'an offer on a phone');
    await t.page.resize(DESK);

    await ran(t, 'share.pas', SHARE);
    await found();
    await t.page.click('#forAll');
    await t.page.press('r');
    await calm(t, 1);
    await known();
    t.equal('of three calls two are answered for, and the third is asked about', [await signs(), await t.page.value('document.querySelector("#question").dataset.call'), await offer(), await box()],
      [['\u2717', '\u2713', '\u2713', '\u00b7'], '3', [], null]);
    await t.page.click('.notice button.small');
    await calm(t, 2);
    t.equal('which the notice takes back', [await signs(), await box()], [['\u2717', '\u00b7', '\u00b7', '\u00b7'], [false, 'Also for the other call that was asked the same']]);
  },

  async 'a right program'(t) {
    const ask = () => t.page.value('(() => { const it = document.querySelector("#answers [data-say=refer]"); return it.checkVisibility() ? it.getAttribute("aria-disabled") : null; })()');
    const name = () => t.page.value('document.querySelector("#rightName").textContent');
    const answers = () => seen(t, '.history > li');
    const opens = () => t.page.value('document.querySelector("#rightBox").open');
    const focused = () => t.page.value('document.activeElement.id || document.activeElement.dataset.say || document.activeElement.tagName');
    await t.fresh();
    t.equal('before a program runs there is none to choose', await t.page.value('document.querySelector("#rightBox").checkVisibility()'), false);
    await ran(t, 'pupil.pas', HAND_IN);
    t.equal('then it can be chosen, and is not asked before', [await asked(t), await opens(), await ask(), await name()], ['b', false, null, '']);
    await t.page.press('p');
    t.equal('a key goes there', [await opens(), await focused()], [true, 'openRight']);
    await t.picture('9-right-none');
    await accessible(t, 'no right program yet');

    await t.page.choose('#rightFile', 'wrong.pas', NO_PROGRAM);
    await t.page.until(`${isCalm} && document.querySelector(".notice.bad") !== null`);
    t.holds('what is no program is refused in words, with its place', /^This is no right program: wrong\.pas\. .*Line 4: ?begin x := true end; ?\^$/.test((await seen(t, '.notice.bad'))[0] ?? ''));
    t.equal('and does not answer', [await name(), await ask()], ['', null]);
    await t.picture('9-right-refused');
    await accessible(t, 'a right program that is refused');
    await t.page.choose('#rightFile', 'long.pas', ' '.repeat(1_048_577));
    await t.page.until(`${isCalm} && /too long/.test(document.querySelector("#notices").textContent)`);
    t.equal('nor one that is too long', [await name(), await t.page.value('document.body.dataset.turns')], ['', '0']);

    await t.page.choose('#rightFile', 'right.pas', RIGHT);
    await calm(t, 1);
    t.equal('a right one can be asked', [await name(), await ask(), await opens(), await seen(t, '.notice')],
      ['right.pas', 'false', false, ['right.pas can answer for you now: press \u201cAsk the right program\u201d below a question.']]);
    t.equal('the question is the same, and there is no answer yet', [await asked(t), (await answers()).length, await focused()], ['b', 1, 'SUMMARY']);
    await t.picture('9-right');
    await accessible(t, 'a right program');
    await t.page.click(button('refer'));
    await calm(t, 2);
    t.equal('it judges the call', await seen(t, '.notice'), ['Call 1 of b is wrong, says the right program. Take this back']);
    t.holds('which stands among the answers', /^b call 1 is wrong, says the right program ?take back/.test((await answers())[1]));
    t.equal('and the next question is there', await asked(t), 'a');
    const { bytes } = await t.download('#save');
    t.equal('its answer is saved like one of yours', JSON.parse(bytes).entries.map((it) => `${it.kind} ${it.call}`), ['wrong 0', 'wrong 1']);
    await t.page.click(button('refer'));
    await calm(t, 3);
    t.equal('it is asked once more', [await verdict(t), (await seen(t, '.notice'))[0]], ['a', 'Call 2 of a is wrong, says the right program. Take this back']);
    t.holds('the keys go on from the verdict', await t.page.value('document.activeElement.matches("#card h2")'));
    t.equal('which says who judged', (await seen(t, '#verdict .judged h3'))[0], 'Call 2, as the right program judged it');
    const raw = await t.page.value('document.querySelector("#raw").textContent');
    const native = await t.native({ source: HAND_IN, files: { 'right-1.pas': RIGHT }, console: 'reference right-1.pas\nrefer 1\nrefer 2\nsave page.session\nquit\n' });
    if (native !== null) t.holds('as the native program prints it', raw === native.screen.toString('latin1').replace(/saved .*\n$/, ''));
    await t.picture('9-right-verdict');
    await accessible(t, 'a verdict by a right program');

    await t.reload();
    t.holds('it is offered to go on, with the answers alone counted', /2 answers/.test(await notices(t)));
    await t.page.click('#notices button.main');
    await calm(t, 3);
    t.equal('after a reload as before', [await verdict(t), await name(), (await answers()).filter((it) => /says the right program/.test(it)).length], ['a', 'right.pas', 2]);
    await t.page.press('b');
    await calm(t, 4);
    await t.page.press('b');
    await calm(t, 5);
    t.equal('both are taken back', [await asked(t), await t.page.value('document.querySelectorAll(".history > li.gone").length')], ['b', 2]);
    await t.page.press('p');
    await calm(t, 6);
    t.equal('a key asks it, too', [await asked(t), (await seen(t, '.notice'))[0]], ['a', 'Call 1 of b is wrong, says the right program. Take this back']);
    await t.page.click('.notice button.small');
    await calm(t, 7);
    await t.page.value('document.querySelector("#tree").focus()');
    await choose(t, 4);
    await t.page.click('#detail .answerRow button:last-child');
    await t.page.until(`${isCalm} && /Judge it yourself/.test(document.querySelector("#notices").textContent)`);
    t.equal('where it has no such routine it says so, and nothing is answered', [await t.page.value('document.body.dataset.turns'), await asked(t)], ['7', 'b']);
    await t.picture('9-right-unfit');

    await ran(t, 'other.pas', HAND_IN.replace('x + 1', 'x + 2'));
    t.equal('it stays for the next program', [await asked(t), await name(), await ask(), (await answers()).length], ['b', 'right.pas', 'false', 1]);
    await t.page.press('q');
    await tabTo(t, '#answers [data-say="refer"]');
    await t.page.press('Enter');
    await calm(t, 2);
    t.equal('and judges that, by keys alone', [(await seen(t, '.notice'))[0], await asked(t)], ['Call 1 of b is right, says the right program. Take this back', 'list']);
    await tabTo(t, '#rightBox summary');
    await t.page.press('Enter');
    await tabTo(t, '#rightText');
    await t.page.value(`(() => { const field = document.querySelector('#rightText'); field.value = ${JSON.stringify(RIGHT.replace('x + 4', 'x + 5'))}; })()`);
    await tabTo(t, '#takeRight');
    await t.page.press('Enter');
    await calm(t, 3);
    t.equal('a text that is pasted takes its place', await name(), 'the text that you pasted');
    await choose(t, 1);
    await t.page.click('#detail .answerRow button:last-child');
    await calm(t, 4);
    t.equal('and says something else of the same call', [(await seen(t, '.notice'))[0], await asked(t)], ['Call 1 of b is wrong, says the right program. Take this back', 'a']);
    await t.page.value('window.print = () => { window.printed = true; }');
    await t.page.click('#print');
    await t.page.until('window.printed === true');
    t.equal('on paper it is said, too', await t.page.value('[...document.querySelectorAll("#report .entry > h3")].map((it) => it.textContent)'),
      ['1. p, call 0, is wrong', '2. b, call 1, is right, says the right program', '3. b, call 1, is wrong, says the right program']);
    await t.page.value('(() => { const field = document.querySelector("#source"); field.value += "{ }"; field.dispatchEvent(new Event("input", { bubbles: true })); })()');
    await t.page.until('document.querySelector("#openRight").getAttribute("aria-disabled") === "true"');
    await t.page.choose('#rightFile', 'right.pas', RIGHT);
    await t.page.until('/Run the program again first/.test(document.querySelector("#notices").textContent)');
    t.equal('beside a program that was edited it waits', [await name(), await ask()], ['the text that you pasted', 'true']);
    await t.page.click('.notice button:not(.small)');
    await t.page.until('document.querySelector("#openRight").getAttribute("aria-disabled") === "false"');
    await t.page.click('#rightBox summary');
    await t.page.click('#putAway');
    t.equal('it is put away', [await name(), await ask(), await focused()], ['', null, 'openRight']);
    await t.page.resize(PHONE);
    await t.picture('9-right-phone');
    await accessible(t, 'a right program on a phone');
    await t.page.resize(DESK);
  },

  async 'one wrong value'(t) {
    const wrongs = (within = '#question') => t.page.value(`[...document.querySelectorAll('${within} [data-wrong]')].filter((it) => it.checkVisibility()).map((it) => it.dataset.wrong)`);
    const sign = (call) => t.page.value(`(() => { const it = document.querySelector('#tree .row[data-call="${call}"] .sign'); return [it.textContent, it.title]; })()`);
    const answers = () => t.page.value('[...document.querySelectorAll(".history > li")].map((it) => it.className)');
    await t.fresh();
    await ran(t, 'parts.pas', PARTS);
    t.equal('each changed variable can be said to be wrong', [await asked(t), await wrongs()], ['m', ['x', 'y']]);
    t.holds('the first question says so', /press .wrong. beside it/.test((await t.page.text('#question .judge'))[0] ?? ''));
    await t.picture('9-wrong');
    await accessible(t, 'values that may be wrong');
    await t.page.click('#question [data-wrong="x"]');
    await calm(t, 1);
    t.equal('what had a part is asked about', [await asked(t), (await t.page.text('#left-text'))[0].split(' \u00b7 ')[0]], ['a', '2 calls may be to blame']);
    t.equal('it says how many calls were left out', await seen(t, '.notice'), ['Call 1 of m is wrong: x. 1 call below had no part in that, and is left out. Take this back']);
    t.equal('and the tree which', [await sign(3), await sign(4)], [['\u2013', 'left out: it had no part in what was wrong'], ['\u00b7', '']]);
    t.equal('the answers have one more', (await seen(t, '.history > li')).length, 2);
    t.holds('with what is wrong', /^m call 1 is wrong: x ?take back ?1 call left out/.test((await seen(t, '.history > li:nth-child(2)'))[0]));
    t.holds('the keys go on from the next question', await t.page.value('document.activeElement.matches("#card h2")'));
    await t.picture('9-wrong-left-out');
    await accessible(t, 'calls that were left out');
    const saved = await t.download('#save');
    t.equal('all is saved', JSON.parse(saved.bytes).entries.map((it) => `${it.kind} ${it.call}`), ['wrong 0', 'wrong 1', 'right 3']);
    const raw = await t.page.value('document.querySelector("#raw").textContent');
    const native = await t.native({ source: PARTS, console: 'slice 1 x\nsave page.session\nquit\n' });
    if (native !== null) t.equal('as the native program saves it', saved.bytes, native.saved.toString());
    if (native !== null) t.holds('and it prints the same', raw === native.screen.toString('latin1').replace(/saved .*\n$/, ''));
    await t.reload();
    await t.page.click('#notices button.main');
    await calm(t, 1);
    t.equal('after a reload as before', [await asked(t), await sign(3), (await seen(t, '.notice')).length], ['a', ['\u2013', 'left out: it had no part in what was wrong'], 1]);
    await t.page.press('b');
    await calm(t, 3);
    t.equal('taken back at once', [await asked(t), await sign(3), await answers(), await seen(t, '.notice')], ['m', ['\u00b7', ''], ['', 'gone'], []]);
    await t.page.press('q');
    await tabTo(t, '#question [data-wrong="y"]');
    t.equal('its button says what it does', await t.page.value('document.activeElement.getAttribute("aria-label")'), 'y is wrong');
    await t.picture('9-wrong-focus');
    await t.page.press('Enter');
    await calm(t, 4);
    t.equal('by keys', [await asked(t), (await sign(2))[0], (await sign(3))[0], (await sign(4))[0]], ['b', '\u2013', '\u00b7', '\u2013']);
    await t.page.click('.history > li:nth-child(3) .noting summary');
    await t.page.until('document.querySelector(".history .leftOut li")?.checkVisibility()');
    t.equal('the calls that were left out', await seen(t, '.leftOut li'), ['a call 2 ask about it', 'c call 4 ask about it']);
    await t.picture('9-wrong-list');
    await accessible(t, 'a list of those left out');
    await t.page.click('.leftOut button[aria-label="Ask about it after all: c, call 4"]');
    await calm(t, 5);
    t.equal('one of them after all', (await sign(4))[0], '\u00b7');
    await t.page.click('#question [data-wrong="y"]');
    await calm(t, 6);
    t.equal('of a call that made none nothing is left out', [await verdict(t), (await seen(t, '.notice'))[0].replace(' Take this back', '')],
      ['b', 'Call 3 of b is wrong: y. It made no other call, so there is nothing to leave out.']);
    t.equal('a verdict has nothing to be pressed', await wrongs('#verdict'), []);
    await t.page.click('.notice button.small');
    await calm(t, 7);
    t.equal('which the notice takes back, too', await asked(t), 'b');
  },

  async 'each kind of wrong value'(t) {
    await t.fresh();
    await t.page.drop('#source', 'wrongs.pas', WRONGS);
    await t.page.until(`document.querySelector('#source').value === ${JSON.stringify(WRONGS)}`);
    await t.page.value('(() => { const field = document.querySelector("#input"); field.value = "7"; field.dispatchEvent(new Event("input", { bubbles: true })); })()');
    await t.page.click('#run');
    await calm(t, 0);
    const shown = () => t.page.value('[...document.querySelectorAll("#question .part [data-wrong], #question .end [data-wrong]")].filter((it) => it.checkVisibility()).map((it) => it.dataset.wrong)');
    t.equal('the buttons', [await asked(t), await shown()], ['work', ['takes', 'a', 'n', 'first', 'the variables made by new', 'gives', 'way']]);
    await t.page.click('#question [data-wrong="a"]');
    t.equal('of several parts one is chosen', await seen(t, '#question .choices:not([hidden]) button'), ['a[1] = 1', 'a[2] = 2']);
    await t.page.click('#question [data-wrong="the variables made by new"]');
    t.equal('and of what was made', await seen(t, '#question .part > .choices:not([hidden]) button'), ['^1^.key = 7', '^1^.next = nil', 'what it made by new']);
    await t.picture('9-wrong-choices');
    await accessible(t, 'a choice of what is wrong');
    await t.page.resize(PHONE);
    await t.picture('9-wrong-phone');
    await accessible(t, 'a choice on a phone');
    await t.page.resize({ width: 320, height: 640 });
    await accessible(t, 'a choice in a narrow window');
    await t.page.resize(DESK);
    t.equal('each one says which value it is', await t.page.value('[...document.querySelectorAll("#question [data-wrong]")].filter((it) => !/ is wrong$|^Something is wrong in /.test(it.getAttribute("aria-label"))).length'), 0);
    let turns = 0;
    const asksOf = { takes: 'take', n: 'take', first: 'take', gives: 'take', way: 'take' };
    for (const [name, next] of Object.entries(asksOf)) {
      await t.page.click(`#question [data-wrong="${name}"]`);
      await calm(t, turns += 1);
      t.equal(`${name} is wrong`, [await asked(t), (await seen(t, '.notice')).length], [next, 1]);
      const left = await t.page.value('document.querySelectorAll("#tree .row .sign.leftOut").length');
      await t.page.press('b');
      await calm(t, turns += left + 1);
      t.equal(`${name} is taken back`, await asked(t), 'work');
    }
    await t.page.click('#question [data-wrong="a"]');
    await t.page.click('#question [data-wrong="a[2]"]');
    await calm(t, turns += 1);
    t.equal('a part of an array', await asked(t), 'fill');
    await opened(t, 'marks');
    await choose(t, 1);
    await t.page.until('document.querySelector("#detail [data-wrong=cleo]") !== null');
    await t.page.click('#detail [data-wrong="cleo"]');
    await calm(t, 1);
    t.equal('from a call of the tree', [await t.page.value('document.querySelector("#question").dataset.call'), (await t.page.value('document.querySelectorAll("#tree .row .sign.leftOut").length'))], ['11', 2]);
    await t.page.press('w');
    await calm(t, 2);
    await t.page.press('r');
    await calm(t, 3);
    t.equal('two questions are enough', await verdict(t), 'reward');
    await t.picture('9-wrong-verdict');
    // The body at fault is put right: of what was left out no answer is offered.
    await t.page.value('(() => { const it = document.querySelector("#source"); it.value = it.value.replace("total > 10", "total >= 10"); it.dispatchEvent(new Event("input")); })()');
    await t.page.click('#run');
    await t.page.until(`${isCalm} && document.querySelectorAll(".history > li").length === 1 && document.querySelector("#question") !== null`);
    t.equal('the program that was put right asks about the first pupil, whom nobody judged', [await asked(t), await t.page.text('#same')], ['pupil', []]);
  },

  // Its card is longer than the room that an answer gets at first.
  async 'a card of 60,000 lines'(t) {
    await t.fresh();
    await ran(t, 'filling.pas', FILLING);
    t.equal('it is asked about', await asked(t), 'fill');
    t.holds('and shows a part of it', /59,960 more parts/.test((await t.page.text('#question'))[0]));
    await t.page.click('#question [data-wrong="a"]');
    t.equal('a few of its values can be pressed', [await t.page.value('document.querySelectorAll(".choices .row button").length'), (await seen(t, '.choices label'))[0]], [60, 'or one of 59,940 more, by its name']);
    const name = (text) => t.page.value(`(() => { const it = document.querySelector('.choices input'); it.value = ${JSON.stringify(text)}; it.focus(); })()`);
    await name('a[60001]');
    await t.page.press('Enter');
    await t.page.until(`${isCalm} && document.querySelector('.notice') !== null`);
    t.holds('a name that nothing has is told', /changed no variable of this name/.test(await notices(t)));
    await name('a[59999]');
    await t.page.press('Enter');
    await calm(t, 1);
    t.equal('and each other one can be named', [await verdict(t), (await seen(t, '.history > li:nth-child(2)'))[0].includes('is wrong: a[59999]')], ['fill', true]);
    await t.page.press('b');
    await calm(t, 2);
    await t.page.press('r');
    await calm(t, 3);
    t.equal('an answer comes', await asked(t), 'show');
    await t.page.click('#question button[data-look="a"]');
    await t.page.until('document.querySelector("#question .looked:not([hidden]) table") !== null');
    t.equal('and a look at all of it', (await seen(t, '#question .looked table.list thead th')).slice(0, 3), ['1', '2', '3']);
  },

  async 'what a card hides'(t) {
    await opened(t, 'deletion', ['right', 'trust']);
    t.equal('the question', await t.page.value('[document.querySelector("#question").dataset.name, document.querySelector("#question").dataset.call]'), ['remove', '12']);
    t.equal('beside a parameter what it stands for, beside a variable itself',
      await t.page.value('[...document.querySelectorAll("#question button[data-look]")].map((it) => it.dataset.look)'), ['all', 'all']);
    await t.page.press('q');
    await tabTo(t, '#question button[data-look="all"]');
    await t.page.press(' ');
    await t.page.until('document.querySelector("#question .looked:not([hidden]) code") !== null', 20);
    t.equal('a variable that stayed', await seen(t, '#question .looked'), ['all held ^1 before the call and after it.']);
    await tabTo(t, 'g[data-look="^4"]');
    await t.picture('9-look-box-focus');
    await t.page.press('Enter');
    await t.page.until('document.querySelector("[data-seen=\\"^4\\"]") !== null', 20);
    t.equal('a box that the call saw in part', await seen(t, '[data-seen="^4"]'), ['All of ^4, before the call and after it: ^4^.key 30 ^4^.left ^10 ^4^.right ^13']);
    t.holds('the keys go on from the drawing', await t.page.value('document.activeElement.querySelector("svg") !== null'));
    await t.page.click('g[data-look="^13"]');
    await t.page.until('document.querySelector("[data-seen=\\"^13\\"]") !== null', 20);
    t.equal('and the one that it forgot', await seen(t, '[data-seen="^13"]'), ['All of ^13, before the call and after it: ^13^.key 40 ^13^.left nil ^13^.right nil']);
    t.holds('it is drawn, and told from what the call saw', (await t.page.value('[...document.querySelectorAll("figure.heap .lookedAt")].map((it) => it.firstChild.data)')).includes('40'));
    await t.page.click('#question .looking summary');
    const ask = async (name) => {
      await t.page.value(`(() => { const it = document.querySelector('#question form.look input'); it.value = ${JSON.stringify(name)}; it.focus(); })()`);
      await t.page.press('Enter');
      await t.page.until(`document.querySelector('#question .looking .seen')?.dataset.seen === ${JSON.stringify(name)}`, 20);
      return seen(t, '#question .looking .seen');
    };
    t.holds('a name that nothing has', /no variable of this name/.test((await ask('nobody'))[0]));
    t.equal('a name that is typed', await ask('^13^.key'), ['^13^.key held 40 before the call and after it.']);
    await t.picture('9-look-heap');
    await accessible(t, 'looks at a heap');
    await t.page.resize(PHONE);
    await t.page.value('document.querySelector("figure.heap").scrollIntoView()');
    await t.picture('9-look-phone');
    await accessible(t, 'looks on a phone');
    await t.page.resize(DESK);
    const native = await t.native({ source: t.example('deletion').source, console: 'state 12 ^4\nstate 12 ^13\nquit\n' });
    if (native !== null) {
      const cells = await t.page.value('[...document.querySelectorAll("#question .heap ~ *, #question [data-seen]")].map((it) => it.innerText).join("\\n")');
      const told = native.screen.toString('latin1').split('\n').filter((line) => /^ {2}\^(4|13)\^\.\w+ = \S+$/.test(line)).map((line) => line.trim().split(' = '));
      t.equal('the native program has as many cells', told.length, 6);
      t.equal('and the same values', told.filter(([name, value]) => !cells.replace(/\s+/g, ' ').includes(`${name} ${value}`)), []);
    }
    await t.page.press('Escape');
    await t.page.press('w');
    await calm(t, 3);
    t.equal('then the answer is wrong, and the next question is about the call below', await t.page.value('document.querySelector("#question").dataset.call'), '13');
  },

  async 'a long run and Stop'(t) {
    await t.fresh();
    await ran(t, 'long.pas', flat.source, flat.budget, 0);
    const beats = await t.page.value('(async () => { let n = 0; for (; n < 20 && document.body.classList.contains("busy"); n++) await new Promise((done) => setTimeout(done, 20)); return n; })()');
    t.holds('the page lives while it runs', beats > 5);
    t.equal('it can be stopped', await t.page.text('#stop'), ['Stop']);
    await t.page.click('#stop');
    await t.page.until(isCalm);
    t.holds('and says that it was', /Stopped/.test(await notices(t)));
    await ran(t, 'change.pas', t.example('change').source);
    t.equal('then it runs another', await asked(t), 'seventy');
    await t.page.press('w');
    await calm(t, 1);
    t.equal('and answers', await asked(t), 'fifty');
  },

  async 'nothing is lost by a reload'(t) {
    await opened(t, 'change', ['wrong', 'right']);
    const printed = () => t.page.value('document.querySelector("#raw").textContent');
    const before = await printed();
    await t.reload();
    t.holds('the answers are offered', /change\.pas/.test(await notices(t)));
    await t.picture('10-offer');
    await accessible(t, 'the offer');
    await t.page.click('#notices button.main');
    await calm(t, 2);
    t.equal('and it goes on', await asked(t), 'twenty');
    t.equal('with what was printed in an instance that had served before', await printed(), before);
    await t.page.press('w');
    await calm(t, 3);
    t.equal('to the verdict', await verdict(t), 'twenty');
    await t.page.value('document.querySelector("#source").value += " "; document.querySelector("#source").dispatchEvent(new Event("input"))');
    t.holds('an edited program is told of', /Run it again/.test(await notices(t)));
    await t.page.press('r');
    t.equal('and no answer about another text is taken', await t.page.value('document.body.dataset.turns'), '3');
  },

  async 'keys alone'(t) {
    await t.fresh();
    const focused = () => t.page.value('(document.activeElement.id || document.activeElement.className || document.activeElement.localName)');
    const seen = [];
    for (let i = 0; i < 40 && !/\bexample\b/.test(await focused()); i++) {
      await t.page.press('Tab');
      seen.push(await focused());
    }
    t.holds('Tab comes to the examples', /\bexample\b/.test(seen.at(-1)));
    t.holds('and leaves nothing out on its way', ['examples', 'open', 'budget', 'run'].every((it) => seen.includes(it)));
    t.holds('where the focus is can be seen', await t.page.value(`(() => {
      const it = getComputedStyle(document.activeElement);
      return it.outlineStyle !== 'none' && parseFloat(it.outlineWidth) >= 2;
    })()`));
    await t.page.press('Enter');
    await calm(t, 0);
    for (const [key, turns] of [['w', 1], ['r', 2]]) {
      await t.page.press(key);
      await calm(t, turns);
    }
    await t.page.press('c');
    for (const key of ['Home', 'ArrowDown', 'ArrowDown', 'Enter']) await t.page.press(key);
    await t.page.until('document.querySelector("#detail .trace") !== null');
    t.equal('a call is opened from the tree', await t.page.value('document.querySelector("#tree [aria-selected=true]").dataset.call'), '2');
    await t.page.press('q');
    await t.page.press('w');
    await calm(t, 3);
    t.equal('the verdict', await verdict(t), 'twenty');
    await t.page.press('/');
    t.equal('a slash searches', await focused(), 'query');
    await t.page.press('f');
    await t.page.press('i');
    await t.page.until('document.querySelector("#foundCount").textContent.startsWith("1 call")');
    await t.page.press('Escape');
    await t.page.press('?');
    t.equal('help opens', await t.page.value('document.querySelector("#helpBox").open'), true);
    await accessible(t, 'help');
    await t.picture('11-help');
    await t.page.press('Escape');
    t.equal('and closes', await t.page.value('document.querySelector("#helpBox").open'), false);
    await t.page.press('s');
    t.equal('s goes to the program', await focused(), 'source');
    await t.page.press('Escape');
    t.holds('and Escape leaves it', (await focused()) !== 'source');
  },

  async 'the tree'(t) {
    await t.fresh();
    await ran(t, 'powers.pas', SQUARES);
    t.equal('all calls', await t.page.value('document.querySelectorAll("#tree .row").length'), 9);
    await t.page.click('#foldUp');
    t.holds('folded', (await t.page.value('document.querySelectorAll("#tree .row").length')) < 9);
    await t.page.click('#unfold');
    t.equal('unfolded', await t.page.value('document.querySelectorAll("#tree .row").length'), 9);
    const found = async (query) => {
      await t.page.value(`(() => { const it = document.querySelector('#query'); it.value = ${JSON.stringify(query)}; it.dispatchEvent(new Event('input')); })()`);
      await t.page.value('new Promise((done) => setTimeout(done, 400))');
      // On a slow machine values and output are searched once that is asked for.
      if ((await t.page.text('#foundCount button')).length > 0) {
        await t.page.click('#foundCount button');
        await t.page.until('document.querySelector("#foundCount button") === null');
      }
      return (await t.page.value('[...document.querySelectorAll("#tree .row")].map((it) => Number(it.dataset.call))')).sort((a, b) => a - b);
    };
    t.equal('found by name', await found('square'), [2, 4, 6, 8]);
    t.equal('found by what it was given', await found('(3'), [5, 6]);
    t.equal('found by what it printed', await found('4 17'), [7]);
    t.equal('found by line', await found('line 6'), [1, 3, 5, 7]);
    await found('');
    await choose(t, 6);
    t.equal('the lines of its body', await t.page.text('#detail .trace li code'), ['begin square := n * n + n div 3 end;']);
    await t.picture('12-tree');
    await accessible(t, 'a chosen call');
    // So it comes where the row was made anew between press and release.
    await t.page.value(`(() => {
      const row = document.querySelector('#tree .row[data-call="4"]'), { left, top } = row.getBoundingClientRect();
      row.parentElement.dispatchEvent(new MouseEvent('click', { bubbles: true, clientX: left + 80, clientY: top + 8 }));
    })()`);
    await t.page.until('document.querySelector("#detail article")?.dataset.call === "4"');
    await t.page.click('#detail button.wrong');
    await calm(t, 1);
    t.equal('an answer from the tree', await verdict(t), 'square');
  },

  async '500,000 calls'(t) {
    await t.fresh();
    await t.page.value(`(() => {
      window.longest = 0;
      let last = performance.now();
      setInterval(() => { const now = performance.now(); window.longest = Math.max(window.longest, now - last); last = now; }, 10);
    })()`);
    await ran(t, 'calls.pas', largest.source, largest.budget, 240);
    t.equal('all are there', (await t.page.text('#callCount'))[0], '500,000');
    t.holds('only what is seen is made', (await t.page.value('document.querySelectorAll("#tree .row").length')) < 150);
    await t.page.value('document.querySelector("#tree").scrollTop = document.querySelector("#tree").scrollHeight');
    await t.page.until('document.querySelector("#tree .row[data-call=\\"499999\\"]") !== null', 10);
    await t.page.value('document.querySelector("#tree").scrollTop /= 2');
    await t.page.until('[...document.querySelectorAll("#tree .row")].some((it) => Math.abs(Number(it.dataset.call) - 250000) < 100)', 10);
    // Where a turn takes long, calls that were asked the same are looked for once that is asked for.
    if (await t.page.value('document.querySelector("#question .alike button") !== null')) await t.page.click('#question .alike button');
    await t.page.until('document.querySelector("#question .alike p") !== null', 240);
    t.equal('too many calls were asked the same', [(await seen(t, '#question .alike p'))[0].replace(/:.*so they did the same/, ''), await t.page.value('document.querySelector("#forAll").checkVisibility()')],
      ['499,998 other calls were asked just the same. But there is no room for so many answers.', false]);
    await t.page.press('r');
    await calm(t, 1, 240);
    t.holds('an answer comes', (await t.page.value('document.querySelectorAll("#tree .row").length')) > 0);
    const longest = await t.page.value('window.longest');
    t.note(`the page stood still for at most ${Math.round(longest)} ms; ${await t.page.value('document.querySelector("#cost").textContent')}`);
    t.holds('the page did not freeze', longest < t.patience);
    await t.picture('13-many');
  },

  async 'windows of each size'(t) {
    await opened(t, 'list', ['right']);
    for (const [name, size] of [['phone', PHONE], ['narrow', { width: 320, height: 640 }], ['zoom', { width: 700, height: 450, scale: 2 }]]) {
      await t.page.resize(size);
      for (const pane of ['source', 'question', 'calls']) {
        const tab = `.tabs [data-pane=${pane}]`;
        if (await t.page.value(`document.querySelector('${tab}').checkVisibility()`)) await t.page.click(tab);
        t.holds(`${name}, ${pane}: nothing is wider than the window`, (await t.page.value('document.documentElement.scrollWidth - innerWidth')) <= 0);
        await t.picture(`14-${name}-${pane}`);
      }
      await accessible(t, name);
    }
    await t.page.resize(DESK);
  },

  async 'on paper'(t) {
    await opened(t, 'change', ['wrong', 'right', 'wrong']);
    await t.page.value('window.print = () => { window.printed = true; }');
    await t.page.click('#print');
    await t.page.until('window.printed === true');
    const report = await t.page.value('document.querySelector("#report").textContent');
    t.holds('it has the verdict', /The mistake is in the body of twenty/.test(report));
    t.holds('each answer', ['seventy', 'fifty', 'twenty'].every((it) => report.includes(it)));
    t.holds('and the program', report.includes('coins := coins + 2'));
    if (t.canPrint) {
      await t.page.resize({ width: 800, height: 1100, isPrinted: true });
      t.holds('the report alone is printed', await t.page.value('document.querySelector("#report").checkVisibility() && !document.querySelector("main").checkVisibility()'));
      await t.picture('15-paper');
      await t.page.resize(DESK);
    }
  },

  async 'each example'(t) {
    for (const { name } of t.built.examples) {
      await opened(t, name);
      t.holds(`${name} asks`, (await asked(t)) !== '');
      const told = await t.page.text('.story');
      t.holds(`${name} has its story`, (told[0] ?? '').length > 20);
      for (let turn = 1; turn < 40 && (await asked(t)) !== ''; turn++) {
        await t.page.press('w');
        await calm(t, turn);
      }
      t.holds(`${name} comes to a verdict`, (await verdict(t)) !== '');
    }
  },

  async 'in the dark'(t) {
    if (!(await t.darken())) return;
    await opened(t, 'list');
    await t.picture('16-dark');
    await accessible(t, 'dark, a question');
    await opened(t, 'deletion', ['right', 'trust']);
    await t.page.click('#question button[data-look="all"]');
    await t.page.click('g[data-look="^4"]');
    await t.page.until('document.querySelectorAll("#question .seen, #question .looked:not([hidden])").length === 2', 20);
    await t.picture('16-dark-look');
    await accessible(t, 'dark, looks');
    await opened(t, 'marks');
    await t.page.click('#question [data-wrong="ann"]');
    await calm(t, 1);
    await t.picture('16-dark-wrong');
    await accessible(t, 'dark, a wrong value');
    await opened(t, 'change', ['wrong', 'right', 'wrong']);
    await t.picture('16-dark-verdict');
    await accessible(t, 'dark, a verdict');
    await ran(t, 'bad.pas', BAD);
    await t.picture('16-dark-refused');
    await accessible(t, 'dark, a refusal');
  },

  async 'from a web server'(t) {
    await t.fresh('#example=change', t.served);
    await calm(t, 0);
    t.equal('it asks', await asked(t), 'seventy');
  },
};
