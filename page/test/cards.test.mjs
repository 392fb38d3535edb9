// Cards are read line by line, and folded for the eye.
import assert from 'node:assert/strict';
import { test } from 'node:test';
import { bytesOfQuoted, cardOf, stateOf } from '../card.js';
import { cellsOf, cellsSeen, foldCard, rowsOfCells, variablesOf } from '../fold_card.js';
import { heapOf } from '../heap.js';
import { charOf, nameAt } from '../names.js';
import { replySaid, stateSaid } from '../words.js';

const names = (cells) => cells.map((cell) => cell.name);

test('each kind of line', () => {
  const card = cardOf(`call 7 sort in call 2
  n = 5
  x = at a[1]
  reads total = ?
  finds ^1^
  misses ^3^.next
  changes a[2] = -3
  changes ^1^.next gone
  looks "12\\n" end
  takes "12"
  gives "4\\n"
  result 2
  faulted ZeroDivisor line 12
`);
  assert.deepEqual([card.call, card.name, card.parent], [7, 'sort', 2]);
  assert.deepEqual(card.given.map(({ name, value }) => [name, value]), [['n', '5'], ['x', 'at a[1]']]);
  assert.deepEqual(card.met.map(({ name, value, how }) => [name, value, how]), [['total', '?', 'read'], ['^1^', null, 'there'], ['^3^.next', null, 'absent']]);
  assert.deepEqual(card.left.map(({ name, value, gone }) => [name, value, gone]), [['a[2]', '-3', false], ['^1^.next', null, true]]);
  assert.deepEqual([card.looks, card.takes, card.gives, card.sawEnd], ['"12\\n"', '"12"', '"4\\n"', true]);
  assert.deepEqual([card.result, card.end, card.odd], ['2', 'faulted ZeroDivisor line 12', []]);
});

test('parameters that are called like the words of a card', () => {
  const card = cardOf('call 1 p in call 0\n  reads = 1\n  changes = 2\n  result = 3\n  gives = 4\n  looks[1] = 5\n  reads reads = 6\n  returned\n');
  assert.deepEqual(card.given.map(({ name, value }) => [name, value]), [['reads', '1'], ['changes', '2'], ['result', '3'], ['gives', '4'], ['looks[1]', '5']]);
  assert.deepEqual(names(card.met), ['reads']);
  assert.equal(card.result, null);
});

test('names with odd indices', () => {
  const card = cardOf("call 1 p in call 0\n  reads a[']'] = '='\n  reads a[' '] = ' '\n  reads a[''''] = '''' \n  changes b[chr(7)].f = red\n  returned\n");
  assert.deepEqual(names(card.met), ["a[']']", "a[' ']", "a['''']"]);
  assert.deepEqual(card.met[0].selectors, ["[']']"]);
  assert.deepEqual(card.left[0].selectors, ['[chr(7)]', '.f']);
  assert.deepEqual(nameAt('sort#4.a[3].f = 1').selectors, ['[3]', '.f']);
  assert.equal(nameAt('sort#4.a').root, 'sort#4.a');
  assert.equal(nameAt('^2^.next').root, '^2^');
  assert.equal(nameAt('= 3'), null);
});

test('a cell and a frame told by their addresses', () => {
  const card = cardOf('call 1 p in call 0\n  reads cell 37 = 5\n  reads cell = 6\n  jumped to 9 of frame 40\n');
  assert.deepEqual([names(card.met), card.odd, card.end], [['cell'], ['reads cell 37 = 5'], 'jumped to 9 of frame 40']);
});

test('what is no line of a card is kept', () => {
  const card = cardOf('call 1 p in call 0\n  wonders x\nno indent\n  returned\n');
  assert.deepEqual(card.odd, ['wonders x', 'no indent']);
  assert.equal(card.end, 'returned');
  assert.deepEqual(cardOf('').odd, []);
  assert.deepEqual(cardOf('nonsense').odd, ['nonsense']);
});

test('quoted texts as bytes', () => {
  assert.deepEqual([...bytesOfQuoted('"a\\n\\"\\\\\\xc3\\xa9"')], [97, 10, 34, 92, 0xc3, 0xa9]);
  assert.equal(charOf("''''"), "'");
  assert.equal(charOf("'x'"), 'x');
  assert.equal(charOf('chr(10)'), '\n');
  assert.equal(charOf('17'), null);
});

test('lines of a state', () => {
  const both = (line) => { const cell = stateOf(line); return cell === null ? null : [cell.name, cell.before, cell.after]; };
  assert.deepEqual(both('  x = 1'), ['x', '1', '1']);
  assert.deepEqual(both('  a[2] = 1, then 2'), ['a[2]', '1', '2']);
  assert.deepEqual(both('  ^1^.key = 4, then gone'), ['^1^.key', '4', null]);
  assert.deepEqual(both('  ^1^.key = 4, made here'), ['^1^.key', null, '4']);
  assert.deepEqual(both("  s = ['a', 'b'], then ['a']"), ['s', "['a', 'b']", "['a']"]);
  assert.equal(both('no cell x at call 3'), null);
});

const card = (...lines) => cardOf(`call 1 p in call 0\n${lines.map((line) => `  ${line}\n`).join('')}  returned\n`);

test('what differs, what was written again, what was only read', () => {
  const folded = foldCard(card('reads x = 1', 'reads y = 2', 'reads z = 3', 'changes x = 5', 'changes y = 2', 'changes w = 0'));
  assert.deepEqual(folded.changed.map((row) => [row.label, row.before, row.after]), [['x', '1', '5'], ['w', null, '0']]);
  assert.deepEqual(folded.rewritten.map((row) => row.label), ['y']);
  assert.deepEqual(folded.read.map((row) => [row.label, row.before]), [['z', '3']]);
});

test('an array is one list, in the order of its indices, with what was only read beside what changed', () => {
  const [row] = foldCard(card('reads a[1] = 30', 'reads a[2] = 10', 'changes a[2] = 30', 'changes a[10] = 1', 'reads a[3] = 4')).changed;
  assert.equal(row.shape, 'list');
  assert.deepEqual(row.heads, ['1', '2', '3', '10']);
  assert.deepEqual(row.cells.map((cell) => [cell.before, cell.after]), [['30', '30'], ['10', '30'], ['4', '4'], [null, '1']]);
});

test('chars are a text, also within records, and records of an array a table', () => {
  const lines = ['A', 'd', 'a'].map((letter, at) => `changes all[1].called[${at + 1}] = '${letter}'`);
  const folded = foldCard(card(...lines, 'changes all[1].mark = 17', 'changes all[2].mark = 9', "changes word[1] = 'h'", "changes word[2] = 'i'", "changes word[4] = '!'"));
  const [table, first, last] = folded.changed;
  assert.equal(table.shape, 'table');
  assert.deepEqual(table.heads, ['called', 'mark']);
  assert.deepEqual(table.lines.map((line) => line.parts.map((part) => part && part.after)), [['Ada', '17'], [null, '9']]);
  assert.deepEqual([first.label, first.after, last.label, last.after], ['word[1..2]', 'hi', 'word[4]', '!']);
});

test('a long array shows what differs, and says how much is left out', () => {
  const lines = Array.from({ length: 500 }, (_, at) => `reads a[${at}] = ${at}`);
  const [row] = foldCard(card(...lines, 'changes a[7] = 0', 'changes a[400] = 1')).changed;
  assert.deepEqual(row.heads, ['7', '400']);
  assert.equal(row.leftOut, 498);
});

test('the variable that can be looked at beside each row', () => {
  const folded = foldCard(card('n = 5', 'v = at sort#4.a[2]', 'p = ^3', 'w[1] = 7', 'w[2] = 8', 'reads x = 1', 'reads r.f = 2', 'reads a[1].g[2] = 3',
    "reads t[1] = 'a'", "reads t[2] = 'b'", "reads t[4] = 'd'", 'reads ^4^ = 9', 'changes b[1] = 1', 'changes b[2] = 2'));
  const asked = (rows) => rows.map((row) => [row.label, row.name]);
  assert.deepEqual(asked(folded.given), [['n', null], ['v', 'sort#4.a[2]'], ['p', '^3'], ['w', null]]);
  assert.deepEqual(asked(folded.read), [['x', 'x'], ['r.f', 'r'], ['a[1].g[2]', 'a[1].g'], ['t[1..2]', 't'], ['t[4]', 't']]);
  assert.deepEqual(asked(folded.changed), [['b', 'b']]);
  assert.deepEqual(asked(folded.heapRead), [['^4^', '^4^']]);
});

test('what a look tells, in words and as rows', () => {
  const seen = (...lines) => lines.map((line) => stateOf(`  ${line}`));
  const said = (line) => stateSaid(seen(line)[0]);
  assert.equal(said('x = 1'), 'held 1 before the call and after it.');
  assert.equal(said('x = ?, then 7'), 'held no value before the call and 7 after it.');
  assert.equal(said('^3^ = 7, made here'), 'was not there before the call, and held 7 after it.');
  assert.equal(said('^3^ = 7, then gone'), 'held 7 before the call, and was gone after it.');
  assert.match(replySaid('no cell q at call 3'), /no variable of this name/);
  const [row] = rowsOfCells(cellsSeen(seen('a[1] = 1', 'a[2] = 2, then 5', 'a[3] = 3')));
  assert.deepEqual([row.shape, row.label, row.heads, row.cells.map((cell) => cell.isSet)], ['list', 'a', ['1', '2', '3'], [false, true, false]]);
});

test('an array of a size of its own: bounds, and the variable that it stands for or the cells of its copy', () => {
  const given = (...lines) => foldCard(card(...lines)).given.map((row) => [row.shape, row.label, row.heads ?? row.after, row.name]);
  assert.deepEqual(given('lo = 3', 'hi = 5', 'v = at a'), [['value', 'lo', '3', null], ['value', 'hi', '5', null], ['value', 'v', 'at a', 'a']]);
  assert.deepEqual(given('lo = 3', 'hi = 5', 'v[3] = 1', 'v[4] = 2', 'v[5] = 4', 'n = 7'),
    [['value', 'lo', '3', null], ['value', 'hi', '5', null], ['list', 'v', ['3', '4', '5'], null], ['value', 'n', '7', null]]);
  assert.deepEqual(given('x = 1', 'y = 3', "t[1] = 'x'", "t[2] = 'y'", "t[3] = 'z'"),
    [['value', 'x', '1', null], ['value', 'y', '3', null], ['text', 't', 'xyz', null]]);
  assert.deepEqual(given('c = red', 'd = blue', 'm[red] = 1', 'm[blue] = ?'),
    [['value', 'c', 'red', null], ['value', 'd', 'blue', null], ['list', 'm', ['red', 'blue'], null]]);
});

test('the copy of another call is one list, with no word of the cell that leads to it', () => {
  const folded = foldCard(card('reads p#2.lo = 1', 'reads p#2.v = at p#2.v', 'reads p#2.v[1] = 5', 'reads p#2.v[2] = 6', 'changes p#2.v[2] = 7',
    'reads p#2.w = at a[2]', 'w = at p#2.v'));
  const rows = (list) => list.map((row) => [row.shape, row.label, row.heads ?? row.after]);
  assert.deepEqual(rows(folded.changed), [['list', 'p#2.v', ['1', '2']]]);
  assert.deepEqual(rows(folded.read), [['value', 'p#2.lo', '1'], ['value', 'p#2.w', 'at a[2]']]);
  assert.deepEqual(rows(folded.given), [['value', 'w', 'at p#2.v']]);
});

test('a constant of a program may be called gone', () => {
  const folded = foldCard(card('reads s = there', 'changes s = gone', 'changes ^1^ gone'));
  assert.deepEqual(folded.changed.map((row) => [row.before, row.after]), [['there', 'gone']]);
  assert.notEqual(folded.heapChanged[0].after, 'gone');
});

test('every cell is in some row', () => {
  const text = card("reads r.a = 1", "reads r.b[1] = 'x'", 'reads r.b[2] = ?', 'changes m[1][2] = 3', 'changes m[2][1] = 4', 'changes p.case = 2', 'changes p = 1');
  const cells = cellsOf(text);
  const folded = foldCard(text);
  const rows = [...folded.given, ...folded.changed, ...folded.rewritten, ...folded.read].flatMap((row) => row.cells.map((cell) => cell.name));
  assert.deepEqual([...rows].sort(), names(cells).sort());
  assert.deepEqual(variablesOf(cells).map((node) => node.selector), ['r', 'm', 'p']);
});

const LINK = [{ fields: ['value', 'next'], fixed: ['value', 'next'] }];

test('the heap before and after', () => {
  const reverse = card('reads first = ^5', 'reads ^1^.next = nil', 'reads ^3^.next = ^1', 'reads ^5^.next = ^3', 'changes first = ^3', 'changes ^3^.next = ^5', 'changes ^5^.next = nil');
  const heap = heapOf(cellsOf(reverse), reverse.given, reverse.result, LINK);
  const arrows = (side) => [...side.boxes.values()].flatMap((box) => box.fields.filter((field) => field.target !== null).map((field) => [box.number, field.target]));
  assert.deepEqual(arrows(heap.before).sort(), [[3, 1], [5, 3]]);
  assert.deepEqual(arrows(heap.after).sort(), [[3, 5]]);
  assert.deepEqual(heap.before.roots.map((root) => [root.label, root.target]), [['first', 5]]);
  assert.deepEqual(heap.after.roots.map((root) => [root.label, root.target, root.isChanged]), [['first', 3, true]]);
  const box = heap.after.boxes.get(3);
  assert.deepEqual(box.fields.map((field) => [field.name, field.value, field.isChanged]), [['value', null, false], ['next', '^5', true]]);
});

test('boxes that are new, gone, or only pointed at', () => {
  const push = card('reads first = ^1', 'changes first = ^3', 'changes ^3^.value = 2', 'changes ^3^.next = ^1');
  const heap = heapOf(cellsOf(push), push.given, push.result, LINK);
  assert.deepEqual([...heap.before.boxes.keys()], [1]);
  assert.deepEqual(heap.before.boxes.get(1).fields, []);
  assert.equal(heap.after.boxes.get(3).isNew, true);
  const drop = card('reads first = ^1', 'reads ^1^.next = nil', 'changes first = nil', 'changes ^1^.value gone', 'changes ^1^.next gone');
  const dropped = heapOf(cellsOf(drop), drop.given, drop.result, LINK);
  assert.equal(dropped.after.boxes.get(1).isGone, true);
  assert.equal(dropped.before.boxes.get(1).isGone, false);
  assert.equal(heapOf(cellsOf(card('reads x = 1')), [], null, []), null);
});

test('each box has a place of its own, in rings too', () => {
  const ring = card('p = ^1', 'reads ^1^.next = ^3', 'reads ^3^.next = ^5', 'reads ^5^.next = ^1', 'reads ^5^.other = ^3');
  for (const side of Object.values(heapOf(cellsOf(ring), ring.given, ring.result, []))) {
    const places = [...side.spots.values()].map(({ column, row }) => `${column} ${row}`);
    assert.equal(new Set(places).size, 3);
  }
});

test('what was looked at besides', () => {
  const text = card('reads ^1^.next = nil');
  const heap = heapOf(cellsOf(text, [stateOf('  ^1^.value = 4, then 5')]), [], null, LINK);
  const value = (side) => side.boxes.get(1).fields.find((field) => field.name === 'value').value;
  assert.deepEqual([value(heap.before), value(heap.after)], ['4', '5']);
});
