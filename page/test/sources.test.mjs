// Sources: their bytes, their routines and records, and where a byte stands.
import assert from 'node:assert/strict';
import { readdirSync, readFileSync } from 'node:fs';
import { test } from 'node:test';
import { base64OfBytes, bytesOfBase64, editedFile, fileOfBytes, fileOfText, latinBytes, placeOfByte, utf8Bytes } from '../bytes.js';
import { outlineOf, routineAt, tokensOf } from '../pascal.js';

test('a file that is not edited goes back byte by byte', () => {
  for (const bytes of [utf8Bytes('a\r\nb\r\n'), latinBytes('{ \xe9 }\n'), utf8Bytes('mixed\r\nends\n'), utf8Bytes('\ufeffmark'), new Uint8Array()]) {
    const file = fileOfBytes(bytes);
    assert.deepEqual(editedFile(file, file.text).bytes, bytes);
  }
});

test('an edit keeps line ends and coding', () => {
  const crlf = fileOfBytes(utf8Bytes('a\r\nb\r\n'));
  assert.equal(crlf.text, 'a\nb\n');
  assert.deepEqual(editedFile(crlf, 'a\nc\n').bytes, utf8Bytes('a\r\nc\r\n'));
  const latin = fileOfBytes(latinBytes('\xe9\n'));
  assert.equal(latin.coding, 'latin-1');
  assert.deepEqual(editedFile(latin, '\xe9!\n').bytes, latinBytes('\xe9!\n'));
  assert.deepEqual(editedFile(latin, '\u20ac\n').bytes, utf8Bytes('\u20ac\n'));
});

test('where a byte stands', () => {
  const file = fileOfBytes(utf8Bytes('{ \u00e9\u00e9 }\r\nx := 1\r\n'));
  const at = file.bytes.length - 3;
  assert.deepEqual(placeOfByte(file, at), { line: 2, column: 5 });
  assert.deepEqual(placeOfByte(fileOfText('abc'), 0), { line: 1, column: 0 });
});

test('base64 there and back', () => {
  const bytes = Uint8Array.from({ length: 70_000 }, (_, at) => at % 256);
  assert.deepEqual(bytesOfBase64(base64OfBytes(bytes)), bytes);
});

const SOURCE = `program p(output);
type link = ^node;
     node = record key: integer; left, right: link end;
     box = record case kind: boolean of true: (a, b: integer); false: (c: char) end;

{ Says hello. }
procedure hello(var x, y: integer; function f(z: integer): integer);
  function inner: integer;
  begin inner := 1 end;
begin
  case x of 1: begin end; 2: end
end;

procedure later; forward;

procedure other;
{ Does nothing. }
begin { 'procedure' } end;

procedure later;
begin other end;

begin
  other
end.
`;

test('the routines of a source, by the order of their headings', () => {
  const { routines } = outlineOf(SOURCE);
  assert.deepEqual(routines.map(({ name, number, from, to }) => [name, number, from, to]), [
    ['p', 0, 1, 25], ['hello', 1, 7, 12], ['inner', 2, 8, 9], ['later', 3, 20, 21], ['other', 4, 16, 18]]);
  assert.deepEqual(routines[1].comments, ['Says hello.']);
  assert.deepEqual(routines[4].comments, ['Does nothing.']);
  assert.deepEqual(routines[3].comments, []);
  assert.equal(routineAt(routines, 9).name, 'inner');
  assert.equal(routineAt(routines, 11).name, 'hello');
  assert.equal(routineAt(routines, 23).name, 'p');
});

test('records and their fields', () => {
  const { records } = outlineOf(SOURCE);
  assert.deepEqual(records[0].fields, ['key', 'left', 'right']);
  assert.deepEqual(records[1], { fields: ['kind', 'a', 'b', 'c'], fixed: ['kind'] });
});

test('tokens cover what is not blank, and any text has some', () => {
  for (const text of [SOURCE, "x := 'a''b' { open", "'open\n(* also *) end", '(* half', '\u00e9 \ud83d\ude00', '']) {
    const left = tokensOf(text).reduce((rest, token) => rest.slice(0, token.from) + ' '.repeat(token.to - token.from) + rest.slice(token.to), text);
    assert.match(left, /^\s*$/);
  }
});

test('outlines of half a program', () => {
  for (let end = 0; end <= SOURCE.length; end += 1) assert.ok(outlineOf(SOURCE.slice(0, end)).routines.length >= 1);
});

test('the examples of the page are whole, with their stories', () => {
  const folder = new URL('../examples/', import.meta.url);
  const stories = readdirSync(folder).filter((name) => name.endsWith('.story'));
  assert.ok(stories.length >= 6);
  for (const story of stories) {
    const [title, text] = readFileSync(new URL(story, folder), 'utf8').split('\n---\n');
    assert.ok(title.length > 3 && text.trim().length > 20, story);
  }
});
