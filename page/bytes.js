// Bytes and text. A source is bytes to the command and text to the editor; what was not edited goes back unchanged.

// One character a byte, in pieces, since a call takes only so many arguments.
export function latin(bytes) {
  let text = '';
  for (let at = 0; at < bytes.length; at += 16384) {
    text += String.fromCharCode(...bytes.subarray(at, at + 16384));
  }
  return text;
}

export function latinBytes(text) {
  const bytes = new Uint8Array(text.length);
  for (let at = 0; at < text.length; at += 1) bytes[at] = text.charCodeAt(at);
  return bytes;
}

const encoder = new TextEncoder();

export const utf8Bytes = (text) => encoder.encode(text);

// UTF-8 where the bytes are that, and else one character a byte.
export function textOfBytes(bytes) {
  try {
    return { text: new TextDecoder('utf-8', { fatal: true, ignoreBOM: true }).decode(bytes), coding: 'utf-8' };
  } catch {
    return { text: latin(bytes), coding: 'latin-1' };
  }
}

// A file as the editor holds it: its text with line feeds alone, and how to write that again.
export function fileOfBytes(bytes) {
  const { text, coding } = textOfBytes(bytes);
  const ends = text.split('\r\n').length - 1;
  const lineEnd = ends > 0 && ends === text.split('\n').length - 1 ? '\r\n' : '\n';
  return { text: text.replace(/\r\n?/g, '\n'), coding, lineEnd, bytes };
}

export function fileOfText(text) {
  return { text, coding: 'utf-8', lineEnd: '\n', bytes: utf8Bytes(text) };
}

// The file after an edit. A character that has no byte of its own makes it UTF-8.
export function editedFile(file, text) {
  if (text === file.text) return file;
  const whole = file.lineEnd === '\n' ? text : text.replace(/\n/g, file.lineEnd);
  const isLatin = file.coding === 'latin-1' && !/[^\0-\xff]/.test(whole);
  return {
    text, coding: isLatin ? 'latin-1' : 'utf-8', lineEnd: file.lineEnd, bytes: isLatin ? latinBytes(whole) : utf8Bytes(whole),
  };
}

// Where a byte of a file stands in its text: the line from 1, and the column from 0.
export function placeOfByte(file, byte) {
  const before = file.bytes.subarray(0, byte);
  const text = file.coding === 'utf-8' ? new TextDecoder('utf-8', { ignoreBOM: true }).decode(before) : latin(before);
  const lines = text.replace(/\r\n?/g, '\n').split('\n');
  return { line: lines.length, column: lines[lines.length - 1].length };
}

export function base64OfBytes(bytes) {
  return btoa(latin(bytes));
}

export function bytesOfBase64(text) {
  return latinBytes(atob(text));
}
