// A program that is refused: where, and in a sentence. The sentences are those that the command's wrapper gives.
import { explain } from './refusals.js';
import { placeOfByte } from './bytes.js';

// `line` from 1, `column` from 0, and what is `said`; null where the screen does not refuse the source.
export function refusalOf(sentences, file, screen, name) {
  const found = /^refused: (\w+(?: \d+)?), line (\d+), byte (\d+)/.exec(screen);
  if (found === null) return null;
  const explained = explain(sentences, file.bytes, screen, name);
  return { reason: found[1], ...placeOfByte(file, Number(found[3])), said: explained === null ? found[1] : explained.sentence };
}
