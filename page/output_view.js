// What the program printed, below its text.
import { bytesOfQuoted } from './card.js';
import { textOfBytes } from './bytes.js';
import { make, plural } from './dom.js';
import { endOf } from './words.js';

const MOST_CHARACTERS = 20_000;

// `card` is that of the whole program, or null where nothing ran. The parts are the heading's note, the text, how it ended, and
// as long as there is no answer that it may be right. Of a program that prints nothing that cannot be told by what it printed.
export function outputView(card, isBegun) {
  if (card === null) return { note: '', parts: [] };
  const text = card.gives === null ? '' : textOfBytes(bytesOfQuoted(card.gives)).text;
  const left = text.length - MOST_CHARACTERS;
  const { said, isBad } = endOf(card.end);
  return {
    note: text === '' ? '(nothing)' : '',
    parts: [text === '' ? null : make('pre.text', { tabindex: 0, 'aria-label': 'What the program printed' }, text.slice(0, MOST_CHARACTERS)),
      left > 0 ? make('p.quiet', `and ${plural(left, 'more character')}`) : null, isBad ? make('p.end.bad', said) : null,
      isBad || isBegun || text === '' ? null : make('p.quiet', 'If that is what it should do, nothing is wrong, and there is nothing to look for.')].filter((part) => part !== null),
  };
}
