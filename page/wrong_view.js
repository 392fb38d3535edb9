// Saying which of all that a call left is wrong: a button beside each thing, and where that has several parts a choice of these below.
import { button, make, plural } from './dom.js';
import { GONE, NO_VALUE } from './fold_card.js';
import { OUTPUT_SAID } from './words.js';

const WHY = 'The calls below that had no part in it are left out.';
const MOST_CHOICES = 60;
const MOST_CHARACTERS = 24;

const upper = (text) => text[0].toUpperCase() + text.slice(1);
const shortText = (text) => (text.length > MOST_CHARACTERS ? `${text.slice(0, MOST_CHARACTERS - 1)}\u2026` : text);

// What can be wrong: the `name` that the command has for it, how it is called at the beginning of a sentence, and how in a choice.
const ofWord = (word) => ({ name: word, called: upper(OUTPUT_SAID[word]), said: OUTPUT_SAID[word] });

function ofCell({ name, after }) {
  const said = after === GONE ? `${name} disposed of` : after === NO_VALUE ? `${name} without a value` : `${name} = ${shortText(after)}`;
  return { name, called: name, said };
}

// `sayWrong(name)` says that it is wrong. A second click within a moment is none on the card that has come by then.
const saying = (name, sayWrong) => (event) => { if (event.detail < 2) sayWrong(name); };

// A button on one thing.
function wrongButton({ name, called }, sayWrong) {
  return button('.blame', { 'aria-label': `${called} is wrong`, title: `${called} is wrong. ${WHY}`, 'data-wrong': name, onclick: saying(name, sayWrong) }, 'wrong');
}

// The button on what a word stands for, as `gives`, or null where the card has nothing for it.
export const wrongWord = (word, words, sayWrong) => (sayWrong === null || !words.includes(word) ? null : wrongButton(ofWord(word), sayWrong));

function choiceButton({ name, said }, sayWrong) {
  return button('.small', { 'aria-label': `${said} is wrong`, 'data-wrong': name, onclick: saying(name, sayWrong) }, said);
}

// A field for the name of one of those that are too many to show.
function nameForm(left, sayWrong) {
  const field = make('input', { type: 'text', size: 14, 'aria-label': 'Name of the wrong part', autocapitalize: 'off', autocomplete: 'off', spellcheck: 'false' });
  const say = (event) => {
    event.preventDefault();
    if (field.value.trim() !== '') sayWrong(field.value.trim());
  };
  return make('form.look', { onsubmit: say }, make('label', `or one of ${plural(left, 'more', 'more')}, by its name `, field), make('button.small', { type: 'submit' }, 'wrong'));
}

// The button beside what has these changed `cells`, and `below`, which it opens where there are several, or null. `more` are words
// that can be chosen, too. Null where nothing was changed.
export function wrongOf(said, cells, sayWrong, more = []) {
  const changed = sayWrong === null ? [] : cells.filter((cell) => cell.isSet);
  const count = changed.length + more.length;
  // A card may have very many cells, of which a few are shown.
  const choices = () => [...changed.slice(0, MOST_CHOICES).map(ofCell), ...more.map(ofWord)];
  if (sayWrong === null || count === 0) return null;
  if (count === 1) return { act: wrongButton(choices()[0], sayWrong), below: null };
  const below = make('div.choices', { hidden: true, role: 'group', 'aria-label': 'Which of these is wrong?' });
  const open = () => {
    below.hidden = !below.hidden;
    act.setAttribute('aria-expanded', String(!below.hidden));
    if (below.childElementCount > 0) return;
    below.append(make('p', 'Which of these is wrong?'), make('div.row', choices().map((choice) => choiceButton(choice, sayWrong))));
    if (changed.length > MOST_CHOICES) below.append(nameForm(changed.length - MOST_CHOICES, sayWrong));
  };
  const act = button('.blame', { 'aria-label': `Something is wrong in ${said}`, title: `Something is wrong in ${said}. ${WHY}`, 'data-wrong': said, 'aria-expanded': 'false', onclick: open }, 'wrong');
  return { act, below };
}
