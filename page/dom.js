// Elements. What comes from a program goes in as text alone, since a source or an output may hold anything.
import { counted } from './words.js';

export const byId = (id) => document.getElementById(id);

function add(element, kids) {
  for (const kid of kids.flat(Infinity)) if (kid !== null && kid !== undefined && kid !== false) element.append(kid);
  return element;
}

// `make('p.where', { title: 'x' }, 'text', kids)`: the tag with its classes, attributes, and what it holds.
export function make(what, ...rest) {
  const [tag, ...classes] = what.split('.');
  return add(dressed(document.createElement(tag), classes, rest), kidsIn(rest));
}

const SVG = 'http://www.w3.org/2000/svg';

export function makeSvg(what, ...rest) {
  const [tag, ...classes] = what.split('.');
  return add(dressed(document.createElementNS(SVG, tag), classes, rest), kidsIn(rest));
}

const isAttributes = (it) => it !== null && typeof it === 'object' && !(it instanceof Node) && !Array.isArray(it);
const kidsIn = (rest) => (isAttributes(rest[0]) ? rest.slice(1) : rest);

function dressed(element, classes, rest) {
  if (classes.length > 0) element.setAttribute('class', classes.join(' '));
  if (isAttributes(rest[0])) {
    for (const [name, value] of Object.entries(rest[0])) {
      if (name.startsWith('on')) element.addEventListener(name.slice(2), value);
      else if (value === true) element.setAttribute(name, '');
      else if (value !== false && value !== null && value !== undefined) element.setAttribute(name, value);
    }
  }
  return element;
}

export function button(what, attributes, ...kids) {
  return make(`button${what}`, { type: 'button', ...attributes }, kids);
}

// What is shown only when it is opened is made only then.
export function fold(what, summary, kids) {
  const details = make(`details${what}`, make('summary', summary));
  details.addEventListener('toggle', () => {
    if (details.open && details.childElementCount === 1) add(details, [kids()]);
  });
  return details;
}

// A text in which `names` stand between backquotes.
export const withCode = (text) => text.split('`').map((piece, at) => (at % 2 === 1 ? make('code', piece) : piece));

export const plural = (count, one, many = `${one}s`) => `${counted(count)} ${count === 1 ? one : many}`;

// A clock that waits until nothing came for a while.
export function later(ms, act) {
  let clock = 0;
  return (...words) => {
    clearTimeout(clock);
    clock = setTimeout(() => act(...words), ms);
  };
}
