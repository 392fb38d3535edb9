// What the page says, in a student's words.

// A number as it is read. What writes it takes a browser some milliseconds to make, so that is made once, and before anybody waits.
const NUMBERS = new Intl.NumberFormat('en');
export const counted = (count) => NUMBERS.format(count);

const FAULTS = {
  Undefined: 'a variable without a value was used',
  Overflow: 'a number left the range of integers, \u22122147483647 to 2147483647',
  OutOfRange: 'a value does not fit its type, or an index its array',
  ZeroDivisor: 'it divided by zero',
  BadModulus: 'it took mod by a number that is not above zero',
  NilPointer: 'it followed a pointer that is nil',
  Disposed: 'it used a variable of the heap that was disposed of',
  InactiveVariant: 'it used a field of a variant that is not the chosen one',
  NoCase: 'no constant of the case statement fits the value',
  PastEnd: 'it read past the end of the input',
  BadNumber: 'it read a number, and the input has none there',
  BadWidth: 'it wrote with a width that is not above zero',
  UndefinedResult: 'a function came to its end without a value',
};

const LIMITS = {
  calls: '500,000 calls were made, and more are not kept',
  depth: 'calls were nested 100,000 deep',
  stack: 'the variables of open calls took too much room',
  heap: 'the variables made by new took too much room',
};

// How a call ended: what is said, whether something went wrong, and where.
export function endOf(end) {
  const fault = /^faulted (\w+) line (\d+)$/.exec(end);
  if (fault !== null) {
    return { said: `It broke off at line ${fault[2]}: ${FAULTS[fault[1]] ?? fault[1]}.`, isBad: true, line: Number(fault[2]) };
  }
  const jump = /^jumped to (\d+ of .+)$/.exec(end);
  if (jump !== null) return { said: `It was left by a goto, to the label ${jump[1]}.`, isBad: false, line: 0 };
  const limit = /^limited (\w+)$/.exec(end);
  if (limit !== null) return { said: `It was stopped: ${LIMITS[limit[1]] ?? limit[1]}.`, isBad: true, line: 0 };
  if (end === 'out of steps') return { said: 'It did not end: the steps ran out.', isBad: true, line: 0 };
  return { said: end === 'returned' ? 'It ended normally.' : end, isBad: false, line: 0 };
}

// What a cell held before a call and after it; null where it was not there.
export function stateSaid({ before, after }) {
  const [was, is] = [before, after].map((value) => (value === '?' ? 'no value' : value?.replace(/^at /, 'a place: ')));
  if (before === null) return `was not there before the call, and held ${is} after it.`;
  if (after === null) return `held ${was} before the call, and was gone after it.`;
  return before === after ? `held ${was} before the call and after it.` : `held ${was} before the call and ${is} after it.`;
}

// What may be wrong of a call besides a variable, by the command's words.
export const OUTPUT_SAID = { takes: 'how much it read', makes: 'what it made by new', gives: 'what it printed', result: 'its result', way: 'how it ended' };

// How many calls an answer on a wrong output left out; `hasCalls`: whether the call made any.
export function leftOutSaid(count, hasCalls) {
  if (!hasCalls) return 'It made no other call, so there is nothing to leave out.';
  return count === 0 ? 'No call could be left out.' : `${counted(count)} ${count === 1 ? 'call' : 'calls'} below had no part in that, and ${count === 1 ? 'is' : 'are'} left out.`;
}

// Calls that were asked the same as the one that is asked about, and how many of them were judged already.
export const othersSaid = (count, canShare) => [count === 1 ? 'Another call was asked just the same: it was given and found the same, so it did the same.'
  : `${counted(count)} other calls were asked just the same: they were given and found the same, so they did the same.`,
canShare ? `Your answer can be for ${count === 1 ? 'both' : `all ${counted(count + 1)}`}.` : 'But there is no room for so many answers.'].join(' ');

const JUDGED = { right: 'judged right', wrong: 'judged wrong', unknown: 'left open' };

// `marks` has how many of `count` calls have each mark.
export const judgedSaid = (marks, count) => Object.entries(marks).map(([mark, judged]) => (count === 1 ? ` It was ${JUDGED[mark]} before.`
  : ` ${counted(judged)} of them ${judged === 1 ? 'was' : 'were'} ${JUDGED[mark]} before.`)).join('');

// The words beside the box that is ticked so that an answer is for them, too; the first letter is a key.
export const forAllSaid = (count) => (count === 1 ? 'Also for the other call that was asked the same' : `Also for the ${counted(count)} other calls that were asked the same`);

// What an answer for all of them is told by.
export const sharedSaid = (count) => (count === 1 ? 'also for 1 other call that was asked the same' : `also for ${counted(count)} other calls that were asked the same`);

export const KEPT_SAID = { right: 'Right', wrong: 'Wrong', unknown: 'Don\u2019t know' };
export const SAID_OF = { right: 'is right', wrong: 'is wrong', unknown: 'could not be judged', trust: 'is trusted', judged: 'is judged' };

// What follows that where the right program said it.
export const REFERRED = ', says the right program';

// The buttons and keys of answers.
export const ANSWER_OF = { right: { word: 'Right', key: 'R' }, wrong: { word: 'Wrong', key: 'W' } };

// What came of comparing a call that was judged with the one that is asked about, see compare.js.
const COMPARED = {
  same: 'Call {judged} would have done exactly the same here, so the same answer holds:',
  given: 'Nothing that call {judged} met is different here, but this call was given something else, so judge it by itself.',
  elsewhere: 'Nothing that call {judged} met is different here, but this call works on other variables, so judge it by itself.',
  different: 'Something that call {judged} met is different here, so judge this one by itself.',
  short: 'Something that call {judged} met is different here, or too few steps were left, so judge this one by itself.',
  alike: 'The two cards are alike, but other calls were under way when call {judged} began, or other variables were made by new. So it is not certain that both did the same: judge this one by itself.',
  unended: 'Call {judged} did not come to its end, so there is nothing to compare. Judge this one by itself.',
};

export const comparedSaid = (outcome, judged) => COMPARED[outcome].replace('{judged}', judged);

const STATUSES = {
  2: 'The number of steps is a number from 1 to 4,000,000.',
  4: 'This text is too long: a program may have 1,048,576 bytes, its input 4,194,304, saved answers 67,108,864.',
  5: 'The lines of the dialog could not be read.',
  6: 'What is to be shown is too long to be shown here.',
  7: 'Memory ran out. A smaller number of steps may help.',
  8: 'These answers do not belong here.',
  9: 'There are too many answers.',
};

const MISFITS = [
  [/^session: source is/, 'These answers belong to another program text. Open that text first.'],
  [/^session: input is/, 'These answers were given with another input. Put that in first.'],
  [/^session: budget is .* has (\d+)/, 'These answers were given with another number of steps: $1.'],
  [/^session: (NotJson|BadShape)/, 'This file holds no saved answers.'],
  [/^session: BadVersion/, 'These answers were saved by another version of pasask.'],
  [/^session: entry/, 'One of these answers is on a call that this run does not have.'],
];

export function statusSaid(status, screen) {
  for (const [pattern, said] of MISFITS) {
    const found = pattern.exec(screen);
    if (found !== null) return said.replace('$1', counted(Number(found[1])));
  }
  return STATUSES[status] ?? `The command ended with the status ${status}.`;
}

const REPLIES = [
  [/^no reference for call/, 'The right program cannot answer for this call: it has no routine of this name with these parameters in its outermost block, or the call did not keep to variables that both programs have. Judge it yourself.'],
  [/^reference gave no answer/, 'The right program did not come to an end here: it ran out of steps, or its calls were nested too deep. Judge this call yourself.'],
  [/^not fetched/, 'This text is too long: a right program may have 1,048,576 bytes.'],
  [/^reference refused/, 'This is no program that can be run.'],
  [/^no question/, 'No call is asked about any more.'],
  [/^no call/, 'There is no such call.'],
  [/^no cell/, 'There is no variable of this name, neither before the call nor after it. Names are written as the card has them.'],
  [/^no output (takes|makes|gives|result|way)$/, 'This call has nothing of that kind.'],
  [/^no output/, 'This call changed no variable of this name. Names are written as the card has them.'],
  [/^too many to compare/, 'This call did too much to go over it for one value. Answer Right or Wrong for the call as a whole.'],
  [/^not understood/, 'A note has 1 to 100 letters, digits and signs, without accents.'],
  [/^nothing stands/, 'There is no answer to take back.'],
  [/^entry (\d+) does not stand/, 'This answer was taken back before.'],
  [/^book is full/, 'There is no room for this: 100,000 answers can be held.'],
];

export function replySaid(reply) {
  const found = REPLIES.find(([pattern]) => pattern.test(reply));
  return found === undefined ? reply : found[1];
}
