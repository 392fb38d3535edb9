// Whether a call that was judged did the same work as the one that is asked about: which call is offered for that, and what came of
// the comparison. The command says whether the judged call would have done the same; the cards say whether it is the same work.
import { MARKS } from './call_table.js';

// A call that came to no end carries nowhere.
const isEnded = (card) => !/^(out of steps|limited )/.test(card.end);

const isBelow = (tree, call, other) => other < call && tree.last[other] >= call;

// Whether two calls stand below calls of the same routines, one for one. Then the variables of those calls have the same places.
function isBelowTheSame(tree, one, other) {
  let [a, b] = [one, other];
  while (a !== b && tree.routine[a] === tree.routine[b] && tree.depth[a] === tree.depth[b]) [a, b] = [tree.parent[a], tree.parent[b]];
  return a === b;
}

// A line of a card in which calls that the call stands below are told by how deep they are, and no more by their numbers: the
// variable `x` of one of them is `work#3.x`, and a jump into it `jumped to 9 of call 3`. What the program printed or read stays.
function placed(tree, call, line) {
  if (/^ {2}(looks|takes|gives) "/.test(line)) return line;
  const byDepth = (all, before, number) => (isBelow(tree, call, Number(number)) ? `${before}depth ${tree.depth[Number(number)]}` : all);
  return line.replace(/\b([A-Za-z][A-Za-z0-9]*#)(\d+)(?=\.)/g, byDepth).replace(/^( {2}jumped to \d+ of call )(\d+)$/, byDepth);
}

// Most cards name no call, and a card may have millions of letters.
const namesCalls = (text) => /#\d|^ {2}jumped /m.test(text);

function isSameText(tree, one, other, textOf) {
  const [text, otherText] = [textOf(one), textOf(other)];
  if (text === otherText) return true;
  if (!namesCalls(text) || !namesCalls(otherText) || !isBelowTheSame(tree, one.call, other.call)) return false;
  const placedText = (all, call) => all.split('\n').map((line) => placed(tree, call, line)).join('\n');
  return placedText(text, one.call) === placedText(otherText, other.call);
}

const givenText = ({ given }) => given.map(({ name, value }) => `${name} = ${value}`).join('\n');
const isSameGiven = (tree, one, other) => isSameText(tree, one, other, givenText);

// All of a card but its first line, which has the call's own number.
const restText = ({ text }) => text.slice(text.indexOf('\n') + 1).trimEnd();
const isSameCard = (tree, one, other) => isSameText(tree, one, other, restText);

// How much a comparison may tell: nothing where the cards already differ in what was given, or where one call stands below the
// other, since it began with more calls under way. Calls that are equally deep come before others of the same kind.
const [NOTHING, UNSEEN, GIVEN_THE_SAME, CARDS_THE_SAME] = [0, 1, 3, 5];
const MOST = CARDS_THE_SAME + 1;

function promiseOf(tree, cards, asked, judged) {
  if (isBelow(tree, asked, judged) || isBelow(tree, judged, asked)) return NOTHING;
  const isAsDeep = tree.depth[asked] === tree.depth[judged] ? 1 : 0;
  const [own, other] = [cards.get(asked), cards.get(judged)];
  if (other === undefined) return UNSEEN + isAsDeep;
  if (!isEnded(other) || !isSameGiven(tree, own, other)) return NOTHING;
  return (isSameCard(tree, own, other) ? CARDS_THE_SAME : GIVEN_THE_SAME) + isAsDeep;
}

// Another call of the routine that is asked about which is judged right or wrong, `{ judged, asked, mark }`, or null. Of several
// the one whose card is most alike, and of these the one that was judged last. What was left out was not judged.
export function offerOf({ knowsCarry, tree, cards, entries, questionCall: asked }) {
  if (!knowsCarry || tree === null || !cards.has(asked)) return null;
  let offer = null;
  let most = NOTHING;
  for (let at = entries.length - 1; at >= 0 && most < MOST; at -= 1) {
    const { kind, call, standing, leftOutBy } = entries[at];
    const isJudged = standing && leftOutBy === undefined && (kind === 'right' || kind === 'wrong') && MARKS[tree.mark[call]] === kind;
    if (isJudged && call !== asked && tree.routine[call] === tree.routine[asked]) {
      const promise = promiseOf(tree, cards, asked, call);
      if (promise > most) [offer, most] = [{ judged: call, asked, mark: kind }, promise];
    }
  }
  return offer;
}

// What came of a comparison. Only where the judged call carries and the cards say the same, one answer is enough for both: the routine
// may have been given other values, or stand within a routine of which two calls are under way, and have worked on the variables of
// the other one.
export function outcomeOf(carries, tree, own, other) {
  if (carries) return isSameCard(tree, own, other) ? 'same' : isSameGiven(tree, own, other) ? 'elsewhere' : 'given';
  if (!isEnded(other)) return 'unended';
  if (isSameCard(tree, own, other)) return 'alike';
  return isEnded(own) ? 'different' : 'short';
}
