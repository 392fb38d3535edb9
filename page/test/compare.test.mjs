// Which judged call is offered for a comparison with the question, and what is said of what came.
import assert from 'node:assert/strict';
import { test } from 'node:test';
import { utf8Bytes } from '../bytes.js';
import { markBy, treeOf } from '../call_table.js';
import { cardOf } from '../card.js';
import { offerOf, outcomeOf } from '../compare.js';
import { ANSWER_OF, comparedSaid } from '../words.js';

// Calls 1, 2, 4 and 5 are of `sum`, 3 is of `show`.
const TREE = '0 p #0 wrong\n1 in 0 sum #1 unjudged\n2 in 0 sum #1 unjudged\n3 in 0 show #2 unjudged\n4 in 3 sum #1 unjudged\n5 in 0 sum #1 unjudged\n';
const card = (call, ...lines) => cardOf(`call ${call} sum in call 0\n${lines.map((line) => `  ${line}\n`).join('')}`);
const RETURNED = ['reads a = 4', 'result 4', 'returned'];

const entry = (kind, call, standing = true) => ({ kind, call, standing });

// What a page knows that asks about call 5, whose card is the first one.
function knowing(entries, cards, more = {}) {
  const tree = treeOf(utf8Bytes(TREE));
  const numbered = [entry('wrong', 0), ...entries].map((it, at) => ({ number: at + 1, ...it }));
  markBy(tree, numbered);
  return { knowsCarry: true, tree, entries: numbered, questionCall: 5, cards: new Map(cards.map((it) => [it.call, it])), ...more };
}

const offered = (...given) => { const offer = offerOf(knowing(...given)); return offer === null ? null : [offer.judged, offer.asked, offer.mark]; };
const ASKED = card(5, ...RETURNED);

test('a call of the same routine that was judged right or wrong', () => {
  assert.deepEqual(offered([entry('right', 1)], [ASKED, card(1, ...RETURNED)]), [1, 5, 'right']);
  assert.deepEqual(offered([entry('wrong', 1)], [ASKED, card(1, ...RETURNED)]), [1, 5, 'wrong']);
  assert.equal(offered([], [ASKED, card(1, ...RETURNED)]), null);
  assert.equal(offered([entry('unknown', 1)], [ASKED, card(1, ...RETURNED)]), null);
  assert.equal(offered([{ kind: 'trust', routine: 1, standing: true }], [ASKED, card(1, ...RETURNED)]), null);
  assert.equal(offered([entry('right', 3)], [ASKED, card(3, ...RETURNED)]), null);
  assert.equal(offered([entry('right', 5)], [ASKED]), null);
});

test('only an answer that counts', () => {
  const cards = [ASKED, card(1, ...RETURNED)];
  assert.equal(offered([entry('right', 1, false)], cards), null);
  assert.equal(offered([entry('right', 1), entry('unknown', 1)], cards), null);
  assert.deepEqual(offered([entry('right', 1), entry('wrong', 1)], cards), [1, 5, 'wrong']);
  assert.deepEqual(offered([entry('right', 1), entry('wrong', 1, false)], cards), [1, 5, 'right']);
});

test('only where the command knows the line, and a call is asked about', () => {
  const known = [[entry('right', 1)], [ASKED, card(1, ...RETURNED)]];
  assert.equal(offered(...known, { knowsCarry: false }), null);
  assert.equal(offered(...known, { tree: null }), null);
  assert.equal(offered(...known, { questionCall: -1 }), null);
});

test('not where the cards show that it was given something else, or came to no end', () => {
  const asked = card(5, 'n = 3', 'v = at a[1]', 'result 4', 'returned');
  const judged = (...lines) => offered([entry('right', 1)], [asked, card(1, ...lines)]);
  assert.deepEqual(judged('n = 3', 'v = at a[1]', 'result 5', 'returned'), [1, 5, 'right']);
  assert.equal(judged('n = 4', 'v = at a[1]', 'result 4', 'returned'), null);
  assert.equal(judged('n = 3', 'v = at a[2]', 'result 4', 'returned'), null);
  assert.equal(judged('n = 3', 'v = at a[1]', 'out of steps'), null);
  assert.equal(judged('n = 3', 'v = at a[1]', 'limited depth'), null);
  assert.deepEqual(judged('n = 3', 'v = at a[1]', 'faulted ZeroDivisor line 3'), [1, 5, 'right']);
  assert.deepEqual(offered([entry('right', 1)], [asked]), [1, 5, 'right']);
});

test('of several the one whose card is most alike, then the one that was judged last', () => {
  const other = (call) => card(call, 'reads a = 9', 'result 9', 'returned');
  const judged = [entry('right', 1), entry('wrong', 2), entry('right', 4)];
  assert.deepEqual(offered(judged, [ASKED, card(1, ...RETURNED), other(2), other(4)]), [1, 5, 'right']);
  assert.deepEqual(offered(judged, [ASKED, card(1, ...RETURNED), card(2, ...RETURNED), other(4)]), [2, 5, 'wrong']);
  assert.deepEqual(offered(judged, [ASKED, other(2)]), [2, 5, 'wrong']);
  assert.deepEqual(offered(judged, [ASKED, other(1), card(4, ...RETURNED)]), [4, 5, 'right']);
  // Call 4 is deeper than call 5.
  assert.deepEqual(offered(judged, [ASKED, card(1, ...RETURNED), other(2), card(4, ...RETURNED)]), [1, 5, 'right']);
  assert.deepEqual(offered(judged, [ASKED]), [2, 5, 'wrong']);
  assert.deepEqual(offered([entry('right', 4)], [ASKED]), [4, 5, 'right']);
});

test('not where one call stands below the other', () => {
  const recursion = '0 p #0 wrong\n1 in 0 sum #1 unjudged\n2 in 1 sum #1 unjudged\n3 in 0 sum #1 unjudged\n';
  const offer = (asked, ...judged) => {
    const tree = treeOf(utf8Bytes(recursion));
    const entries = judged.map((call) => entry('right', call));
    markBy(tree, entries);
    return offerOf({ knowsCarry: true, tree, entries, questionCall: asked, cards: new Map([[asked, card(asked, ...RETURNED)]]) })?.judged ?? null;
  };
  assert.deepEqual([offer(2, 1), offer(1, 2), offer(2, 3), offer(2, 3, 1), offer(3, 2)], [null, null, 3, 3, 2]);
});

test('what came of it', () => {
  const tree = treeOf(utf8Bytes(TREE));
  const outcome = (carries, own, other) => outcomeOf(carries, tree, own, other);
  const one = (...lines) => card(1, ...lines);
  assert.equal(outcome(true, ASKED, one(...RETURNED)), 'same');
  assert.equal(outcome(true, card(5, 'n = 3', 'returned'), one('n = 4', 'returned')), 'given');
  assert.equal(outcome(false, ASKED, one(...RETURNED)), 'alike');
  assert.equal(outcome(false, ASKED, one('reads a = 9', 'result 9', 'returned')), 'different');
  assert.equal(outcome(false, card(5, 'out of steps'), one(...RETURNED)), 'short');
  assert.equal(outcome(false, ASKED, one('out of steps')), 'unended');
  assert.equal(outcome(false, ASKED, one('limited heap')), 'unended');
});

// Calls 2 and 4 of `up` stand below calls of `work`; calls 7 and 8 below two calls of `inner` within each other, 9 below the outer one.
const NESTED = `0 p #0 wrong
1 in 0 work #1 unjudged
2 in 1 up #2 unjudged
3 in 0 work #1 unjudged
4 in 3 up #2 unjudged
5 in 0 inner #3 unjudged
6 in 5 inner #3 unjudged
7 in 6 in #4 unjudged
8 in 6 in #4 unjudged
9 in 5 in #4 unjudged
`;

test('variables of the calls around are told by how deep these are', () => {
  const tree = treeOf(utf8Bytes(NESTED));
  const came = (one, other) => outcomeOf(true, tree, other, one);
  const of = (owner, ...more) => [`v = at work#${owner}.x`, `reads work#${owner}.x = 3`, `changes work#${owner}.x = 4`, ...more, `jumped to 9 of call ${owner}`];
  assert.equal(came(card(2, ...of(1)), card(4, ...of(3))), 'same');
  assert.equal(came(card(2, ...of(1)), card(4, 'v = at work#3.y', 'returned')), 'given');
  assert.equal(came(card(2, ...of(1)), card(4, 'v = at work#3.x', 'reads work#3.y = 3', 'returned')), 'elsewhere');
  assert.equal(came(card(2, 'gives "work#1.x"', 'returned'), card(4, 'gives "work#3.x"', 'returned')), 'elsewhere');
  const reads = (call, owner) => card(call, `reads inner#${owner}.x = 5`, 'returned');
  assert.equal(came(reads(7, 6), reads(8, 6)), 'same');
  assert.equal(came(reads(7, 5), reads(8, 6)), 'elsewhere');
  assert.equal(came(reads(9, 5), reads(8, 6)), 'elsewhere');
  assert.equal(came(reads(9, 5), reads(8, 5)), 'same');
});

test('in words, and a suggestion only where it is the same work', () => {
  assert.equal(comparedSaid('same', 12), 'Call 12 would have done exactly the same here, so the same answer holds:');
  assert.equal(comparedSaid('different', 3), 'Something that call 3 met is different here, so judge this one by itself.');
  for (const outcome of ['given', 'elsewhere', 'different', 'short', 'alike', 'unended']) {
    assert.match(comparedSaid(outcome, 3), /\b[Cc]all 3 /);
    assert.doesNotMatch(comparedSaid(outcome, 3), /same answer|\{/);
  }
  assert.deepEqual(ANSWER_OF, { right: { word: 'Right', key: 'R' }, wrong: { word: 'Wrong', key: 'W' } });
});
