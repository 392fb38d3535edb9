// The page: it puts the parts together and begins.
import { Answers } from './answers.js';
import { fileOfText } from './bytes.js';
import { Desk } from './desk.js';
import { byId } from './dom.js';
import { RANK } from './engine.js';
import { Finder } from './finder.js';
import { connect } from './keys.js';
import { notice } from './notices_view.js';
import { Painter } from './painter.js';
import { Programs } from './programs.js';
import { lastKept } from './session.js';

const PROVED = 'Every question, card, trace and verdict is printed by a proved program; this page only folds its text.';
const TRIAL = 'A trial build: the program inside this page was not proved.';

const desk = new Desk(PASASK, {
  edited: () => programs.edited(), findLine: (line) => finder.findLine(line), choose: (call) => answers.choose(call), render: () => painter.paint(),
});
const finder = new Finder(desk);
const answers = new Answers(desk, { onTurn: afterTurn });
const programs = new Programs(desk, { onRun: afterTurn });

// What a part of the page may do that shows a card.
const context = {
  choose: (call) => answers.choose(call),
  cardContext: (call) => ({ ...context, looking: answers.looking(call), sayWrong: desk.dialog.knowsSlice ? (name) => answers.sayWrong(call, name) : null }),
  say: (line) => answers.say(line),
  takeBack: (number) => answers.takeBack(number),
  findAlike: () => answers.findAlike(),
  askRight: (call) => answers.askRight(call),
  get hasRight() { return desk.right !== null && desk.dialog.knowsRefer; },
  close: () => answers.choose(-1),
  showLine: (line) => { desk.showPane('source'); desk.source.show(line); },
  lineText: (line) => desk.source.lineText(line),
  get records() { return desk.source.outline.records; },
};

const onPaper = { ...context, cardContext: (call) => ({ ...context, looking: answers.looking(call, false), sayWrong: null }) };

const painter = new Painter(desk, context, {
  open: () => byId('file').click(), run: () => programs.runEdited(), pick: (at) => programs.pickExample(at),
  goOn: (kept) => programs.goOnWith(kept), putBack: () => programs.putBack(), takeBack: (number) => answers.takeBack(number),
});

// What follows a question: both answers are computed ahead; then come the line of its call and the calls that were asked the same, and
// for the tree of a small run what each call was given and returned.
async function afterTurn() {
  desk.dialog.thinkAhead();
  if (!desk.dialog.isQuick) return;
  await answers.findMore();
  if (finder.isSmall) await finder.loadBriefs(RANK.later);
}

// A link may open an example and answer: index.html#example=change&answers=wrong,right,wrong
async function followLink() {
  const words = new URLSearchParams(location.hash.slice(1));
  const at = desk.examples.findIndex((example) => example.name === words.get('example'));
  if (at < 0) return;
  await programs.pickExample(at);
  for (const word of (words.get('answers') ?? '').split(',').filter((it) => it !== '')) await answers.answer(word);
}

async function begin() {
  connect(desk, { programs, answers, finder, print: () => programs.printReport(onPaper) });
  byId('trust').textContent = desk.isProved ? PROVED : TRIAL;
  byId('trust').title = PASASK.verdict;
  desk.showPane('question');
  desk.offer = lastKept();
  programs.set('untitled.pas', fileOfText(''), fileOfText(''));
  const { trap } = await desk.engine.open(PASASK.module);
  document.body.dataset.ready = trap === undefined ? 'yes' : 'no';
  if (trap === undefined) await followLink();
  else byId('notices').replaceChildren(notice('.bad', 'This browser cannot run the page: ', trap));
}

begin();
