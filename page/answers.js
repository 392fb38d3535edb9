// Answers, and what is asked for besides: the card of a chosen call, and what a variable held.
import { briefOf } from './card_view.js';
import { byId } from './dom.js';
import { RANK } from './engine.js';
import { Looking } from './look_view.js';
import { lastOnSeveral } from './session.js';

const WAIT_MS = 100;

export class Answers {
  // `onTurn` is called once an answer has shown what comes next.
  constructor(desk, { onTurn }) {
    this.desk = desk;
    this.onTurn = onTurn;
  }

  async turn(act) {
    const { desk } = this;
    if (desk.dialog.isBusy || desk.dialog.shown === null || desk.isEdited) return;
    await act(desk.dialog);
    this.onTurn();
  }

  // Says a line of the dialog, such as `right 7`.
  say(line) {
    return this.turn((dialog) => dialog.say(line));
  }

  // Says a line by something that is gone then.
  async sayAndGoOn(line) {
    await this.say(line);
    this.goOn();
  }

  // The keys go on from the next card, where what had the focus is gone.
  goOn() {
    const { activeElement } = document;
    if (activeElement === document.body || activeElement.closest('[hidden]') !== null) byId('card').querySelector('h2')?.focus({ preventScroll: true });
  }

  // Says that something that a call left is wrong.
  sayWrong(call, name) {
    return this.sayAndGoOn(`slice ${call} ${name}`);
  }

  // Takes a right program, which answers from now on where it is asked, unless it is none. It waits for a line that is being answered.
  async takeRight(name, file) {
    const { desk } = this;
    const right = { name, file };
    while (desk.dialog.isBusy) await new Promise((done) => { setTimeout(done, WAIT_MS); });
    if (desk.isEdited) {
      desk.tell('Run the program again first, and then choose the right one.');
      return;
    }
    let isTaken = false;
    await this.turn(async (dialog) => { isTaken = await dialog.sayBy(right, []); });
    if (!isTaken) return;
    desk.right = right;
    byId('rightBox').open = false;
    byId('rightText').value = '';
    desk.render();
    byId('rightBox').querySelector('summary').focus();
  }

  putRightAway() {
    this.desk.right = null;
    this.desk.render();
    byId('openRight').focus();
  }

  // Lets the right program judge a call. Where there is none yet, one can be chosen.
  async askRight(call) {
    const { desk } = this;
    if (desk.right === null) this.showRight();
    else if (call >= 0 && !desk.isForAll) {
      await this.turn((dialog) => dialog.sayBy(desk.right, [`refer ${call}`]));
      this.goOn();
    }
  }

  showRight() {
    if (byId('rightBox').hidden) return;
    byId('rightBox').open = true;
    byId('openRight').focus();
  }

  // Takes back the answer of this number, with all its entries.
  takeBack(number) {
    return this.turn((dialog) => dialog.takeBack(number));
  }

  // An answer to the question: `right`, `wrong`, `unknown`, `trust`, `refer`, or `back`.
  answer(word) {
    const { desk } = this;
    const { dialog } = desk;
    const onSeveral = lastOnSeveral(dialog.entries);
    if (word === 'back') return onSeveral === null ? this.say('back') : this.takeBack(onSeveral);
    const call = dialog.questionCall;
    if (word === 'refer') return this.askRight(call);
    if (call < 0) return undefined;
    if (word === 'trust') return this.say(`trust #${dialog.tree.routine[call]}`);
    return desk.isForAll ? this.sayAndGoOn(`shared ${word} ${call}`) : this.say(`${word} ${call}`);
  }

  // Whether an answer is for all calls that were asked the same.
  setForAll(isForAll) {
    const { desk } = this;
    desk.isForAll = isForAll && desk.dialog.canShare;
    desk.render();
  }

  // By a key, which goes there, too, so that it is heard.
  switchForAll() {
    const { desk } = this;
    if (!desk.dialog.canShare) return;
    byId('forAll').focus();
    this.setForAll(!desk.isForAll);
  }

  // What a question shows besides its card: the line on which its call was made, which stands in the trace of the call that made it,
  // and which calls were asked the same.
  async findMore() {
    const { desk } = this;
    const { dialog } = desk;
    const { shown } = dialog;
    const call = dialog.report?.call ?? -1;
    if (call <= 0 || dialog.tree === null) return;
    const isThere = await dialog.fetch([{ kind: 'trace', call: dialog.tree.parent[call] }, ...dialog.asksAlike], RANK.later);
    if (isThere && dialog.shown === shown && desk.chosen < 0) desk.render();
  }

  // Looks for them where that was not done at once.
  async findAlike() {
    const { desk } = this;
    const { shown } = desk.dialog;
    const isThere = await desk.dialog.fetch(desk.dialog.asksAlike);
    if (isThere && desk.dialog.shown === shown) desk.render();
  }

  // Shows a call of the tree with its card and trace; -1 closes it.
  async choose(call) {
    const { desk } = this;
    const { dialog, tree } = desk;
    desk.chosen = call;
    tree.choose(call);
    desk.render();
    if (call < 0) return;
    const parent = dialog.tree.parent[call];
    const asks = [{ kind: 'show', call }, { kind: 'trace', call }];
    if (parent >= 0 && dialog.isQuick) asks.push({ kind: 'trace', call: parent });
    await dialog.fetch(asks);
    if (desk.chosen !== call) return;
    if (call > 0 && dialog.cards.has(call)) tree.briefs.set(call, briefOf(dialog.cards.get(call)));
    desk.render();
    byId('detail').querySelector('h2')?.focus({ preventScroll: false });
  }

  // What can be looked at beside a call's card, or null where the command does not know the line; on paper there are no buttons.
  looking(call, hasButtons = true) {
    const { dialog } = this.desk;
    return dialog.knowsState ? new Looking({ ask: (name) => dialog.lookAt(call, name), shown: dialog.looksAt(call), hasButtons }) : null;
  }
}
