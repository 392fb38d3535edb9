// What is seen: the question or what stands in its place, the answers, the calls, and the marks beside the source.
import { alikeKnown, alikeView } from './alike_view.js';
import { nameOf } from './call_table.js';
import { button, byId, make } from './dom.js';
import { historyView, isGiven } from './history_view.js';
import { noticesOf } from './notices_view.js';
import { outputView } from './output_view.js';
import { Presses } from './presses.js';
import { detailView, hintView, progressOf, questionView, resultView, routineOf, whereView } from './question_view.js';
import { refusalOf } from './refusal.js';
import { paintRight } from './right_view.js';
import { answersIn, keptBefore } from './session.js';
import { lineOfCall } from './trace.js';
import { offerView, storyView, waitingView, welcomeView } from './welcome_view.js';
import { KEPT_SAID, counted, endOf, forAllSaid } from './words.js';

export class Painter {
  // `context` is what the parts of the middle may do, see page.js; `acts` has `open`, `run`, `pick`, `goOn`, `putBack` and `takeBack`.
  constructor(desk, context, acts) {
    Object.assign(this, { desk, context, acts });
    this.shownTree = null;
    this.shownCard = '';
    this.shownEntries = null;
    this.lastSaid = '';
    this.presses = new Presses(() => this.paint());
  }

  // What stands in a part of the page.
  fill(id, ...views) {
    const part = byId(id);
    if (!this.presses.holds(part)) part.replaceChildren(...views);
  }

  paint() {
    const { dialog, source, isEdited: isStale } = this.desk;
    document.body.classList.toggle('busy', dialog.isBusy);
    byId('run').hidden = dialog.isBusy;
    const hasProgram = source.text.trim() !== '';
    byId('run').classList.toggle('main', hasProgram);
    byId('run').setAttribute('aria-disabled', String(!hasProgram));
    byId('stop').hidden = !dialog.isBusy;
    for (const id of ['save', 'print']) byId(id).setAttribute('aria-disabled', String(dialog.shown === null));
    this.paintNotices(isStale);
    if (dialog.isBusy && dialog.shown !== null) return;
    this.paintMiddle(isStale);
    this.paintAnswers(isStale);
    this.paintTree();
    this.paintSource(isStale);
    this.paintOutput(isStale);
    byId('raw').textContent = dialog.shown === null ? '' : dialog.shown.raw;
    byId('cost').textContent = dialog.shown === null ? '' : `the last answer took ${Math.max(1, Math.round(dialog.cost.time))} ms and ${Math.round(dialog.cost.memory / 1048576)} MB`;
    document.body.dataset.turns = String(dialog.session === null ? 0 : dialog.session.lines.length);
  }

  paintNotices(isStale) {
    const { desk, acts } = this;
    const kept = desk.offer;
    const close = () => { desk.offer = null; this.paint(); };
    const showLine = (line) => { desk.showPane('source'); desk.source.focus(line); };
    this.fill('notices', ...(kept === null ? [] : [offerView(kept, { goOn: () => acts.goOn(kept), close })]),
      ...noticesOf(desk.dialog, isStale, { own: this.refusalShown(), right: this.rightRefused() }, { putBack: acts.putBack, takeBack: acts.takeBack, showLine }));
  }

  // Where and why the program of this session is refused, or null.
  refusalShown() {
    const { problem, session } = this.desk.dialog;
    return problem !== null && problem.kind === 'refused' ? refusalOf(this.desk.packed.sentences, session.source, problem.text, session.name) : null;
  }

  // Where and why what was to be a right program is refused, or null.
  rightRefused() {
    const { unread, note } = this.desk.dialog;
    return unread === null ? null : refusalOf(this.desk.packed.sentences, unread.file, note.replace(/^reference /, ''), unread.name);
  }

  // ---- the middle

  paintMiddle(isStale) {
    const { dialog, program } = this.desk;
    const isReady = dialog.shown !== null && dialog.report !== null;
    byId('middle').classList.toggle('stale', isStale && isReady);
    for (const id of ['progress', 'answered']) byId(id).hidden = !isReady;
    const isExample = program.example !== null && dialog.session !== null && dialog.session.source.text === program.example.source;
    this.fill('story', ...(isExample ? [storyView(program.example, dialog.session.lines.length === 0)] : []));
    if (isReady) this.paintQuestion(); else this.paintBeginning();
  }

  paintBeginning() {
    this.shownCard = '';
    byId('hint').replaceChildren();
    byId('card').replaceChildren(...this.beginning());
  }

  beginning() {
    const { desk, acts } = this;
    const { dialog, source } = desk;
    if (dialog.isBusy) return [];
    if (dialog.shown !== null) return [make('article.card', make('p', 'This was printed:'), make('pre.text', dialog.shown.raw))];
    if (dialog.session === null && source.text.trim() === '') return [welcomeView(desk.examples, { open: acts.open, pick: acts.pick })];
    if (dialog.problem !== null && dialog.problem.kind === 'refused' && !desk.isEdited) return [];
    return [waitingView({ run: acts.run, wantsInput: source.readsInput && byId('input').value === '' })];
  }

  paintQuestion() {
    const { context } = this;
    const { dialog } = this.desk;
    const progress = progressOf(dialog);
    byId('left-text').textContent = progress.text;
    byId('bar').firstElementChild.style.width = `${Math.round(100 * Math.max(0.02, progress.share))}%`;
    this.paintCard();
    const hint = dialog.questionCall >= 0 ? hintView(dialog, context) : null;
    this.fill('hint', ...(hint === null ? [] : [hint]));
    this.paintHistory();
    this.announce(progress.text);
  }

  // The list is made anew only where a turn brought another one, so that no click on it is lost.
  paintHistory() {
    const { context, acts } = this;
    const { dialog } = this.desk;
    if (dialog.entries === this.shownEntries) return;
    this.shownEntries = dialog.entries;
    const before = answersIn(dialog.session.lines).length === 0 ? keptBefore() : null;
    byId('history').replaceChildren(historyView(dialog.entries, dialog.tree, context),
      ...(before === null ? [] : [make('p.quiet', button('.link', { onclick: () => acts.goOn(before) }, `Back to the answers on ${before.name}`))]));
  }

  // A card is made anew only where it says something new, so that what was opened in it stays open and the focus stays in it.
  // The line on which its call was made and the calls that were asked the same come later, and are put in alone.
  paintCard() {
    const { context, desk } = this;
    const { dialog, source } = desk;
    const { call = -1 } = dialog.report;
    const card = [dialog.session.lines, call].join(' ');
    const isAsk = dialog.questionCall >= 0;
    if (card !== this.shownCard) {
      this.shownCard = card;
      desk.isForAll = false;
      byId('card').replaceChildren(isAsk ? questionView(dialog, source.outline, context) : resultView(dialog, context));
    } else if (isAsk) {
      byId('card').querySelector('.where').replaceWith(whereView(dialog.cards.get(call), dialog, context));
      this.paintAlike();
    }
  }

  paintAlike() {
    const { dialog } = this.desk;
    const shown = byId('card').querySelector('.alike');
    if (shown === null || shown.dataset.known === alikeKnown(dialog)) return;
    const view = alikeView(dialog, this.context);
    shown.replaceWith(view);
    byId('said').textContent = view.querySelector('p')?.textContent ?? '';
  }

  // What a reader that does not see the page is told of a new question or verdict.
  announce(progress) {
    const { dialog } = this.desk;
    const title = byId('card').querySelector('h2')?.textContent ?? '';
    const end = dialog.questionCall >= 0 ? endOf(dialog.cards.get(dialog.questionCall).end).said : '';
    const said = `${title} ${end} ${progress}`;
    if (said === this.lastSaid) return;
    this.lastSaid = said;
    byId('said').textContent = said;
    this.desk.middle.scrollTo(0);
  }

  // ---- the answers, the calls and the source

  paintAnswers(isStale) {
    const { dialog } = this.desk;
    const isAsk = dialog.questionCall >= 0;
    byId('answers').hidden = !isAsk;
    for (const it of document.querySelectorAll('[data-say]')) {
      const isEmpty = it.dataset.say === 'back' && !dialog.entries.some((entry) => entry.standing && !isGiven(entry));
      it.setAttribute('aria-disabled', String(dialog.isBusy || isStale || isEmpty));
    }
    const trusted = isAsk && dialog.tree !== null ? nameOf(dialog.tree, dialog.questionCall) : '';
    const trust = document.querySelector('#answers [data-say="trust"]');
    trust.setAttribute('aria-label', `Trust ${trusted}`);
    trust.title = `All calls of ${trusted} count as right`;
    trust.replaceChildren(make('u', 'T'), `rust ${trusted}`);
    this.paintForAll(isAsk && dialog.canShare ? dialog.others : 0);
    paintRight(this.desk, { isShown: dialog.knowsRefer && dialog.report !== null, isOpen: !dialog.isBusy && !isStale });
  }

  // The box to tick where other calls were asked the same.
  paintForAll(others) {
    const { isForAll } = this.desk;
    byId('forAllBox').hidden = others === 0;
    byId('forAll').checked = isForAll;
    const [first, ...rest] = forAllSaid(others);
    byId('forAllSaid').replaceChildren(make('u', first), rest.join(''));
    for (const [word, said] of Object.entries(KEPT_SAID)) {
      document.querySelector(`#answers [data-say="${word}"]`).setAttribute('aria-label', isForAll ? `${said}, for all ${counted(others + 1)} calls` : said);
    }
  }

  paintTree() {
    const { context } = this;
    const { dialog, tree, source, chosen } = this.desk;
    if (dialog.tree !== this.shownTree) {
      this.shownTree = dialog.tree;
      if (dialog.tree === null) tree.clear(); else tree.setTree(dialog.tree);
    }
    byId('callCount').textContent = dialog.tree === null ? '' : counted(dialog.tree.parent.length);
    byId('right').classList.toggle('empty', dialog.tree === null);
    tree.setMarks({ asked: dialog.questionCall, accused: dialog.accused ?? -1 });
    this.fill('detail', ...(chosen >= 0 && dialog.tree !== null ? [detailView(chosen, dialog, source.outline, context)] : []));
  }

  paintSource(isStale) {
    const { source, dialog } = this.desk;
    byId('legend').textContent = '';
    const refusal = isStale ? null : this.refusalShown();
    if (refusal !== null) {
      source.mark({ refusal }, refusal.line);
    } else if (isStale || dialog.shown === null) {
      source.unmark();
    } else {
      this.paintMarks();
    }
  }

  // The routine of the question or of the chosen call, its call's line, and the lines that a body ran.
  paintMarks() {
    const { dialog, source, chosen } = this.desk;
    const call = chosen >= 0 ? chosen : dialog.report?.call ?? -1;
    const routine = call < 0 ? undefined : routineOf(dialog, source.outline, call);
    const showsTrace = chosen >= 0 || dialog.report?.kind === 'found';
    const counts = showsTrace ? dialog.traces.get(call)?.counts ?? null : null;
    const parent = call > 0 && dialog.tree !== null ? dialog.traces.get(dialog.tree.parent[call]) : undefined;
    const callLine = parent === undefined ? 0 : lineOfCall(parent, call);
    const end = call >= 0 && dialog.cards.has(call) ? endOf(dialog.cards.get(call).end) : null;
    const marks = { routine: routine ?? null, counts, callLine, faultLine: end === null ? 0 : end.line };
    if (routine === undefined) {
      source.mark(marks);
      return;
    }
    byId('legend').textContent = counts === null ? `the text of ${routine.name}` : `how often ${routine.name} began each line`;
    source.mark(marks, counts === null || counts.size === 0 ? routine.from : Math.min(...counts.keys()));
  }

  // What was printed belongs to the program that ran, not to one that was changed since.
  paintOutput(isStale) {
    const { dialog } = this.desk;
    const { note, parts } = outputView(isStale ? null : dialog.cards.get(0) ?? null, dialog.entries.length > 1);
    byId('outputBox').hidden = isStale || dialog.shown === null || !dialog.cards.has(0);
    byId('outputNote').textContent = note;
    byId('output').replaceChildren(...parts);
  }
}
