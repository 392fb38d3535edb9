// The dialog with the command: it runs a session, says lines and asks for cards and traces. It knows nothing of the page,
// and holds nothing but the session's lines and what the command printed for them.
import { accusedOf, isAlone, markBy, suspectsOf } from './call_table.js';
import { cardOf, stateOf } from './card.js';
import { RANK } from './engine.js';
import { answersIn, entriesOf, isNews, isOnSeveral, keep, lastOnSeveral, lineOfNextRight, linesBack, rightFiles, rightOf, setAside, toldIn } from './session.js';

// No variable has this name, and no call this number; the replies tell whether the command knows the lines `state`, `carry`, `slice`,
// `alike` and `refer`.
const PROBES = [{ kind: 'state', call: 0, name: '.' }, { kind: 'carry', call: 999_999_999, onto: 0 }, { kind: 'slice', call: 999_999_999, name: '.' },
  { kind: 'alike', call: 999_999_999 }, { kind: 'refer', call: 999_999_999 }];
const isKnown = (answer) => answer.kind === 'refused' && answer.text !== 'not understood';
const TAKEN = /^(entry \d+|entries \d+ to \d+|back \d+|taken back \d+|noted \d+|reference right-\d+\.pas)$/;
const UNREAD = /^(reference refused: |not fetched )/;
const SAVED = 'page.session';
// An answer that made more entries than these, and was the last one, is forgotten where it is taken back: each line for an entry
// would be said anew in each turn.
const MOST_BACK = 1000;
// So many entries the command holds.
const MOST_ENTRIES = 100_000;
// A turn that takes no longer is asked for more than what must be.
const QUICK_MS = 2500;

export class Dialog {
  constructor(engine, onChange) {
    this.engine = engine;
    this.onChange = onChange;
    this.clear();
  }

  clear() {
    this.session = null;
    this.shown = null;
    this.tree = null;
    this.entries = [];
    this.suspects = [];
    this.problem = null;
    this.note = '';
    // What was to be a right program and is none, or null.
    this.unread = null;
    this.isBusy = false;
    this.isKept = true;
    // Whether there was an answer a turn ago.
    this.isBegun = false;
    this.knowsState = false;
    this.knowsCarry = false;
    this.knowsSlice = false;
    this.knowsAlike = false;
    this.knowsRefer = false;
    this.cost = { time: 0, memory: 0 };
    this.cards = new Map();
    this.traces = new Map();
    this.states = new Map();
    this.looks = new Map();
    this.carried = new Map();
    this.alike = new Map();
  }

  get report() {
    return this.shown === null ? null : this.shown.report;
  }

  // The calls that count as right since they had no part in a wrong output.
  get leftOut() {
    return this.tree?.leftOut ?? new Set();
  }

  // Whether there is anything that a session on a corrected program could use.
  get hasAnswers() {
    return this.shown !== null && (answersIn(this.session.lines).length > 0 || this.session.saved !== null);
  }

  get questionCall() {
    return this.report !== null && this.report.kind === 'ask' ? this.report.call : -1;
  }

  // What a run takes most of its time for is asked at once: the tree of calls too.
  async run(session) {
    this.engine.stop();
    if (this.session !== null && this.session.lines.length > 0) setAside();
    this.clear();
    this.session = session;
    const came = await this.turn(session.lines, [{ kind: 'tree' }, ...PROBES], session.lines.some(isNews));
    if (this.session !== session) return;
    if (!this.failed(came)) {
      const [tree, state, carry, slice, alike, refer] = came.answers;
      this.tree = tree.kind === 'tree' ? tree.tree : null;
      this.knowsState = isKnown(state);
      this.knowsCarry = isKnown(carry);
      this.knowsSlice = isKnown(slice);
      this.knowsAlike = isKnown(alike);
      this.knowsRefer = isKnown(refer);
      this.took(came);
    }
    this.onChange();
  }

  // Says a line, or several at once, and keeps them unless the command could not answer. `right` is the right program that they read.
  async say(said, right = null) {
    if (this.isBusy || this.shown === null) return;
    const { session } = this;
    const lines = [said].flat();
    const came = await this.turn([...session.lines, ...lines], [], lines.some(isNews));
    if (this.session !== session) return;
    if (!this.failed(came)) {
      const refused = lines.map((line, at) => came.replies[session.lines.length + at] ?? '').find((reply) => !TAKEN.test(reply));
      if (refused === undefined) session.lines = session.lines.concat(lines);
      this.note = refused ?? '';
      this.unread = UNREAD.test(this.note) ? right : null;
      if (refused === undefined) this.took(came);
    }
    this.onChange();
  }

  // Says lines by which a right program answers; it is read first where another one answers so far, or none. Whether they were taken.
  async sayBy(right, lines) {
    const { session } = this;
    if (this.isBusy || this.shown === null) return false;
    const { rights, lines: before } = session;
    const reads = right === rightOf(session) ? [] : [lineOfNextRight(session)];
    if (reads.length > 0) session.rights = [...rights, right];
    await this.say([...reads, ...lines], right);
    const isTaken = session.lines !== before;
    if (!isTaken) session.rights = rights;
    return isTaken;
  }

  // Takes back the answer of this number, with all its entries.
  async takeBack(number) {
    const { session } = this;
    const lines = linesBack(this.entries, number);
    const isLast = isOnSeveral(session.lines.at(-1) ?? '') && lastOnSeveral(this.entries) === number;
    if (lines.length <= MOST_BACK || !isLast) return this.say(lines);
    const came = await this.turn(session.lines.slice(0, -1), [], false);
    if (this.session !== session) return undefined;
    if (!this.failed(came)) {
      session.lines = session.lines.slice(0, -1);
      this.note = '';
      this.took(came);
    }
    return this.onChange();
  }

  // One turn; with `isNews`, the session is saved as well, since that tells on which calls a line made entries.
  async turn(lines, asks, isNews) {
    this.isBusy = true;
    // It runs while the page is painted.
    const answer = this.engine.line(this.turnOf(lines, asks, isNews ? SAVED : null));
    this.onChange();
    const came = await answer;
    this.isBusy = false;
    return came;
  }

  turnOf(lines, asks, save = null) {
    const { source, input, budget, saved } = this.session;
    return { source: source.bytes, input: input.bytes, budget, session: saved, files: rightFiles(this.session), lines, asks, save };
  }

  failed(came) {
    this.problem = null;
    if (came.stopped) this.problem = { kind: 'stopped' };
    else if (came.trap !== undefined) this.problem = { kind: 'trap', text: came.trap };
    else if (came.status !== 0) this.problem = { kind: 'refused', status: came.status, text: came.raw };
    return this.problem !== null;
  }

  took(came) {
    this.shown = came;
    this.cost = { time: came.time, memory: came.memory };
    if (came.saved) this.session.told = toldIn(came.saved);
    this.entries = entriesOf(this.session, came.replies, came.isRepliesOnly);
    // A variable may be called like a word for something else.
    const isChanged = ({ call, output }) => this.cards.get(call)?.left.some(({ name }) => name === output) ?? false;
    for (const entry of this.entries) if (entry.output !== undefined) entry.isVariable = isChanged(entry);
    if (this.tree !== null) markBy(this.tree, this.entries);
    this.accused = this.tree === null ? -1 : accusedOf(this.tree);
    this.suspects = this.tree === null ? [] : suspectsOf(this.tree);
    const hasAnswers = answersIn(this.session.lines).length > 0;
    if (hasAnswers || this.isBegun) this.isKept = keep(this.session);
    this.isBegun = hasAnswers;
    const { card } = came.report ?? {};
    if (card) this.cards.set(came.report.call, cardOf(card));
    if (came.program !== '') this.cards.set(0, cardOf(came.program));
    if (came.report !== null && came.report.trace !== undefined) this.traces.set(came.report.call, came.report.trace);
  }

  // Begins what each answer to the question would come to.
  thinkAhead() {
    const call = this.questionCall;
    if (call < 0) return;
    this.engine.think(this.turnOf(this.session.lines, []), [`right ${call}`, `wrong ${call}`], this.cost);
  }

  get isQuick() {
    return this.cost.time < QUICK_MS;
  }

  // Cards and traces of calls, and which were asked the same, hang on the run alone, so each is asked for once. Whether they are there.
  async fetch(asks, rank = RANK.asked) {
    const held = { show: this.cards, trace: this.traces, alike: this.alike };
    const missing = asks.filter(({ kind, call }) => !held[kind].has(call));
    if (missing.length === 0 || this.session === null) return true;
    const { session } = this;
    const came = await this.engine.ask(this.turnOf([], missing), rank);
    if (this.session !== session || came.answers === undefined) return false;
    missing.forEach((ask, at) => {
      const answer = came.answers[at];
      if (answer.kind === 'show') this.cards.set(ask.call, cardOf(answer.text));
      if (answer.kind === 'trace') this.traces.set(ask.call, answer.trace);
      if (ask.kind === 'alike') this.tookAlike(ask.call, answer);
    });
    return true;
  }

  // What is told of one call holds of all that were asked the same; where there is too much to compare, of none.
  tookAlike(asked, { calls = null }) {
    for (const call of calls !== null && calls.length <= MOST_ENTRIES ? calls : [asked]) this.alike.set(call, calls);
  }

  // What is to be fetched to know which calls were asked the same as the one that is asked about: nothing where that is known, or
  // no other call is of its routine.
  get asksAlike() {
    const call = this.questionCall;
    const isOpen = this.knowsAlike && call >= 0 && this.tree !== null && !this.alike.has(call) && !isAlone(this.tree, call);
    return isOpen ? [{ kind: 'alike', call }] : [];
  }

  // The calls that were asked the same as the one that is asked about, with that one, as far as it is known.
  get askedTheSame() {
    return this.alike.get(this.questionCall) ?? [];
  }

  // How many other calls that are, and whether there is room for an answer for all of them.
  get others() {
    return Math.max(0, this.askedTheSame.length - 1);
  }

  get canShare() {
    return this.others > 0 && this.entries.length + this.askedTheSame.length <= MOST_ENTRIES;
  }

  // What cells of this name held before and after a call, or the reply where there are none. It hangs on the run alone, too.
  async lookAt(call, name) {
    const key = `${call} ${name}`;
    if (this.states.has(key)) return this.states.get(key);
    const { session } = this;
    const came = await this.engine.ask(this.turnOf([], [{ kind: 'state', call, name }]), RANK.asked);
    if (this.session !== session || came.answers === undefined) return null;
    const [answer] = came.answers;
    const isTold = answer.kind === 'state';
    const cells = isTold ? answer.text.split('\n').map(stateOf).filter((cell) => cell !== null) : [];
    const seen = { name, cells, reply: isTold ? '' : answer.text ?? '' };
    this.states.set(key, seen);
    return seen;
  }

  // Whether a call would have done the same where another one began, once that was asked; or null.
  carryKnown(call, onto) {
    return this.carried.get(`${call} ${onto}`) ?? null;
  }

  // Asks for it, and for the card of that call where the page does not have it; null where no answer came.
  async compare(call, onto) {
    if (this.carryKnown(call, onto) !== null) return this.carryKnown(call, onto);
    const { session, cards, carried } = this;
    const show = cards.has(call) ? [] : [{ kind: 'show', call }];
    const came = await this.engine.ask(this.turnOf([], [{ kind: 'carry', call, onto }, ...show]), RANK.asked);
    if (this.session !== session || came.answers === undefined) return null;
    const [carry, shown] = came.answers;
    if (shown !== undefined && shown.kind === 'show') cards.set(call, cardOf(shown.text));
    if (carry.kind !== 'carry' || !cards.has(call)) return null;
    carried.set(`${call} ${onto}`, carry.carries);
    return carry.carries;
  }

  // What is shown of looks at a call's variables, by the place where each was asked for.
  looksAt(call) {
    if (!this.looks.has(call)) this.looks.set(call, new Map());
    return this.looks.get(call);
  }

  // The session as the command saves it.
  async saved(lines = this.session.lines) {
    const came = await this.engine.ask(this.turnOf(lines, [], SAVED), RANK.asked);
    return came.saved ?? null;
  }

  // The same for a corrected program. A call that was left out counts as right, but nobody judged it: it is asked about there.
  savedForAnother() {
    const leftOut = this.entries.filter((entry) => entry.standing && entry.leftOutBy !== undefined);
    return this.saved([...this.session.lines, ...leftOut.map((entry) => `back ${entry.number}`)]);
  }
}
