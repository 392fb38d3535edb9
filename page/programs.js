// Programs and sessions: what is opened, run, saved, loaded, gone on with and printed.
import { editedFile, fileOfBytes, fileOfText } from './bytes.js';
import { byId, plural } from './dom.js';
import { bytesOfFile, download, kindOfFile } from './files.js';
import { callsInReport, reportView } from './report_view.js';
import { newSession } from './session.js';

// A program comes before what belongs to it.
const ORDER = ['program', 'input', 'session'];

export class Programs {
  // `onRun` is called once a run has shown what it asks.
  constructor(desk, { onRun }) {
    this.desk = desk;
    this.onRun = onRun;
  }

  set(name, file, input, example = null) {
    const { desk } = this;
    desk.program = { name, file, input, example };
    byId('fileName').textContent = name;
    byId('examples').value = example === null ? '' : String(desk.examples.indexOf(example));
    desk.source.text = file.text;
    byId('input').value = input.text;
    byId('inputBox').open = input.text !== '';
    desk.dialog.clear();
    desk.chosen = -1;
    this.edited();
  }

  edited() {
    const { length } = byId('input').value;
    byId('inputSize').textContent = length === 0 ? '(empty)' : `(${plural(length, 'character')})`;
    this.desk.render();
  }

  // The editor gets back what the session is about.
  putBack() {
    const { source, input, budget } = this.desk.dialog.session;
    this.desk.source.text = source.text;
    byId('input').value = input.text;
    byId('budget').value = budget;
    this.edited();
  }

  sessionOfPage(saved) {
    const { file, input, name } = this.desk.program;
    return newSession(name, editedFile(file, this.desk.source.text), editedFile(input, byId('input').value), byId('budget').value.trim(), saved);
  }

  async run(saved = null, { lines, rights } = { lines: [], rights: [] }) {
    const { desk } = this;
    if (desk.dialog.isBusy) return;
    const session = this.sessionOfPage(saved);
    session.lines = lines;
    session.rights = rights;
    desk.chosen = -1;
    desk.offer = null;
    byId('query').value = '';
    desk.showPane('question');
    await desk.dialog.run(session);
    desk.middle.scrollTo(0);
    await this.onRun();
  }

  // The editor's text, once it was changed: the answers on the text before are offered where a question reads as it did.
  async runEdited() {
    const { dialog, isEdited } = this.desk;
    if (dialog.isBusy) return;
    await this.run(isEdited && dialog.hasAnswers ? await dialog.savedForAnother() : null);
  }

  pickExample(at) {
    const example = this.desk.examples[at];
    byId('budget').value = '1000000';
    this.set(`${example.name}.pas`, fileOfText(example.source), fileOfText(example.input), example);
    return this.run();
  }

  async openFiles(files) {
    const place = (file) => ORDER.indexOf(kindOfFile(file.name));
    for (const file of [...files].sort((a, b) => place(a) - place(b))) {
      const bytes = await bytesOfFile(file);
      const kind = kindOfFile(file.name);
      const { program, source } = this.desk;
      if (kind === 'session') await this.loadSession(bytes);
      else if (kind === 'input') this.set(program.name, editedFile(program.file, source.text), fileOfBytes(bytes), program.example);
      else this.set(file.name, fileOfBytes(bytes), fileOfText(''));
    }
    if (files.some((file) => kindOfFile(file.name) === 'program')) this.desk.showPane('source');
  }

  async loadSession(bytes) {
    if (this.desk.source.text.trim() === '') {
      this.desk.tell('Open the program first, and then the answers that belong to it.');
      return;
    }
    const budget = /^\{"budget":(\d+),/.exec(new TextDecoder().decode(bytes.subarray(0, 40)));
    if (budget !== null) byId('budget').value = budget[1];
    await this.run(bytes);
  }

  async saveSession() {
    const { dialog, program } = this.desk;
    if (dialog.shown === null || dialog.isBusy) return;
    const bytes = await dialog.saved();
    if (bytes === null) this.desk.tell('The answers could not be saved.');
    else download(`${program.name.replace(/\.\w+$/, '')}.session`, bytes, 'application/json');
  }

  // `kept` is what the browser kept of a session.
  async goOnWith(kept) {
    byId('budget').value = kept.budget;
    const file = fileOfBytes(kept.source);
    this.set(kept.name, file, fileOfBytes(kept.input), this.desk.examples.find((example) => example.source === file.text) ?? null);
    this.desk.right = kept.rights.at(-1) ?? this.desk.right;
    await this.run(kept.saved, kept);
  }

  // `context` is what cards need, see cards of questions.
  async printReport(context) {
    const { dialog } = this.desk;
    if (dialog.shown === null || dialog.tree === null) return;
    await dialog.fetch(callsInReport(dialog).map((call) => ({ kind: 'show', call })));
    byId('report').replaceChildren(...reportView(dialog, context).flat(2).filter((it) => it !== null));
    for (const it of byId('report').querySelectorAll('details:not(.raw, .asRows)')) it.open = true;
    window.print();
  }
}
