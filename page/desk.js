// What the page holds while it is open: its parts, the program in the editor and its input, and the call that was chosen.
import { fileOfText } from './bytes.js';
import { Dialog } from './dialog.js';
import { byId } from './dom.js';
import { Engine } from './engine.js';
import { Scroller } from './scroller.js';
import { SourceView } from './source_view.js';
import { TreeView } from './tree_view.js';

export class Desk {
  // `acts` has `edited()`, `findLine(line)`, `choose(call)` and `render()`.
  constructor(packed, acts) {
    this.packed = packed;
    this.acts = acts;
    this.engine = new Engine(packed);
    this.dialog = new Dialog(this.engine, () => this.render());
    this.source = new SourceView({ onEdit: () => acts.edited(), onLine: (line) => acts.findLine(line) });
    this.tree = new TreeView(byId('tree'), { onChoose: (call) => acts.choose(call) });
    this.middle = new Scroller(byId('middle'));
    // The program in the editor, which may have been changed since it ran, and its input.
    this.program = { name: 'untitled.pas', file: fileOfText(''), input: fileOfText(''), example: null };
    this.chosen = -1;
    // The right program, which can be asked: its `name` and its `file`, or null. It stays for the next program.
    this.right = null;
    // Whether an answer to the question is for all calls that were asked the same.
    this.isForAll = false;
    // A session that the browser kept and that can be gone on with.
    this.offer = null;
  }

  get isProved() {
    return this.packed.verdict.startsWith('logic=proved ');
  }

  get examples() {
    return this.packed.examples;
  }

  render() {
    this.acts.render();
  }

  // Whether the editor, the input or the steps are not those of the session.
  get isEdited() {
    const { session } = this.dialog;
    return session !== null
      && (session.source.text !== this.source.text || session.input.text !== byId('input').value || session.budget !== byId('budget').value.trim());
  }

  tell(text) {
    this.dialog.note = text;
    this.render();
  }

  // On a narrow screen one part is seen at a time.
  showPane(pane) {
    document.body.dataset.pane = pane;
    for (const tab of document.querySelectorAll('.tabs button')) tab.setAttribute('aria-pressed', String(tab.dataset.pane === pane));
  }
}
