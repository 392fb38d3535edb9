// What each button and key of the page does.
import { fileOfBytes, fileOfText } from './bytes.js';
import { byId, later } from './dom.js';
import { bytesOfFile, onDrop } from './files.js';
import { helpView } from './welcome_view.js';

function openHelp(desk) {
  const box = byId('helpBox');
  box.replaceChildren(...helpView(desk.isProved, () => box.close()).flat());
  box.showModal();
}

function openTrusted(desk) {
  openHelp(desk);
  byId('trustedTitle').focus();
}

function keysOf(desk, answers) {
  const goTo = (pane, id) => () => { desk.showPane(pane); byId(id).focus(); };
  const answer = (word) => () => answers.answer(word);
  return {
    r: answer('right'), w: answer('wrong'), d: answer('unknown'), t: answer('trust'), b: answer('back'), p: answer('refer'), a: () => answers.switchForAll(),
    '/': goTo('calls', 'query'), c: goTo('calls', 'tree'), q: goTo('question', 'middle'), s: goTo('source', 'source'), '?': () => openHelp(desk),
  };
}

const isText = (target) => target.matches('textarea, input:not([type="checkbox"]), select');

// Ctrl+Enter runs, Escape leaves a text, and the other keys are letters that are not typed into one.
function pressed(event, keys, programs) {
  if (event.key === 'Enter' && (event.ctrlKey || event.metaKey)) {
    event.preventDefault();
    byId('run').click();
    return;
  }
  if (event.key === 'Escape' && event.target.matches('textarea, input')) byId('middle').focus();
  if (event.ctrlKey || event.metaKey || event.altKey || isText(event.target) || byId('helpBox').open) return;
  const act = keys[event.key.length === 1 ? event.key.toLowerCase() : event.key];
  if (act === undefined) return;
  event.preventDefault();
  act();
}

function whenPressed(it, act) {
  it.addEventListener('click', () => { if (it.getAttribute('aria-disabled') !== 'true') act(); });
}

function connectFiles(programs) {
  byId('file').addEventListener('change', () => programs.openFiles([...byId('file').files]));
  byId('sessionFile').addEventListener('change', async () => {
    const [file] = byId('sessionFile').files;
    if (file) programs.loadSession(await bytesOfFile(file));
  });
  onDrop((files) => programs.openFiles(files));
}

// A right program comes from a file or from the clipboard.
function connectRight(answers) {
  whenPressed(byId('openRight'), () => byId('rightFile').click());
  whenPressed(byId('putAway'), () => answers.putRightAway());
  whenPressed(byId('takeRight'), () => answers.takeRight('the text that you pasted', fileOfText(byId('rightText').value)));
  byId('rightFile').addEventListener('change', async () => {
    const [file] = byId('rightFile').files;
    if (file === undefined) return;
    const bytes = await bytesOfFile(file);
    // The same file can be chosen once more, after it was mended.
    byId('rightFile').value = '';
    answers.takeRight(file.name, fileOfBytes(bytes));
  });
}

export function connect(desk, { programs, answers, finder, print }) {
  const buttons = {
    open: () => byId('file').click(), load: () => byId('sessionFile').click(), save: () => programs.saveSession(), print,
    run: () => programs.runEdited(), stop: () => desk.engine.stop(), help: () => openHelp(desk), trusted: () => openTrusted(desk),
    unfold: () => desk.tree.openAll(true), foldUp: () => desk.tree.openAll(false),
  };
  for (const [id, act] of Object.entries(buttons)) whenPressed(byId(id), act);
  for (const it of document.querySelectorAll('[data-say]')) whenPressed(it, () => answers.answer(it.dataset.say));
  for (const tab of document.querySelectorAll('.tabs button')) whenPressed(tab, () => desk.showPane(tab.dataset.pane));
  desk.examples.forEach((example, at) => byId('examples').append(new Option(example.title, at)));
  byId('examples').addEventListener('change', () => { if (byId('examples').value !== '') programs.pickExample(Number(byId('examples').value)); });
  byId('forAll').addEventListener('change', () => answers.setForAll(byId('forAll').checked));
  for (const id of ['input', 'budget']) byId(id).addEventListener('input', () => programs.edited());
  byId('query').addEventListener('input', later(120, () => finder.find()));
  byId('find').addEventListener('submit', (event) => { event.preventDefault(); finder.find(); byId('tree').focus(); });
  const keys = keysOf(desk, answers);
  document.addEventListener('keydown', (event) => pressed(event, keys, programs));
  connectFiles(programs);
  connectRight(answers);
}
