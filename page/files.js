// Files that come from the reader's disk and go there.

export async function bytesOfFile(file) {
  return new Uint8Array(await file.arrayBuffer());
}

// What a file is by its name: a session, an input, or a program.
export function kindOfFile(name) {
  if (/\.(session|json)$/i.test(name)) return 'session';
  return /\.(input|in|txt|dat)$/i.test(name) ? 'input' : 'program';
}

export function download(name, bytes, type) {
  const link = document.createElement('a');
  link.href = URL.createObjectURL(new Blob([bytes], { type }));
  link.download = name;
  link.click();
  setTimeout(() => URL.revokeObjectURL(link.href), 10_000);
}

// Files that are dropped anywhere on the page.
export function onDrop(act) {
  const over = (isOver) => document.body.classList.toggle('drop', isOver);
  document.addEventListener('dragover', (event) => { event.preventDefault(); over(true); });
  document.addEventListener('dragleave', () => over(false));
  document.addEventListener('drop', (event) => {
    event.preventDefault();
    over(false);
    act([...event.dataTransfer.files]);
  });
}
