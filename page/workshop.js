// One worker. It does one turn at a time; what runs in it ends only with the worker.

export class Workshop {
  constructor(script) {
    // A page from a disk may start no worker from a file, so the script comes with the page.
    const address = URL.createObjectURL(new Blob([script], { type: 'text/javascript' }));
    this.worker = new Worker(address);
    this.address = address;
    this.answered = null;
    // What its instance takes.
    this.memory = 0;
    // What a worker says that can do nothing any more.
    this.broken = null;
    this.worker.onmessage = ({ data }) => this.answer(data);
    this.worker.onerror = (event) => {
      this.broken = { trap: event.message || 'the worker did not start' };
      this.answer(this.broken);
    };
  }

  answer(came) {
    URL.revokeObjectURL(this.address);
    this.memory = came.memory ?? 0;
    this.answered?.(came);
    this.answered = null;
  }

  // Comes before all turns. `module` is the compiled module, which all workers share.
  open(module) {
    this.worker.postMessage({ module });
  }

  turn(turn) {
    if (this.broken !== null) return Promise.resolve(this.broken);
    return new Promise((done) => {
      this.answered = done;
      this.worker.postMessage({ turn });
    });
  }

  // What runs gets no answer, and all its memory is given back.
  end() {
    this.worker.terminate();
    URL.revokeObjectURL(this.address);
  }
}
