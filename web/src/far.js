// Calls of the core that take long are made in a thread of their own, one at a time.
export class Far {
  // `script` is the text of the thread, `bytes` are the core.
  constructor(script, bytes) {
    Object.assign(this, { script, bytes });
    this.waiting = undefined;
  }

  // A thread of its own, for other questions.
  another() {
    return new Far(this.script, this.bytes);
  }

  start() {
    const address = URL.createObjectURL(new Blob([this.script]));
    this.thread = new Worker(address);
    this.thread.addEventListener('message', ({ data }) => this.hear(data));
    this.thread.addEventListener('error', (event) => {
      throw new Error(`the thread of the core: ${event.message}`);
    });
  }

  hear({ told }) {
    const { onTold } = this.waiting;
    this.waiting = undefined;
    onTold(told);
  }

  get isFree() {
    return this.waiting === undefined;
  }

  // Calls the core; `onTold` hears what it told.
  ask(name, wanted, onTold) {
    if (!this.thread) this.start();
    this.waiting = { onTold };
    this.thread.postMessage({ bytes: this.bytes, name, wanted });
  }

  // Forgets what is asked for.
  forget() {
    if (this.isFree) return;
    this.thread.terminate();
    this.thread = undefined;
    this.waiting = undefined;
  }
}
