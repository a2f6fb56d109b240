// The engine of the page: `layout(text)` gives what the program prints for a text, and `hit` the box at a point of what was laid
// out last. This is the one place that knows how the engine is reached: the text goes to a worker, which keeps the document.
(function (gridlay) {
  'use strict';

  const { block } = gridlay.text;
  /** A run that has taken longer than this, in ms, is given up once a newer text waits. */
  const PATIENCE = 5000;

  async function unpacked(bytes) {
    const stream = new Blob([bytes]).stream().pipeThrough(new DecompressionStream('gzip'));
    return new Response(stream).arrayBuffer();
  }

  class Engine {
    constructor(module, source) {
      this.module = module;
      this.source = source;
      this.last = 0;
      this.running = null;
      this.waiting = null;
      /** Who waits for the box at a point, by the number that was asked with. */
      this.asked = new Map();
      /** The text that was laid out last. */
      this.text = null;
      this.worker = null;
      this.start();
    }

    /** The engine of the page; refused where the browser cannot run it. */
    static async load() {
      const source = document.getElementById('worker').textContent;
      let module;
      try {
        module = await WebAssembly.compile(await unpacked(block('engine')));
      } catch (error) {
        const why = 'This browser does not run the engine: it wants 64-bit WebAssembly, as Chromium 133 and Firefox 134 have it.';
        throw new Error(`${why} (${error.message})`, { cause: error });
      }
      return new Engine(module, source);
    }

    start() {
      this.worker?.terminate();
      this.text = null;
      for (const settle of this.asked.values()) settle(null);
      this.asked.clear();
      const address = URL.createObjectURL(new Blob([this.source], { type: 'text/javascript' }));
      this.worker = new Worker(address);
      URL.revokeObjectURL(address);
      this.worker.onmessage = ({ data }) => this.hear(data);
      this.worker.onerror = event => {
        event.preventDefault();
        this.fail(event.message || 'the worker ended');
      };
      this.worker.postMessage({ module: this.module });
    }

    /**
     * What the program prints for a text: `{ output, status, time, edits }`, or `{ trouble, time }` where it was stopped. `edits`
     * made the document that is kept what it is since it was opened; null where the text is not kept.
     * While one text is laid out, only the latest other one waits: where a text never gets its turn, its answer is null.
     */
    layout(text) {
      return new Promise(settle => {
        this.waiting?.settle(null);
        this.waiting = { text, settle };
        const { running } = this;
        if (!running) this.next();
        else running.limit ??= setTimeout(() => this.giveUp(), running.start + PATIENCE - performance.now());
      });
    }

    /**
     * The index of the last box that contains a point, in px, by the layout of a step of the text that was laid out last; -1
     * where none does, and null where the engine does not have that text.
     */
    hit(text, step, x, y) {
      if (this.running || text !== this.text) return Promise.resolve(null);
      return new Promise(settle => {
        this.asked.set(++this.last, settle);
        const [left, top] = [x, y].map(it => BigInt(Math.floor(it * 64)));
        this.worker.postMessage({ number: this.last, hit: { step, x: left, y: top } });
      });
    }

    get isBusy() {
      return this.running !== null;
    }

    next() {
      if (!this.waiting) return;
      const { text, settle } = this.waiting, input = new TextEncoder().encode(text);
      this.waiting = null;
      this.running = { number: ++this.last, text, settle, start: performance.now(), limit: null };
      this.worker.postMessage({ number: this.last, input }, [input.buffer]);
    }

    hear({ number, status, output, trouble, time, edits, box }) {
      if (this.asked.has(number)) {
        this.asked.get(number)(box);
        this.asked.delete(number);
      }
      if (this.running?.number !== number) return;
      this.text = trouble ? null : this.running.text;
      this.answer(trouble ? { trouble, time } : { status, output: new TextDecoder().decode(output), time, edits });
    }

    /** The worker itself failed: a new one takes its place. */
    fail(trouble) {
      this.start();
      if (this.running) this.answer({ trouble, time: performance.now() - this.running.start });
    }

    giveUp() {
      if (!this.waiting) return;
      this.start();
      this.answer(null);
    }

    answer(answer) {
      const { settle, limit } = this.running;
      clearTimeout(limit);
      this.running = null;
      settle(answer);
      this.next();
    }
  }

  gridlay.engine = { Engine };
})(globalThis.gridlay ??= {});
