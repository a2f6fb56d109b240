// The worker in which the engine runs: a text comes, and what the program writes for it goes back. The engine is the library, so a
// document stays in it. Where only the script is another one, the edits from the first other one on are taken back, and the new
// ones are made; where a few lines of the document are other ones, edits make them so (changes.js), and else it is opened anew.
// What stops the engine is told, and it begins anew with the next text.
'use strict';

const OK = 0, ROOM = 1, NONE = 2, REFUSED = 3, MEMORY = 6;
/** After so many edits a document is opened anew, since the engine keeps each of them. */
const MOST_EDITS = 1000;
/** The statuses of the program: all done; the document refused; some edits refused. */
const DONE = 0, BAD_DOCUMENT = 2, SOME_REFUSED = 3;
const UNKNOWN_EDIT = 20;
const FAULTS = {
  1: 'bad-byte', 2: 'line-too-long', 3: 'bad-header', 4: 'bad-indent', 5: 'bad-name', 6: 'duplicate-name', 7: 'unknown-kind',
  8: 'unknown-property', 9: 'bad-value', 10: 'duplicate-property', 11: 'unsupported', 12: 'too-deep', 13: 'too-many-nodes',
  14: 'leaf-has-children', 15: 'second-root', 16: 'no-root', 20: 'unknown-edit', 21: 'unknown-name', 22: 'root', 23: 'cycle',
  24: 'bad-index', 25: 'nothing-to-undo', 26: 'nothing-to-redo',
};

/** An answer that is not due at this place. */
class Unexpected extends Error {
  constructor(call, answer) {
    super(answer === MEMORY ? 'memory was wanting' : `${call} answers ${answer}`);
    this.answer = answer;
  }
}

function want(answer, call) {
  if (answer !== OK) throw new Unexpected(call, answer);
}

/** The calls of the library, with one document, in an instance of their own. Places and sizes are BigInts there. */
class Library {
  constructor(module) {
    const lacking = name => () => { throw new Error(`the engine calls ${name}, which this page does not have`); };
    const called = WebAssembly.Module.imports(module).filter(it => it.kind === 'function');
    const env = Object.fromEntries(called.map(({ name }) => [name, lacking(name)]));
    this.calls = new WebAssembly.Instance(module, { env }).exports;
    this.page = this.room(16);
    this.fault = this.room(16);
    this.count = this.room(16);
    this.input = { place: this.room(1024), size: 1024 };
    this.output = { place: this.room(1 << 16), size: 1 << 16 };
    // (a document that is not there is zeros)
    this.bytes(this.page, 16).fill(0);
  }

  room(size) {
    const place = this.calls.take_room(BigInt(size));
    if (!place) throw new Unexpected('take_room', MEMORY);
    return place;
  }

  bytes(place, size) {
    return new Uint8Array(this.calls.memory.buffer, Number(place), size);
  }

  number(place) {
    return Number(new DataView(this.calls.memory.buffer).getBigUint64(Number(place), true));
  }

  /** A room of at least this size, in the place of a smaller one. */
  grow(room, size) {
    if (size <= room.size) return;
    this.calls.give_room(room.place);
    room.place = 0n;
    room.place = this.room(2 * size);
    room.size = 2 * size;
  }

  /** Puts a text where calls read it; gives its place and its size. */
  put(bytes) {
    this.grow(this.input, bytes.length);
    this.bytes(this.input.place, bytes.length).set(bytes);
    return [this.input.place, BigInt(bytes.length)];
  }

  /** Makes a call that writes a text, in a larger room where it is too long for this one; gives the answer and the text. */
  write(call) {
    let answer = call(this.output.place, BigInt(this.output.size), this.count);
    if (answer === ROOM) {
      this.grow(this.output, this.number(this.count));
      answer = call(this.output.place, BigInt(this.output.size), this.count);
    }
    return { answer, text: () => this.bytes(this.output.place, this.number(this.count)).slice() };
  }

  told(answer) {
    const view = new DataView(this.calls.memory.buffer, Number(this.fault), 12);
    return { answer, line: view.getUint32(0, true), column: view.getUint32(4, true), fault: view.getUint8(8) };
  }

  open(bytes) {
    return this.told(this.calls.gridlay_open(this.page, ...this.put(bytes), this.fault));
  }

  edit(bytes) {
    return this.told(this.calls.gridlay_edit(this.page, ...this.put(bytes), this.fault));
  }

  layout() {
    want(this.calls.gridlay_layout(this.page, this.count), 'gridlay_layout');
  }

  /** The boxes, below a line `layout 0`. */
  print() {
    const { answer, text } = this.write((...room) => this.calls.gridlay_print(this.page, ...room));
    want(answer, 'gridlay_print');
    return text();
  }

  /** The index of the box at a point, in units; -1 where none is. */
  hit(x, y) {
    const answer = this.calls.gridlay_hit(this.page, x, y, this.count);
    if (answer === NONE) return -1;
    want(answer, 'gridlay_hit');
    return this.number(this.count);
  }

  name(index) {
    const { answer, text } = this.write((...room) => this.calls.gridlay_name(this.page, BigInt(index), ...room));
    want(answer, 'gridlay_name');
    return String.fromCharCode(...text());
  }

  /** What the program answers to an input. */
  answer(bytes) {
    const input = this.put(bytes), { answer, text } = this.write((...room) => this.calls.gridlay_answer(...input, ...room));
    return { status: answer, output: answer === MEMORY ? new Uint8Array() : text() };
  }
}

const ASCII = new TextEncoder(), LETTERS = new TextDecoder('latin1');
/** Edits whose taking back would not leave what stood before them. */
const MOVES = /^ *(undo|redo)(?![\w-])/;
const HIT = /^ *hit +([+-]?[\d.]+)(?:px)? +([+-]?[\d.]+)(?:px)? *(?:#.*)?$/;

/** A text in two, with a letter for each byte: its document, and the lines of its script that are edits. */
function parted(input) {
  const text = LETTERS.decode(input), found = /(?:^|\n)---(?=\n|$)/.exec(text);
  const end = found ? found.index + found[0].length - 3 : text.length, document = text.slice(0, end);
  const script = [];
  if (found) {
    let line = document.split('\n').length;
    for (const edit of text.slice(end + 4).split('\n')) {
      line++;
      const isSkipped = /^[ -~]*$/.test(edit) && edit.length <= 65536 && /^ *(#|$)/.test(edit);
      if (!isSkipped) script.push({ text: edit, line });
    }
  }
  return { document, size: end, script };
}

/** A number of px with at most six decimals that count, in units, truncated toward zero. */
function units(px) {
  const [whole, decimals = ''] = px.split('.');
  return BigInt(Math.trunc(Number(`${whole || 0}.${decimals.slice(0, 6) || 0}`) * 64));
}

function joined(pieces) {
  const all = new Uint8Array(pieces.reduce((sum, it) => sum + it.length, 0));
  let at = 0;
  for (const piece of pieces) {
    all.set(piece, at);
    at += piece.length;
  }
  return all;
}

/** The document that stays in the engine, what was made of it, and what was written for that. */
class Kept {
  constructor(module) {
    this.library = new Library(module);
    this.document = null;
    /** The boxes of the document before its script, and how many edits made it what it is. */
    this.first = null;
    this.count = 0;
    /** The edits in their order: `{ text, boxes }`, `{ text, fault, column }` or `{ text, name }` of a hit. */
    this.edits = [];
    this.isLaid = false;
    /** Whether the text that came last is answered from here. */
    this.isShown = false;
  }

  /** What the program writes for an input, and its status. */
  lay(input) {
    const { document, size, script } = parted(input);
    this.isShown = false;
    if (script.some(it => MOVES.test(it.text))) return { ...this.library.answer(input), edits: null };
    // (where a document is refused, the one that is kept stays: the text is mended soon)
    const refusal = this.take(document, input.subarray(0, size));
    if (refusal) return { status: BAD_DOCUMENT, output: ASCII.encode(refusal), edits: null };
    this.isShown = true;
    let same = 0;
    while (same < Math.min(this.edits.length, script.length) && this.edits[same].text === script[same].text) same++;
    this.takeBack(same);
    for (const { text } of script.slice(same)) this.edits.push({ text, ...this.make(text) });
    return { ...this.written(script), edits: this.count };
  }

  /** Makes a document the one that is kept; answers what is written where it is refused, and else nothing. */
  take(document, bytes) {
    return document === this.document || this.change(document) ? '' : this.open(document, bytes);
  }

  /** Makes the kept document another one by edits; answers whether it could. */
  change(document) {
    const edits = this.document === null || this.count > MOST_EDITS ? null : editsBetween(this.document, document);
    if (!edits) return false;
    if (edits.length) this.takeBack(0);
    for (const [at, edit] of edits.entries()) {
      const { answer } = this.library.edit(ASCII.encode(edit));
      if (answer === REFUSED) {
        if (at) this.move(`undo ${at}`);
        return false;
      }
      want(answer, edit);
    }
    if (edits.length) this.first = this.laidOut();
    this.count += edits.length;
    this.document = document;
    return true;
  }

  open(document, bytes) {
    const { answer, line, column, fault } = this.library.open(bytes);
    if (answer === REFUSED) return `refused 0 ${line}:${column} ${FAULTS[fault]}\n`;
    want(answer, 'gridlay_open');
    this.edits = [];
    this.count = 0;
    this.first = this.laidOut();
    this.document = document;
    return '';
  }

  laidOut() {
    this.library.layout();
    this.isLaid = true;
    return this.library.print();
  }

  /** Makes an edit, and gives what comes of it. */
  make(text) {
    const { answer, fault, column } = this.library.edit(Uint8Array.from(text, it => it.charCodeAt(0)));
    if (answer === REFUSED) {
      const point = fault === UNKNOWN_EDIT && HIT.exec(text);
      return point ? { name: this.nameAt(units(point[1]), units(point[2])) } : { fault, column };
    }
    want(answer, 'gridlay_edit');
    return { boxes: this.laidOut() };
  }

  nameAt(x, y) {
    if (!this.isLaid) this.laidOut();
    const index = this.library.hit(x, y);
    return index < 0 ? '-' : this.library.name(index);
  }

  /** Takes the edits back that stand behind the first ones, so many. */
  takeBack(count) {
    const made = this.edits.slice(count).filter(it => it.boxes).length;
    this.edits.length = count;
    if (made) this.move(`undo ${made}`);
  }

  move(line) {
    want(this.library.edit(ASCII.encode(line)).answer, line);
    this.isLaid = false;
  }

  written(script) {
    const pieces = [this.first];
    let status = DONE;
    this.edits.forEach(({ boxes, name, fault, column }, at) => {
      if (boxes) {
        pieces.push(ASCII.encode(`layout ${at + 1}\n`), boxes.subarray(boxes.indexOf(10) + 1));
      } else if (name) {
        pieces.push(ASCII.encode(`hit ${at + 1} ${name}\n`));
      } else {
        pieces.push(ASCII.encode(`refused ${at + 1} ${script[at].line}:${column} ${FAULTS[fault]}\n`));
        status = SOME_REFUSED;
      }
    });
    return { status, output: joined(pieces) };
  }

  /** The index of the box at a point after so many edits; null where that text is not kept. */
  hitAfter(count, x, y) {
    if (!this.isShown) return null;
    const made = this.edits.slice(count).filter(it => it.boxes).length;
    if (made) this.move(`undo ${made}`);
    if (!this.isLaid) this.laidOut();
    const index = this.library.hit(x, y);
    if (made) this.move(`redo ${made}`);
    return index;
  }
}

let module = null, kept = null;

/** Does something with the engine, and gives what comes of it or what stopped it; then the next call has a new one. */
function tried(does) {
  try {
    kept ??= new Kept(module);
    return does(kept);
  } catch (error) {
    kept = null;
    if (error instanceof Unexpected && error.answer === MEMORY) return { status: MEMORY, output: new Uint8Array() };
    return { trouble: error instanceof RangeError ? 'it ran out of stack or of memory' : error.message };
  }
}

globalThis.onmessage = ({ data }) => {
  if (data.module) {
    module = data.module;
    kept = null;
  } else if (data.hit) {
    const { step, x, y } = data.hit, box = tried(it => it.hitAfter(step, x, y));
    postMessage({ number: data.number, box: typeof box === 'number' ? box : null });
  } else {
    const start = performance.now(), answer = tried(it => it.lay(data.input)), time = performance.now() - start;
    postMessage({ number: data.number, ...answer, time }, answer.output ? [answer.output.buffer] : []);
  }
};
