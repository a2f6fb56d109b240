// What the program printed: layouts, refusals and hits in their order, and the boxes of a layout.
(function (gridlay) {
  'use strict';

  /** The first places of all lines that begin with a word. */
  function placesOf(text, word) {
    const found = text.startsWith(word) ? [0] : [];
    for (let at = text.indexOf(`\n${word}`); at >= 0; at = text.indexOf(`\n${word}`, at + 1)) found.push(at + 1);
    return found;
  }

  function lineFrom(text, start) {
    const end = text.indexOf('\n', start);
    return text.slice(start, end < 0 ? text.length : end);
  }

  /** What follows the number in a line that answers, by the line's words; null where the line is a box. */
  const ANSWERS = {
    layout: words => words.length === 2 ? {} : null,
    refused: words => {
      if (words.length !== 4) return null;
      const [line, column] = words[2].split(':').map(Number);
      return { line, column, fault: words[3] };
    },
    hit: words => words.length === 3 ? { name: words[2] } : null,
  };

  class Printed {
    /**
     * Finds the answers in a printed text. A box may have any name, so lines are told apart by their numbers of words.
     * Where `isCut`, the text was cut off somewhere, and its last answer is left out.
     */
    constructor(text, isCut = false) {
      this.text = text;
      /** For each layout, refusal and hit its kind and number; where its boxes stand, its fault, or the name that was hit. */
      this.answers = [];
      const places = Object.keys(ANSWERS).flatMap(it => placesOf(text, `${it} `)).sort((a, b) => a - b);
      for (const start of places) {
        const line = lineFrom(text, start), words = line.split(' '), [kind] = words, more = ANSWERS[kind](words);
        if (!more) continue;
        if (this.answers.length) this.answers.at(-1).end = start;
        this.answers.push({ kind, number: Number(words[1]), ...more, start: start + line.length + 1, end: text.length });
      }
      if (isCut) this.answers.pop();
      this.kept = new Map();
    }

    /** Whether the document itself was refused, or nothing was printed. */
    get hasNoLayout() {
      return this.answers[0]?.kind !== 'layout';
    }

    /** The boxes of an answer that is a layout. The last few that were asked for are kept. */
    boxes(index) {
      let boxes = this.kept.get(index);
      this.kept.delete(index);
      boxes ??= new Boxes(this.text.slice(this.answers[index].start, this.answers[index].end));
      this.kept.set(index, boxes);
      if (this.kept.size > 6) this.kept.delete(this.kept.keys().next().value);
      return boxes;
    }
  }

  const SPACE = 32, POINT = 46, MINUS = 45, ZERO = 48;

  /** The boxes of a layout in their order: names, numbers, and the numbers as they were printed. */
  class Boxes {
    constructor(text) {
      const starts = [];
      for (let at = 0; at < text.length; at = text.indexOf('\n', at) + 1 || text.length) {
        // (a line of counts is no box)
        if (!text.startsWith('stats ', at) || lineFrom(text, at).split(' ').length === 5) starts.push(at);
      }
      this.text = text;
      this.starts = starts;
      this.count = starts.length;
      this.names = new Array(this.count);
      this.places = new Map();
      for (const part of ['x', 'y', 'width', 'height']) this[part] = new Float64Array(this.count);
      for (let box = 0; box < this.count; box++) this.read(box);
    }

    read(box) {
      const start = this.starts[box], end = this.text.indexOf(' ', start);
      this.names[box] = this.text.slice(start, end);
      this.places.set(this.names[box], box);
      this.at = end;
      this.x[box] = this.number();
      this.y[box] = this.number();
      this.width[box] = this.number();
      this.height[box] = this.number();
    }

    /** The number behind the space at `at`: of at most six decimals and whole in units of 1/64, so that it is read exactly. */
    number() {
      const { text } = this, isNegative = text.charCodeAt(this.at + 1) === MINUS;
      let at = this.at + (isNegative ? 2 : 1), whole = 0, divisor = 0;
      for (; at < text.length; at++) {
        const code = text.charCodeAt(at);
        if (code === POINT) {
          divisor = 1;
        } else if (code > SPACE) {
          whole = whole * 10 + code - ZERO;
          divisor *= 10;
        } else {
          break;
        }
      }
      this.at = at;
      const number = divisor ? whole / divisor : whole;
      return isNegative ? -number : number;
    }

    /** The numbers of a box as they were printed: x, y, width and height. */
    printed(box) {
      return lineFrom(this.text, this.starts[box]).split(' ').slice(1);
    }

    /** Whether a box of this layout and one of another have the same numbers. */
    isSame(box, other, otherBox) {
      return this.x[box] === other.x[otherBox] && this.y[box] === other.y[otherBox]
        && this.width[box] === other.width[otherBox] && this.height[box] === other.height[otherBox];
    }
  }

  gridlay.printed = { Printed, Boxes };
})(globalThis.gridlay ??= {});
