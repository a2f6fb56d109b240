// A run: a text, what was printed for it, and for each step of it the boxes with their tree. A step is an answer: a layout,
// a refusal or a hit.
(function (gridlay) {
  'use strict';

  const { Lines } = gridlay.text, { Document } = gridlay.document, { Tree } = gridlay.tree;
  const { Printed } = gridlay.printed, { Scene } = gridlay.scene;

  class Run {
    /**
     * `output` is what was printed for `text`. Where `isBytes`, both have a character for each byte, else `text` is what
     * was typed. Where `isCut`, more was printed than `output` has. `status` is that of the program.
     */
    constructor({ text, output, status, isBytes = false, isCut = false }) {
      this.lines = new Lines(text);
      this.document = new Document(this.lines);
      this.printed = new Printed(output, isCut);
      this.status = status;
      this.refusals = this.printed.answers.filter(it => it.kind === 'refused');
      this.refusedLines = new Map(this.refusals.map(it => [it.line, it]));
      this.isBytes = isBytes;
      this.isCut = isCut;
      this.tree = null;
      this.applied = [];
    }

    get steps() {
      return this.printed.answers.length;
    }

    /** Whether the document was refused, or there is no layout of it for another reason. */
    get hasNoLayout() {
      return this.printed.hasNoLayout;
    }

    /** The step of the layout that stands after a step: its own, or the last before it; -1 without one. */
    layoutAt(step) {
      let at = Math.min(step, this.steps - 1);
      while (at >= 0 && this.printed.answers[at].kind !== 'layout') at--;
      return at;
    }

    /** The line of the script that a step answers: its text and its number. Nothing for the document. */
    editAt(step) {
      return this.document.edits[this.printed.answers[step].number - 1];
    }

    /** The edits that made the document of a step, in their order, without those that were undone. */
    editsAt(step) {
      const past = [], future = [];
      const take = (from, to, count) => {
        for (let left = Number(count); left > 0 && from.length; left--) to.push(from.pop());
      };
      for (let at = 1; at <= step; at++) {
        const edit = this.editAt(at);
        if (!edit || this.printed.answers[at].kind !== 'layout') continue;
        const [word, count] = edit.text.split(/ +/);
        if (word === 'undo') {
          take(past, future, count);
        } else if (word === 'redo') {
          take(future, past, count);
        } else {
          past.push(edit);
          future.length = 0;
        }
      }
      return past;
    }

    /** The tree after a step. */
    treeAt(step) {
      const edits = this.editsAt(step);
      if (!this.tree || !this.applied.every((it, at) => it === edits[at])) {
        this.tree = new Tree(this.document);
        this.applied = [];
      }
      for (const edit of edits.slice(this.applied.length)) this.tree.apply(edit);
      this.applied = edits;
      return this.tree;
    }

    /** What is to be drawn at a step: null without a layout. The first layout is compared with `before`, if it is given. */
    sceneAt(step, before = null) {
      const at = this.layoutAt(step);
      if (at < 0) return null;
      const earlier = this.layoutAt(at - 1), isItsOwn = at === step;
      const old = !isItsOwn ? null : earlier >= 0 ? this.printed.boxes(earlier) : before;
      return new Scene(this.printed.boxes(at), this.treeAt(at), old);
    }

    /** A line of the text as it can be seen; `index` counts from 0. */
    shownLine(index) {
      const line = this.lines.line(index);
      return this.isBytes ? gridlay.text.visibleBytes(line) : gridlay.text.visible(line);
    }

    /** A line in three parts: before the token at a place, the token, after it. `line` and `column` count from 1. */
    markedLine(line, column) {
      const text = this.lines.line(line - 1), from = column - 1, end = gridlay.text.tokenEnd(text, from);
      const shown = this.isBytes ? gridlay.text.visibleBytes : gridlay.text.visible;
      return [text.slice(0, from), text.slice(from, end), text.slice(end)].map(shown);
    }
  }

  gridlay.run = { Run };
})(globalThis.gridlay ??= {});
