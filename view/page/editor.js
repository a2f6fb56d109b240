// The editor: a text with the numbers of its lines, and faults underlined at their places.
(function (gridlay) {
  'use strict';

  const { element, Lines, tokenEnd } = gridlay.text;
  const LINE = 20, ABOVE = 6, BEFORE = 8;
  /** More characters than this are not taken: a text that long would keep the page from answering. */
  const LIMIT = 4194304;

  class Editor {
    /** Takes over the editor's elements of the page. `hears` are told: change(), caret(line), refused(word), file(file). */
    constructor(hears) {
      this.hears = hears;
      const part = id => document.getElementById(id);
      Object.assign(this, { area: part('text'), numbers: part('numbers'), marks: part('marks'), panel: part('faults') });
      this.faults = [];
      this.here = 0;
      this.kept = null;
      this.area.maxLength = LIMIT;
      this.letter = this.widthOfLetter();
      this.area.addEventListener('input', () => this.changed());
      this.area.addEventListener('scroll', () => this.show());
      this.area.addEventListener('paste', event => this.paste(event, event.clipboardData));
      this.area.addEventListener('drop', event => this.paste(event, event.dataTransfer));
      document.addEventListener('selectionchange', () => {
        if (document.activeElement === this.area) this.moved();
      });
      new ResizeObserver(() => this.show()).observe(this.area);
    }

    widthOfLetter() {
      const probe = element('span', '', 'x'.repeat(100));
      probe.style.cssText = 'position:absolute;visibility:hidden;padding:0';
      this.marks.append(probe);
      const width = probe.getBoundingClientRect().width / 100;
      probe.remove();
      return width;
    }

    get text() {
      return this.lines.text;
    }

    get lines() {
      this.kept ??= new Lines(this.area.value);
      return this.kept;
    }

    /** The line of the caret, counted from 1. */
    get caretLine() {
      return this.lines.lineAt(this.area.selectionStart) + 1;
    }

    changed() {
      this.kept = null;
      this.faults = [];
      this.show();
      this.hears.change();
    }

    moved() {
      const line = this.caretLine;
      if (line === this.lastLine) return;
      this.lastLine = line;
      this.hears.caret(line);
    }

    /** Takes a whole text in place of what stands here. */
    open(text) {
      this.area.value = text;
      this.area.setSelectionRange(0, 0);
      this.area.scrollTo(0, 0);
      this.lastLine = 1;
      this.changed();
    }

    /** Whether a text of so many characters is taken; if not, a word is said. */
    takes(length) {
      if (length <= LIMIT) return true;
      const [has, most] = [length, LIMIT].map(it => it.toLocaleString('en'));
      this.hears.refused(`That text has ${has} characters, and this page takes at most ${most}. The program itself takes 67,108,864 bytes.`);
      return false;
    }

    paste(event, data) {
      if (data?.files.length) {
        event.preventDefault();
        this.hears.file(data.files[0]);
        return;
      }
      const length = data?.getData('text/plain').length ?? 0;
      if (!this.takes(this.area.textLength + length)) event.preventDefault();
    }

    /** Replaces a part of the text by lines, as typing would, so that it can be undone. The caret ends up in the last of them. */
    replace(from, to, text) {
      this.area.focus({ preventScroll: true });
      this.area.setSelectionRange(from, to);
      // (the only way that the browser's own undo knows; where there is none, the text is set)
      if (!document.execCommand('insertText', false, text)) {
        this.area.setRangeText(text, from, to, 'end');
        this.changed();
      }
      const caret = from + text.length - 1;
      this.area.setSelectionRange(caret, caret);
      this.reveal(this.caretLine);
    }

    /** Marks a line as the one that is spoken of, and scrolls to it; 0 takes the mark away. */
    pointAt(line) {
      this.here = line;
      if (line) this.reveal(line); else this.show();
    }

    /** Shows faults: each with its line, column and name. */
    showFaults(faults) {
      this.faults = faults;
      this.panel.hidden = !faults.length;
      this.panel.replaceChildren(...faults.slice(0, 100).map(fault => {
        const row = element('button');
        row.append(element('b', '', `${fault.line}:${fault.column} ${fault.fault}`), gridlay.faults.meaning(fault.fault));
        row.addEventListener('click', () => this.goTo(fault.line, fault.column));
        return row;
      }));
      if (faults.length > 100) this.panel.append(element('p', '', `and ${faults.length - 100} more`));
      this.show();
    }

    /** Puts the caret at a place. */
    goTo(line, column) {
      const at = line > this.lines.count ? this.text.length : this.lines.starts[line - 1] + column - 1;
      this.area.focus({ preventScroll: true });
      this.area.setSelectionRange(at, at);
      this.reveal(line);
    }

    /** Scrolls so that a line is seen. */
    reveal(line) {
      const top = (line - 1) * LINE, { scrollTop, clientHeight } = this.area;
      const isSeen = top >= scrollTop && top + 2 * LINE <= scrollTop + clientHeight;
      if (!isSeen) this.area.scrollTop = Math.max(0, top - clientHeight / 3);
      this.show();
    }

    /** Draws the numbers of the lines that are seen, and the marks on them. */
    show() {
      const { scrollTop, scrollLeft, clientHeight } = this.area;
      const first = Math.floor(Math.max(0, scrollTop - ABOVE) / LINE), seen = Math.ceil(clientHeight / LINE) + 1;
      // (a line feed at the end begins a line for the one who writes)
      const count = Math.max(1, this.lines.count + (this.text.endsWith('\n') ? 1 : 0));
      const end = Math.min(count, first + seen);
      this.numbers.style.minWidth = `${String(count).length + 3}ch`;
      const numbers = Array.from({ length: Math.max(0, end - first) }, (_, at) => first + at + 1);
      const column = element('div', '', numbers.join('\n'));
      column.style.marginTop = `${first * LINE - scrollTop}px`;
      this.numbers.replaceChildren(column);
      const seenFaults = this.faults.filter(it => it.line > first && it.line <= end + 1).slice(0, 200);
      const marks = seenFaults.flatMap(it => this.marksOf(it));
      if (this.here > first && this.here <= end) {
        marks.unshift(Object.assign(element('span', 'here'), { line: this.here - 1, column: 0 }));
      }
      for (const mark of marks) {
        mark.style.top = `${ABOVE + mark.line * LINE - scrollTop}px`;
        mark.style.left = `${BEFORE + mark.column * this.letter - scrollLeft}px`;
      }
      this.marks.replaceChildren(...marks);
    }

    marksOf({ line, column, fault }) {
      const text = this.lines.line(line - 1), from = column - 1, end = tokenEnd(text, from);
      const place = element('span', 'place'), said = element('span', 'said', fault);
      place.style.width = `${Math.max(1, end - from) * this.letter}px`;
      Object.assign(place, { line: line - 1, column: from });
      Object.assign(said, { line: line - 1, column: Math.max(text.length, end) + 2 });
      return [place, said];
    }
  }

  gridlay.editor = { Editor, LIMIT };
})(globalThis.gridlay ??= {});
