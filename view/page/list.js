// A list of many rows, of which only those that are seen are in the page.
(function (gridlay) {
  'use strict';

  const SPARE = 4;

  class List {
    /** Makes the element a list: `fill(row, index)` writes what a row shows, and `choose(index)` hears of clicks. */
    constructor(element, height, fill, choose) {
      this.element = element;
      this.height = height;
      this.fill = fill;
      this.count = 0;
      this.space = gridlay.text.element('div', 'space');
      this.window = gridlay.text.element('div', 'window');
      this.space.append(this.window);
      element.replaceChildren(this.space);
      // (kept here, since asking for them makes the browser lay out the page at once)
      this.top = 0;
      this.room = 0;
      element.addEventListener('scroll', () => this.look());
      element.addEventListener('click', event => {
        const row = event.target.closest('[data-index]');
        if (row) choose(Number(row.dataset.index));
      });
      new ResizeObserver(() => this.look()).observe(element);
    }

    /** Takes note of what part of the list is seen, and fills it. */
    look() {
      this.top = this.element.scrollTop;
      this.room = this.element.clientHeight;
      this.refresh();
    }

    /** Shows as many rows as are told, each filled anew. */
    show(count) {
      this.count = count;
      this.space.style.height = `${count * this.height}px`;
      this.refresh();
    }

    /** Fills the rows that are seen; none where the list is hidden. */
    refresh() {
      if (!this.room) return;
      const first = Math.max(0, Math.floor(this.top / this.height) - SPARE);
      const end = Math.min(this.count, Math.ceil((this.top + this.room) / this.height) + SPARE);
      const rows = [];
      for (let index = first; index < end; index++) {
        const row = gridlay.text.element('div', 'row');
        row.dataset.index = index;
        row.style.height = `${this.height}px`;
        this.fill(row, index);
        rows.push(row);
      }
      this.window.style.top = `${first * this.height}px`;
      this.window.replaceChildren(...rows);
    }

    /** Scrolls as little as is needed so that a row is seen; nothing where the list is hidden. */
    reveal(index) {
      if (!this.room) return;
      const top = index * this.height;
      if (top < this.top || top + this.height > this.top + this.room) {
        this.element.scrollTop = top - (this.room - this.height) / 2;
        this.look();
      } else {
        this.refresh();
      }
    }
  }

  gridlay.list = { List };
})(globalThis.gridlay ??= {});
