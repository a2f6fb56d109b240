// Which part of the page is seen, and how large.
(function (gridlay) {
  'use strict';

  const LEAST = 0.002, MOST = 64, MARGIN = 20, MOST_BY_ITSELF = 3;

  class View {
    constructor() {
      /** Pixels of the window for a px of the page. */
      this.zoom = 1;
      /** Pixels of the screen for one of the window. */
      this.ratio = 1;
      /** The place of the page that stands in the upper left corner of the window. */
      this.left = 0;
      this.top = 0;
      this.width = 1;
      this.height = 1;
      /** 'self', 'whole', 'wide': fitted by itself or as asked, also when page or window change; 'free': moved by hand. */
      this.mode = 'self';
    }

    /** Fits an extent, [left, top, right, bottom], into the window, as the mode says. */
    fit([left, upper, right, lower]) {
      if (this.mode === 'free') return;
      const pageWidth = Math.max(1, right - left), pageHeight = Math.max(1, lower - upper);
      const wide = (this.width - 2 * MARGIN) / pageWidth, whole = Math.min(wide, (this.height - 2 * MARGIN) / pageHeight);
      const isTall = whole < wide / 4;
      const zoom = this.mode === 'wide' || (this.mode === 'self' && isTall) ? wide : whole;
      this.zoom = Math.min(MOST, Math.max(LEAST, this.mode === 'self' ? Math.min(zoom, MOST_BY_ITSELF) : zoom));
      this.left = left - Math.max(MARGIN / this.zoom, (this.width / this.zoom - pageWidth) / 2);
      this.top = upper - MARGIN / this.zoom;
    }

    /** Enlarges by a factor, so that a place of the window stays where it is. */
    enlarge(factor, x = this.width / 2, y = this.height / 2) {
      const [pageX, pageY] = this.toPage(x, y);
      this.mode = 'free';
      this.zoom = Math.min(MOST, Math.max(LEAST, this.zoom * factor));
      this.left = pageX - x / this.zoom;
      this.top = pageY - y / this.zoom;
    }

    /** Moves by pixels of the window; something of the extent stays in sight. */
    move(dx, dy, [left, upper, right, lower]) {
      const keep = 40 / this.zoom;
      this.mode = 'free';
      this.left = Math.min(right - keep, Math.max(left + keep - this.width / this.zoom, this.left - dx / this.zoom));
      this.top = Math.min(lower - keep, Math.max(upper + keep - this.height / this.zoom, this.top - dy / this.zoom));
    }

    toPage(x, y) {
      return [x / this.zoom + this.left, y / this.zoom + this.top];
    }

    toWindow(pageX, pageY) {
      return [(pageX - this.left) * this.zoom, (pageY - this.top) * this.zoom];
    }

    /** Moves as little as is needed so that a rectangle of the page is seen. */
    reveal(x, y, width, height) {
      const [left, top] = this.toWindow(x, y), room = [this.width / this.zoom, this.height / this.zoom];
      if (!isInSight(left, width * this.zoom, this.width)) {
        this.mode = 'free';
        this.left = x + (width - room[0]) / 2;
      }
      if (!isInSight(top, height * this.zoom, this.height)) {
        this.mode = 'free';
        this.top = y + Math.min(height / 2, room[1] / 3) - room[1] / 2;
      }
    }
  }

  /** Whether a length is seen in a room: all of it, or some where it does not fit. */
  function isInSight(from, long, room) {
    return long > room ? from < room && from + long > 0 : from >= 0 && from + long <= room;
  }

  gridlay.view = { View };
})(globalThis.gridlay ??= {});
