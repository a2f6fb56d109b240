// What stands beside the picture: the lists of boxes, of layouts and of the lines of the source, one of them shown at a time.
(function (gridlay) {
  'use strict';

  const { List } = gridlay.list, { fillBox, fillStep, fillLine } = gridlay.rows;
  /** The height of a row of a list, as the style sheet has it. */
  const ROW = 20;

  class Side {
    /** Takes over the viewer's lists and their tabs. */
    constructor(viewer) {
      const { boxes, layouts, source } = viewer.part;
      this.viewer = viewer;
      this.lists = {
        boxes: new List(boxes, ROW, (row, box) => fillBox(viewer, row, box), box => viewer.choose(box, true)),
        layouts: new List(layouts, ROW, (row, step) => fillStep(viewer, row, step), step => viewer.go(step)),
        source: new List(source, ROW, (row, index) => fillLine(viewer, row, index), index => viewer.chooseLine(index + 1)),
      };
      const boxOf = event => Number(event.target.closest('[data-index]')?.dataset.index ?? -1);
      boxes.addEventListener('pointermove', event => viewer.pointAt(boxOf(event)));
      boxes.addEventListener('pointerleave', () => viewer.pointAt(-1));
      for (const name of Object.keys(this.lists)) {
        viewer.part[`tab-${name}`].addEventListener('click', () => this.showTab(name));
      }
      this.showTab('boxes');
    }

    showTab(shown) {
      const { part, run, step, chosen } = this.viewer;
      for (const name of Object.keys(this.lists)) {
        part[name].hidden = name !== shown;
        part[`tab-${name}`].setAttribute('aria-selected', String(name === shown));
      }
      this.lists[shown].look();
      if (!run) return;
      if (shown === 'source') this.markSource();
      else this.lists[shown].reveal(shown === 'layouts' ? step : Math.max(0, chosen));
    }

    /** Lists the layouts and the lines of a run. */
    open(run) {
      this.lists.layouts.show(run.steps);
      this.lists.source.show(run.lines.count);
    }

    /** Marks the chosen box, and scrolls to it. */
    markBox() {
      const { chosen } = this.viewer;
      if (chosen >= 0) this.lists.boxes.reveal(chosen);
      else this.lists.boxes.refresh();
    }

    /** Marks the box under the pointer. */
    markPointed() {
      const { part, pointed } = this.viewer;
      for (const row of part.boxes.querySelectorAll('.row')) {
        row.classList.toggle('pointed', Number(row.dataset.index) === pointed);
      }
    }

    /** Marks the line of the source that is in question, and scrolls to it. */
    markSource() {
      const line = this.viewer.lineInQuestion();
      if (line) this.lists.source.reveal(line - 1);
      else this.lists.source.refresh();
    }
  }

  gridlay.side = { Side };
})(globalThis.gridlay ??= {});
