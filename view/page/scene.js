// A scene: the boxes of one layout, with what the tree tells of each (its parent, its depth, its kind) and whether it changed.
(function (gridlay) {
  'use strict';

  const SAME = 0, CHANGED = 1, NEW = 2;

  class Scene {
    /** Joins the printed boxes with the nodes of the tree. `before` are the boxes of the layout before, or null. */
    constructor(boxes, tree, before) {
      const nodes = tree.nodes(), { count } = boxes;
      this.boxes = boxes;
      this.count = count;
      this.viewport = tree.viewport.map(Number.parseFloat);
      /** Whether the names that were printed are those of the tree, in its order: if not, the tree is not shown. */
      this.isTree = nodes.length === count && nodes.every((node, at) => node.name === boxes.names[at]);
      const alone = name => ({ name, kind: '', sizes: '', line: 0, children: [], parent: null });
      this.nodes = this.isTree ? nodes : boxes.names.map(alone);
      this.depth = new Uint8Array(count);
      this.parent = new Int32Array(count).fill(-1);
      this.firstChild = new Int32Array(count).fill(-1);
      this.nextSibling = new Int32Array(count).fill(-1);
      this.isLeaf = new Uint8Array(count);
      this.changed = new Uint8Array(count);
      this.changes = { changed: 0, added: 0, gone: 0 };
      /** Whether there is a layout before, so that the changes mean something. */
      this.isCompared = before !== null;
      this.relate();
      if (before) this.compare(before);
      this.extent = this.findExtent();
    }

    relate() {
      const places = new Map(this.nodes.map((node, at) => [node, at]));
      const lastChild = new Int32Array(this.count);
      for (const [at, node] of this.nodes.entries()) {
        const parent = node.parent ? places.get(node.parent) : -1;
        this.isLeaf[at] = node.kind === 'leaf' || node.kind === 'words' || !this.isTree ? 1 : 0;
        this.parent[at] = parent;
        if (parent < 0) continue;
        this.depth[at] = this.depth[parent] + 1;
        if (this.firstChild[parent] < 0) this.firstChild[parent] = at;
        else this.nextSibling[lastChild[parent]] = at;
        lastChild[parent] = at;
      }
    }

    compare(before) {
      let kept = 0;
      for (let box = 0; box < this.count; box++) {
        const old = before.places.get(this.boxes.names[box]);
        if (old === undefined) {
          this.changed[box] = NEW;
          this.changes.added++;
        } else {
          kept++;
          if (!this.boxes.isSame(box, before, old)) {
            this.changed[box] = CHANGED;
            this.changes.changed++;
          }
        }
      }
      this.changes.gone = before.count - kept;
    }

    /** The least rectangle in which the viewport and all boxes stand, as [left, top, right, bottom]. */
    findExtent() {
      const { x, y, width, height } = this.boxes;
      let left = 0, upper = 0, [right, lower] = this.viewport;
      for (let box = 0; box < this.count; box++) {
        if (x[box] < left) left = x[box];
        if (y[box] < upper) upper = y[box];
        if (x[box] + width[box] > right) right = x[box] + width[box];
        if (y[box] + height[box] > lower) lower = y[box] + height[box];
      }
      return [left, upper, right, lower];
    }

    /** The box that is seen at a point: the last in document order that holds it; -1 where there is none. */
    boxAt(pointX, pointY) {
      const { x, y, width, height } = this.boxes;
      for (let box = this.count - 1; box >= 0; box--) {
        const isWithin = pointX >= x[box] && pointX < x[box] + width[box];
        if (isWithin && pointY >= y[box] && pointY < y[box] + height[box]) return box;
      }
      return -1;
    }

    /** The sides of its parent's box beyond which a box stands, as words. */
    standsOut(box) {
      const parent = this.parent[box];
      if (parent < 0) return [];
      const { x, y, width, height } = this.boxes;
      return [
        x[box] < x[parent] && 'left',
        y[box] < y[parent] && 'top',
        x[box] + width[box] > x[parent] + width[parent] && 'right',
        y[box] + height[box] > y[parent] + height[parent] && 'bottom',
      ].filter(Boolean);
    }

    /** What a box is, in words: its kind with its sizes. */
    kindOf(box) {
      const { kind, sizes } = this.nodes[box];
      return kind === 'words' ? `words, ${Math.max(0, sizes.split(/ +/).length - 2)} of them` : `${kind} ${sizes}`.trim();
    }
  }

  gridlay.scene = { Scene, SAME, CHANGED, NEW };
})(globalThis.gridlay ??= {});
