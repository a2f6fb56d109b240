// Draws a scene on a canvas. Each rectangle is the printed one, moved and enlarged as the view says; its edges lie on whole
// pixels of the screen. What lies outside of the canvas is not drawn.
(function (gridlay) {
  'use strict';

  const HUES = 6;
  const FONT = 'ui-monospace, Menlo, Consolas, "DejaVu Sans Mono", monospace';
  /** The width of a letter of that font, as a part of its size. */
  const LETTER = 0.602;

  /** The colours of the page as its style sheet has them now. */
  function coloursOf(element) {
    const style = getComputedStyle(element), of = name => style.getPropertyValue(name).trim();
    const each = name => Array.from({ length: HUES }, (_, hue) => of(`--${name}${hue}`));
    return {
      page: of('--back'), ink: of('--ink'), dim: of('--dim'), changed: of('--changed'), chosen: of('--chosen'),
      viewport: of('--viewport'), viewportEdge: of('--viewport-edge'),
      fills: each('fill'), leaves: each('leaf'), edges: each('edge'),
    };
  }

  /**
   * Where the viewport is taken to drag its edges: places of the window outside of it, with the axis of each; none where
   * it is small.
   */
  function gripsOf([width, height], view) {
    const [left, top] = view.toWindow(0, 0), [right, lower] = view.toWindow(width, height), thick = 7, gap = 3;
    // of an edge that is seen in part, the middle of that part
    const along = (from, to, most) => {
      const begin = Math.max(0, from), end = Math.min(most, to), long = Math.min(36, (end - begin) / 2);
      return { begin: (begin + end - long) / 2, long };
    };
    const side = along(top, lower, view.height), foot = along(left, right, view.width);
    if (Math.min(side.long, foot.long) < 8) return [];
    return [
      { axis: 'both', left: right + gap, top: lower + gap, width: thick * 1.6, height: thick * 1.6 },
      { axis: 'width', left: right + gap, top: side.begin, width: thick, height: side.long },
      { axis: 'height', left: foot.begin, top: lower + gap, width: foot.long, height: thick },
    ];
  }

  class Drawing {
    constructor(canvas, scene, view, colours) {
      this.context = canvas.getContext('2d');
      this.scene = scene;
      this.view = view;
      this.colours = colours;
      this.scale = view.ratio;
      this.right = canvas.width;
      this.lower = canvas.height;
    }

    /** A rectangle of the page on the screen, as [left, top, width, height] in whole pixels. */
    onScreen(x, y, width, height) {
      const { zoom, left, top } = this.view, by = zoom * this.scale;
      const from = Math.round((x - left) * by), upper = Math.round((y - top) * by);
      return [from, upper, Math.round((x + width - left) * by) - from, Math.round((y + height - top) * by) - upper];
    }

    boxOnScreen(box) {
      const { x, y, width, height } = this.scene.boxes;
      return this.onScreen(x[box], y[box], width[box], height[box]);
    }

    isSeen([left, top, width, height]) {
      return left < this.right && top < this.lower && left + width >= 0 && top + height >= 0;
    }

    /** Draws all, and answers how many boxes were drawn. */
    draw({ chosen, pointed, point, isDim, hasGrips }) {
      const { context, scene, colours } = this;
      context.fillStyle = colours.page;
      context.fillRect(0, 0, this.right, this.lower);
      if (!scene) {
        this.write('no layout', this.right / 2, this.lower / 2, 14 * this.scale, colours.dim, 'center');
        return 0;
      }
      this.drawViewport();
      let drawn = 0;
      for (let box = 0; box < scene.count; box++) {
        const place = this.boxOnScreen(box);
        if (!this.isSeen(place)) continue;
        drawn++;
        this.drawBox(box, place);
      }
      if (isDim) this.veil();
      if (pointed >= 0 && pointed < scene.count) this.frame(this.boxOnScreen(pointed), colours.chosen, 1, [4, 3]);
      if (chosen >= 0 && chosen < scene.count) this.frame(this.boxOnScreen(chosen), colours.chosen, 2, [], true);
      if (point) this.cross(point);
      if (hasGrips) this.drawGrips();
      return drawn;
    }

    /** Marks a point of the page. */
    cross([x, y]) {
      const { context, scale } = this, [left, top] = this.onScreen(x, y, 0, 0), long = 7 * scale;
      context.strokeStyle = this.colours.changed;
      context.lineWidth = 2 * scale;
      context.setLineDash([]);
      context.beginPath();
      context.moveTo(left - long, top);
      context.lineTo(left + long, top);
      context.moveTo(left, top - long);
      context.lineTo(left, top + long);
      context.stroke();
    }

    drawGrips() {
      const { context, scale } = this;
      context.fillStyle = this.colours.viewportEdge;
      for (const { left, top, width, height } of gripsOf(this.scene.viewport, this.view)) {
        context.fillRect(left * scale, top * scale, width * scale, height * scale);
      }
    }

    drawViewport() {
      const { context, colours, scene: { viewport: [width, height] } } = this;
      const place = this.onScreen(0, 0, width, height);
      context.fillStyle = colours.viewport;
      context.fillRect(...place);
      this.frame(place, colours.viewportEdge, 1, [5, 4], true);
    }

    drawBox(box, place) {
      const { context, scene, colours } = this;
      const [left, top, width, height] = place, hue = scene.depth[box] % HUES, isLeaf = scene.isLeaf[box];
      context.fillStyle = (isLeaf ? colours.leaves : colours.fills)[hue];
      // (a box without a width or a height is a line)
      context.fillRect(left, top, width || 1, height || 1);
      if (width > 2 && height > 2) this.frame(place, colours.edges[hue], 1);
      if (scene.changed[box]) this.frame(place, colours.changed, width > 8 && height > 8 ? 2 : 1);
      if (width >= 12 * this.scale && height >= 7 * this.scale) {
        if (isLeaf) this.nameLeaf(box, place); else this.nameContainer(box, place);
      }
    }

    /** Draws a frame within a place, or outside of it. */
    frame([left, top, width, height], colour, thickness, dashes = [], isOutside = false) {
      const { context, scale } = this, line = Math.max(1, Math.round(thickness * scale)), by = isOutside ? -line / 2 : line / 2;
      context.strokeStyle = colour;
      context.lineWidth = line;
      context.setLineDash(dashes.map(it => it * scale));
      context.strokeRect(left + by, top + by, Math.max(0, width - 2 * by), Math.max(0, height - 2 * by));
    }

    write(text, x, y, size, colour, align) {
      const { context } = this;
      context.fillStyle = colour;
      context.font = `${size}px ${FONT}`;
      context.textAlign = align;
      context.textBaseline = 'middle';
      context.fillText(text, x, y);
    }

    /** A name within a width at a size of letters: cut short where it has to be, '' where nothing of it fits. */
    fitting(name, width, size) {
      const letters = Math.floor(width / (size * LETTER));
      if (name.length <= letters) return name;
      return letters < 2 ? '' : `${name.slice(0, letters - 1)}\u2026`;
    }

    nameLeaf(box, [left, top, width, height]) {
      const { scale } = this, name = this.scene.boxes.names[box];
      const room = width - 4 * scale;
      const size = Math.min(12 * scale, height - 1, Math.max(7 * scale, room / (name.length * LETTER)));
      if (size < 6 * scale) return;
      const text = this.fitting(name, room, size);
      this.write(text, left + width / 2, top + height / 2 + size * 0.05, size, this.colours.ink, 'center');
    }

    /** A container's name stands where no child covers it: at its upper edge, else at its lower one, else nowhere. */
    nameContainer(box, [left, top, width, height]) {
      const { scale } = this, name = this.scene.boxes.names[box];
      for (const size of [11, 9, 7]) {
        const letters = size * scale, tall = letters + scale, text = this.fitting(name, width - 6 * scale, letters);
        if (!text || tall > height) continue;
        const wide = text.length * letters * LETTER + 4 * scale;
        for (const at of [top + scale / 2, top + height - tall - scale / 2]) {
          if (!this.isFree(box, left, at, wide, tall)) continue;
          this.write(text, left + 3 * scale, at + tall / 2, letters, this.colours.dim, 'left');
          return;
        }
      }
    }

    /** Whether no child of a box stands in a place of the screen. */
    isFree(box, left, top, width, height) {
      const { scene } = this;
      for (let child = scene.firstChild[box]; child >= 0; child = scene.nextSibling[child]) {
        const [x, y, w, h] = this.boxOnScreen(child);
        if (x < left + width && x + w > left && y < top + height && y + h > top) return false;
      }
      return true;
    }

    veil() {
      const { context } = this;
      context.globalAlpha = 0.55;
      context.fillStyle = this.colours.page;
      context.fillRect(0, 0, this.right, this.lower);
      context.globalAlpha = 1;
    }
  }

  gridlay.draw = { coloursOf, gripsOf, Drawing, HUES };
})(globalThis.gridlay ??= {});
