// The stage: the canvas on which a scene is drawn, which part of the page is seen on it, and when it is drawn anew.
(function (gridlay) {
  'use strict';

  const { Drawing, coloursOf } = gridlay.draw, { View } = gridlay.view;

  class Stage {
    /**
     * Takes over a canvas; `zoom` is the element that tells how large it shows the page. `content()` gives what is to be
     * drawn: a scene, or null, and what is marked in it. `hear()` is told of each picture that was drawn.
     */
    constructor(canvas, zoom, content, hear) {
      Object.assign(this, { canvas, zoom, content, hear });
      this.view = new View();
      this.frame = null;
      /** How many boxes stand in the picture. */
      this.drawn = 0;
      matchMedia('(prefers-color-scheme: dark)').addEventListener('change', () => {
        this.takeColours();
        this.draw();
      });
      new ResizeObserver(() => this.resize()).observe(canvas.parentElement);
      this.takeColours();
    }

    takeColours() {
      this.colours = coloursOf(document.documentElement);
    }

    /** Takes the size that the window has now. */
    resize() {
      const { canvas } = this, { clientWidth, clientHeight } = canvas.parentElement;
      const ratio = globalThis.devicePixelRatio || 1;
      if (!clientWidth || !clientHeight) return;
      Object.assign(this.view, { width: clientWidth, height: clientHeight, ratio });
      canvas.width = Math.round(clientWidth * ratio);
      canvas.height = Math.round(clientHeight * ratio);
      const { scene } = this.content();
      if (scene) this.view.fit(scene.extent);
      this.draw(true);
    }

    /** Draws at the next frame, so that many changes make one picture; or at once. */
    draw(isAtOnce = false) {
      if (!isAtOnce) {
        this.frame ??= requestAnimationFrame(() => this.draw(true));
        return;
      }
      if (this.frame) cancelAnimationFrame(this.frame);
      this.frame = null;
      const { scene, ...marks } = this.content(), percent = this.view.zoom * 100;
      this.drawn = new Drawing(this.canvas, scene, this.view, this.colours).draw(marks);
      this.zoom.textContent = `${percent < 10 ? percent.toFixed(1) : Math.round(percent)}%`;
      this.hear();
    }

    enlarge(factor, x, y) {
      this.view.enlarge(factor, x, y);
      this.draw();
    }

    /** Shows the page so that a px of it is one of the window. */
    showActual() {
      this.enlarge(1 / this.view.zoom);
    }

    /** Moves by pixels of the window. */
    move(dx, dy) {
      this.view.move(dx, dy, this.content().scene.extent);
      this.draw();
    }

    /** Fits the scene into the window: 'whole' or 'wide'. */
    fit(mode) {
      const { scene } = this.content();
      if (!scene) return;
      this.view.mode = mode;
      this.view.fit(scene.extent);
      this.draw();
    }
  }

  gridlay.stage = { Stage };
})(globalThis.gridlay ??= {});
