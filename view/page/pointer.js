// The pointer over the picture: what it points at, choosing, moving, zooming, and dragging edges where the page can lay
// out anew.
(function (gridlay) {
  'use strict';

  const { describe } = gridlay.caption;
  /** How near to an edge, in pixels of the window, it is taken. */
  const NEAR = 5;
  /** Edges of boxes that are seen smaller than this are not taken, unless the box is chosen. */
  const LEAST = 10;
  /** A press that moves less is a click. */
  const STILL = 4;

  class Pointer {
    constructor(viewer) {
      this.viewer = viewer;
      this.canvas = viewer.part.canvas;
      this.pressed = null;
      const on = (kind, hear) => this.canvas.addEventListener(kind, hear);
      on('pointerdown', event => this.press(event));
      on('pointermove', event => this.move(event));
      on('pointerup', event => this.release(event));
      on('pointercancel', event => this.release(event));
      on('pointerleave', () => this.leave());
      this.canvas.addEventListener('wheel', event => this.wheel(event), { passive: false });
    }

    placeOf(event) {
      const { left, top } = this.canvas.getBoundingClientRect();
      return [event.clientX - left, event.clientY - top];
    }

    press(event) {
      if (event.button !== 0 || !this.viewer.scene) return;
      const [x, y] = this.placeOf(event);
      this.canvas.setPointerCapture(event.pointerId);
      this.canvas.focus({ preventScroll: true });
      this.pressed = { x, y, lastX: x, lastY: y, isMoved: false, edge: this.edgeAt(x, y) };
      if (this.pressed.edge) this.viewer.hears.drag.begin(this.pressed.edge, ...this.viewer.stage.view.toPage(x, y));
    }

    move(event) {
      const [x, y] = this.placeOf(event), { viewer, pressed } = this;
      if (!viewer.scene) return;
      if (!pressed) {
        const edge = this.edgeAt(x, y);
        this.canvas.style.cursor = edge ? { width: 'ew-resize', height: 'ns-resize', both: 'nwse-resize' }[edge.axis] : '';
        this.pointAt(x, y);
        return;
      }
      if (Math.hypot(x - pressed.x, y - pressed.y) >= STILL) pressed.isMoved = true;
      if (!pressed.isMoved) return;
      if (pressed.edge) {
        viewer.hears.drag.to(...viewer.stage.view.toPage(x, y));
      } else {
        viewer.stage.move(x - pressed.lastX, y - pressed.lastY);
        Object.assign(pressed, { lastX: x, lastY: y });
      }
      viewer.part.tip.hidden = true;
    }

    release(event) {
      const { viewer, pressed } = this;
      this.pressed = null;
      if (!pressed) return;
      if (pressed.edge) viewer.hears.drag.end(pressed.isMoved && event.type === 'pointerup');
      if (!pressed.isMoved && event.type === 'pointerup') this.chooseAt(pressed.x, pressed.y);
    }

    /** Chooses the box at a place of the window: the engine's, where there is one, and else that of the picture. */
    async chooseAt(x, y) {
      const { viewer } = this, { scene } = viewer;
      const box = await viewer.hears.hit?.(...viewer.stage.view.toPage(x, y)) ?? this.boxAt(x, y);
      if (viewer.scene === scene) viewer.choose(box);
    }

    /** Lets go of an edge, as if it had never been taken; answers whether one was. */
    cancel() {
      const { pressed } = this;
      this.pressed = null;
      if (pressed?.edge) this.viewer.hears.drag.end(false);
      return Boolean(pressed?.edge);
    }

    leave() {
      this.viewer.part.tip.hidden = true;
      this.viewer.pointAt(-1);
    }

    wheel(event) {
      const { viewer } = this;
      if (!viewer.scene) return;
      event.preventDefault();
      const [x, y] = this.placeOf(event), unit = [1, 20, viewer.stage.view.height][event.deltaMode];
      if (event.ctrlKey || event.metaKey) {
        viewer.stage.enlarge(Math.exp(-event.deltaY * unit / 300), x, y);
      } else {
        const [dx, dy] = event.shiftKey && !event.deltaX ? [event.deltaY, 0] : [event.deltaX, event.deltaY];
        viewer.stage.move(-dx * unit, -dy * unit);
      }
      this.pointAt(x, y);
    }

    boxAt(x, y) {
      return this.viewer.scene.boxAt(...this.viewer.stage.view.toPage(x, y));
    }

    /** Shows the exact numbers of the box under the pointer. */
    pointAt(x, y) {
      const { viewer } = this, { tip } = viewer.part, box = viewer.isOld ? -1 : this.boxAt(x, y);
      viewer.pointAt(box);
      tip.hidden = box < 0;
      if (box < 0) return;
      tip.textContent = describe(viewer.scene, box).join('\n');
      const { width, height } = viewer.stage.view;
      tip.style.left = `${Math.max(0, Math.min(x + 14, width - tip.offsetWidth - 4))}px`;
      tip.style.top = `${y + 18 + tip.offsetHeight > height ? Math.max(0, y - tip.offsetHeight - 10) : y + 18}px`;
    }

    /** The edge that can be dragged from a place of the window: of the viewport, the chosen box or another; null without one. */
    edgeAt(x, y) {
      const { viewer } = this, { scene, stage: { view } } = viewer;
      if (!viewer.hears.drag?.isReady() || viewer.isDim) return null;
      const isIn = it => x >= it.left && x <= it.left + it.width && y >= it.top && y <= it.top + it.height;
      const grip = gridlay.draw.gripsOf(scene.viewport, view).find(isIn);
      if (grip) return { box: -1, axis: grip.axis };
      const near = NEAR / view.zoom, [pageX, pageY] = view.toPage(x, y);
      const isLarge = box => scene.boxes.width[box] * view.zoom >= LEAST && scene.boxes.height[box] * view.zoom >= LEAST;
      const axisOf = box => this.axisAt(box, pageX, pageY, near);
      if (viewer.chosen >= 0 && axisOf(viewer.chosen)) return { box: viewer.chosen, axis: axisOf(viewer.chosen) };
      for (let box = scene.count - 1; box >= 0; box--) {
        if (isLarge(box) && axisOf(box)) return { box, axis: axisOf(box) };
      }
      return null;
    }

    axisAt(box, pageX, pageY, near) {
      const { x, y, width, height } = this.viewer.scene.boxes, right = x[box] + width[box], lower = y[box] + height[box];
      if (pageX < x[box] || pageY < y[box] || pageX > right + near || pageY > lower + near) return null;
      const isRight = Math.abs(pageX - right) <= near, isLower = Math.abs(pageY - lower) <= near;
      return isRight && isLower ? 'both' : isRight ? 'width' : isLower ? 'height' : null;
    }
  }

  gridlay.pointer = { Pointer };
})(globalThis.gridlay ??= {});
