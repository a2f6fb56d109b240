// Dragging an edge: each place of the pointer is an edit, which is laid out as if it stood in the script, right after
// the edits that the picture shows. When the pointer is let go, the edit is written there.
(function (gridlay) {
  'use strict';

  const { notCounted } = gridlay.edges;

  /** A text with lines put behind one of its lines, and where they stand in it; where there is no script, it is begun. */
  function withEdits(lines, doc, afterLine, edits) {
    const { text } = lines, hasScript = doc.scriptAt < lines.count;
    const line = hasScript ? Math.max(afterLine, doc.scriptAt + 1) : lines.count;
    const at = line < lines.count ? lines.starts[line] : text.length;
    const before = at > 0 && text[at - 1] !== '\n' ? '\n' : '';
    const put = `${before}${hasScript ? '' : '---\n'}${edits.map(it => `${it}\n`).join('')}`;
    return { text: text.slice(0, at) + put + text.slice(at), at, put };
  }

  class Dragging {
    /**
     * `isReady()` tells whether the picture is that of the editor's text; `show(text, step)` lays a text out and shows a
     * step of it; `write(from, to, put)` changes the editor's text; `list(script)` shows the edits made by dragging.
     */
    constructor({ viewer, isReady, show, write, list }) {
      Object.assign(this, { viewer, isReady, show, write, list });
      this.now = null;
      /** The drag that was last written: a further one of the same edge replaces it. */
      this.last = null;
      /** All edits that were made by dragging, in their order. */
      this.script = [];
    }

    /** An edge is taken at a place of the page. */
    begin({ box, axis }, pageX, pageY) {
      const { viewer, last } = this, { run, step } = viewer, { text } = run.lines;
      const name = box < 0 ? '' : viewer.scene.boxes.names[box];
      const isAgain = last?.text === text && last.step === step && last.name === name && last.axis === axis;
      // (the picture is to stand still under the pointer)
      viewer.stage.view.mode = 'free';
      this.now = {
        name, axis, isAgain, edits: [], put: null, before: { text, step },
        from: isAgain ? last.from : { run, step },
        start: this.startOf(box, pageX, pageY),
      };
    }

    /**
     * What a size is when the pointer is at 0, so that the edge keeps its distance from the pointer, and without what
     * the property does not count.
     */
    startOf(box, pageX, pageY) {
      const { scene } = this.viewer, [wide, high] = scene.viewport;
      if (box < 0) return { width: wide - pageX, height: high - pageY, wide, high };
      const node = scene.nodes[box], { width, height } = scene.boxes;
      return {
        width: width[box] - notCounted(node, 'width') - pageX,
        height: height[box] - notCounted(node, 'height') - pageY,
      };
    }

    /** The pointer is at a place of the page. */
    to(pageX, pageY) {
      const { now } = this, { from, start, axis } = now;
      const width = Math.max(0, Math.round(start.width + pageX)), height = Math.max(0, Math.round(start.height + pageY));
      const edits = now.name
        ? this.editsOfBox(now.name, axis, width, height)
        : [`viewport ${axis === 'height' ? start.wide : width} ${axis === 'width' ? start.high : height}`];
      if (edits.join() === now.edits.join()) return;
      const line = from.step ? from.run.editAt(from.step).line : 0;
      now.edits = edits;
      now.put = withEdits(from.run.lines, from.run.document, line, edits);
      this.show(now.put.text, from.step + edits.length);
    }

    editsOfBox(name, axis, width, height) {
      const edits = { width: `set ${name} width: ${width}px`, height: `set ${name} height: ${height}px` };
      return axis === 'both' ? [edits.width, edits.height] : [edits[axis]];
    }

    /** The pointer was let go; where not `isDone`, as if it had never been taken. */
    end(isDone) {
      const { now } = this;
      this.now = null;
      if (!now.put) return;
      if (!isDone) {
        this.show(now.before.text, now.before.step);
        return;
      }
      const replaced = now.isAgain ? this.last.put.put.length : 0;
      if (now.isAgain) this.script.length -= this.last.edits.length;
      this.script.push(...now.edits);
      this.last = { ...now, text: now.put.text, step: now.from.step + now.edits.length };
      this.write(now.put.at, now.put.at + replaced, now.put.put);
      this.list(this.script);
    }

    forget() {
      this.script = [];
      this.last = null;
      this.list(this.script);
    }
  }

  gridlay.dragging = { Dragging, withEdits };
})(globalThis.gridlay ??= {});
