// The page that lays out while you type: joins the editor, the engine and the viewer.
(function (gridlay) {
  'use strict';

  const { block, textOfUtf8 } = gridlay.text, { Run } = gridlay.run;
  /** After so many ms of laying out, the page says that it does. */
  const SOON = 250;

  class Page {
    constructor() {
      this.part = Object.fromEntries([...document.querySelectorAll('.writing [id]')].map(it => [it.id, it]));
      this.engine = null;
      /** Whether the text was opened as a whole since the last picture. */
      this.isFresh = true;
      this.viewer = new gridlay.viewer.Viewer({
        choose: box => this.editor.pointAt(box < 0 ? 0 : this.viewer.scene.nodes[box].line),
        step: step => this.editor.pointAt(step ? this.viewer.run.editAt(step).line : 0),
      });
      this.viewer.part['tab-source'].hidden = true;
      this.editor = new gridlay.editor.Editor({
        change: () => this.layOut(this.editor.text),
        caret: line => this.follow(line),
        refused: word => this.viewer.say(word),
        file: file => this.openFile(file),
      });
      this.dragging = new gridlay.dragging.Dragging({
        viewer: this.viewer,
        isReady: () => this.viewer.run?.lines.text === this.editor.text,
        show: (text, step) => this.layOut(text, step),
        write: (from, to, put) => this.editor.replace(from, to, put),
        list: script => this.listDragged(script),
      });
      this.viewer.hears.drag = this.dragging;
      this.viewer.hears.hit = (x, y) => this.hit(x, y);
      this.makeControls();
    }

    makeControls() {
      const { part, editor } = this;
      part.examples.addEventListener('change', () => this.openExample(part.examples.value));
      part.open.addEventListener('click', () => part.file.click());
      part.file.addEventListener('change', () => part.file.files.length && this.openFile(part.file.files[0]));
      part.save.addEventListener('click', () => this.save());
      part.copy.addEventListener('click', () => this.copy(this.dragging.script.map(it => `${it}\n`).join('')));
      part.forget.addEventListener('click', () => this.dragging.forget());
      part.examples.append(...this.examples().map(it => new Option(it.dataset.example)));
      editor.show();
    }

    examples() {
      return [...document.querySelectorAll('script[data-example]')];
    }

    openExample(name) {
      const example = this.examples().find(it => it.dataset.example === name);
      this.open(textOfUtf8(block(example.id)));
    }

    /** Takes a whole text: nothing of the one before is compared with it. */
    open(text) {
      if (!this.editor.takes(text.length)) return;
      this.isFresh = true;
      this.viewer.stage.view.mode = 'self';
      this.dragging.forget();
      this.editor.open(text);
    }

    async openFile(file) {
      // (no character has more than four bytes)
      if (file.size > 4 * gridlay.editor.LIMIT) this.editor.takes(file.size);
      else this.open(await file.text());
      this.part.file.value = '';
    }

    save() {
      const link = document.createElement('a');
      link.href = URL.createObjectURL(new Blob([this.editor.text], { type: 'text/plain' }));
      link.download = 'page.gridlay';
      link.click();
      setTimeout(() => URL.revokeObjectURL(link.href), 1000);
    }

    async copy(text) {
      try {
        await navigator.clipboard.writeText(text);
        this.part.copy.textContent = 'Copied';
      } catch {
        getSelection().selectAllChildren(this.part.script);
        this.part.copy.textContent = document.execCommand('copy') ? 'Copied' : 'Copy what is marked';
      }
      setTimeout(() => { this.part.copy.textContent = 'Copy'; }, 1500);
    }

    listDragged(script) {
      this.part.dragged.hidden = !script.length;
      this.part.script.textContent = script.join('\n');
    }

    /** Lays a text out and shows a step of it: that of the caret where none is told. */
    async layOut(text, step = -1) {
      if (!this.engine) return;
      clearTimeout(this.saying);
      this.saying = setTimeout(() => { this.part.state.textContent = 'laying out\u2026'; }, SOON);
      const answer = await this.engine.layout(text);
      if (!this.engine.isBusy) clearTimeout(this.saying);
      if (answer) this.show(text, answer, step);
    }

    show(text, answer, step) {
      const { viewer, editor } = this, { output, status, trouble, time } = answer;
      this.part.state.textContent = `${time < 10 ? time.toFixed(1) : Math.round(time)} ms`;
      if (trouble) {
        viewer.say(`The engine stopped at this text: ${trouble}. It begins anew with the next; the picture is the last that was made.`);
        return;
      }
      viewer.say(status === 6 ? 'Memory was wanting: what was laid out until then is shown.' : '');
      const run = new Run({ text, output, status });
      viewer.open(run, step >= 0 ? step : this.stepOf(run, editor.caretLine), this.earlierThan(text));
      this.isFresh = false;
      if (text === editor.text) editor.showFaults(run.refusals);
    }

    /** The box at a point of the picture, by the engine; null where it does not have what is shown. */
    async hit(x, y) {
      const { run, step, isOld } = this.viewer;
      return isOld || !this.engine ? null : this.engine.hit(run.lines.text, run.layoutAt(step), x, y);
    }

    /** What the first layout of a text is compared with: that of the text before, if this was not opened as a whole. */
    earlierThan(text) {
      const { run, before } = this.viewer;
      if (this.isFresh || !run) return null;
      return run.hasNoLayout || text === run.lines.text ? before : run.printed.boxes(0);
    }

    /** The step that a line of the text is about: that of its edit, or of the last edit above it. */
    stepOf(run, line) {
      const edits = run.document.edits.slice(0, Math.max(0, run.steps - 1));
      return edits.filter(it => it.line <= line).length;
    }

    /** The caret went to a line: the picture shows the layout of its edit. */
    follow(line) {
      const { viewer } = this;
      this.editor.pointAt(0);
      if (viewer.run?.lines.text !== this.editor.text) return;
      const step = this.stepOf(viewer.run, line);
      if (step !== viewer.step) viewer.showStep(step);
    }
  }

  function aboutOf(made) {
    const proof = made.isProved
      ? 'This engine is made of the same sources as the proved program, compiled by another way: it is tested, and not proved.'
      : 'This engine is made of sources of which nothing was proved when it was built. It is tested, and not proved.';
    const help = 'Drag the right or lower edge of a box to set its width or height, or the grips beside the viewport: '
      + 'the edit is written into the script, right after the layout that you see.';
    return `${proof} (${made.kit}) ${help}`;
  }

  async function start() {
    const page = gridlay.page = new Page();
    const made = JSON.parse(textOfUtf8(block('made')));
    page.part.about.textContent = aboutOf(made);
    document.title = 'gridlay \u2013 lay out while you type';
    try {
      page.engine = await gridlay.engine.Engine.load();
    } catch (error) {
      page.viewer.say(error.message);
    }
    page.openExample(page.part.examples.value);
  }

  gridlay.started = start();
})(globalThis.gridlay ??= {});
