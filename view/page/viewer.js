// The viewer: which step of a run is shown and which box is chosen, and what has to follow when either changes.
(function (gridlay) {
  'use strict';

  const { element } = gridlay.text, { Stage } = gridlay.stage, { Side } = gridlay.side, { Pointer } = gridlay.pointer;

  class Viewer {
    /** Takes over the viewer's elements of the page. `hears` are told of what the user does: choose(box), step(step). */
    constructor(hears = {}) {
      this.hears = hears;
      this.part = Object.fromEntries([...document.querySelectorAll('.viewer [id]')].map(it => [it.id, it]));
      this.run = null;
      this.step = 0;
      this.scene = null;
      this.before = null;
      this.chosen = -1;
      this.pointed = -1;
      /** Where the last picture is that of an earlier run, since the document of this one was refused. */
      this.isOld = false;
      this.stage = new Stage(this.part.canvas, this.part.zoom, () => this.content(), () => this.hears.drawn?.());
      this.pointer = new Pointer(this);
      this.side = new Side(this);
      gridlay.controls.connect(this);
      this.stage.resize();
    }

    /** What the stage draws. */
    content() {
      const { scene, chosen, pointed, point, isDim } = this;
      return { scene, chosen, pointed, point, isDim, hasGrips: Boolean(this.hears.drag) && !isDim };
    }

    /** Shows a run at a step. `before` are boxes to compare its first layout with, or null. */
    open(run, step, before = null) {
      this.run = run;
      this.before = before;
      this.part.slider.max = String(Math.max(0, run.steps - 1));
      this.side.open(run);
      this.showStep(Math.max(0, Math.min(step, run.steps - 1)));
    }

    /** Goes to a step, as the user asked. */
    go(step) {
      if (!this.run || step < 0 || step >= this.run.steps || step === this.step) return;
      this.showStep(step);
      this.side.lists.layouts.reveal(step);
      this.hears.step?.(step);
    }

    showStep(step) {
      const scene = this.run.sceneAt(step, this.before);
      this.step = step;
      this.isOld = !scene && this.scene !== null;
      if (scene) this.takeScene(scene);
      this.tellStep(scene);
      this.side.lists.layouts.refresh();
      this.followChoice();
    }

    /** Takes the scene of the step: the box that was chosen stays so by its name; a hit chooses the one that it names. */
    takeScene(scene) {
      const { kind, name } = this.answer, { boxes } = this.side.lists, isHit = kind === 'hit';
      this.chosen = scene.boxes.places.get(isHit ? name : this.nameOf(this.chosen)) ?? -1;
      this.pointed = -1;
      // (what it tells is of a box of the scene before)
      this.part.tip.hidden = true;
      this.scene = scene;
      this.stage.view.fit(scene.extent);
      boxes.show(scene.count);
      if (isHit && this.chosen >= 0) boxes.reveal(this.chosen);
    }

    /** Tells in the bar and above the picture which step is shown. */
    tellStep(scene) {
      const { run, step, part } = this, last = Math.max(0, run.steps - 1);
      part.slider.value = String(step);
      part.step.textContent = `${step} of ${last}`;
      part.previous.disabled = step <= 0;
      part.next.disabled = step >= last;
      part.caption.replaceChildren(...gridlay.caption.captionOf(run, step, scene));
      if (this.isOld) part.caption.append(element('span', 'note', 'The picture is the last that could be made.'));
    }

    /** Marks in the source and in the picture what is shown and chosen, and tells of the chosen box. */
    followChoice() {
      this.side.markSource();
      this.part.details.replaceChildren(...gridlay.caption.detailsOf(this.scene, this.chosen));
      this.stage.draw();
    }

    /** Whether the picture is not that of the step: the step is a refusal, or the document is refused. */
    get isDim() {
      return this.isOld || this.answer?.kind === 'refused';
    }

    /** The answer that is shown. */
    get answer() {
      return this.run?.printed.answers[this.step];
    }

    /** The point of the page that the step asks about, as [x, y]; null where it is no hit. */
    get point() {
      if (this.answer?.kind !== 'hit') return null;
      return this.run.editAt(this.step).text.split(/ +/).slice(1, 3).map(Number.parseFloat);
    }

    /** Chooses a box, or none with -1: it is marked everywhere. Where `isFar`, the picture moves to it. */
    choose(box, isFar = false) {
      if (!this.scene) return;
      this.chosen = box;
      if (box >= 0 && isFar) {
        const { x, y, width, height } = this.scene.boxes;
        this.stage.view.reveal(x[box], y[box], width[box], height[box]);
      }
      this.side.markBox();
      this.followChoice();
      this.hears.choose?.(box);
    }

    /** Chooses the box that stands so many rows further in the list. */
    chooseBy(rows) {
      if (this.scene) this.choose(Math.max(0, Math.min(this.scene.count - 1, this.chosen + rows)), true);
    }

    /** Chooses the next box that changed. */
    chooseChanged() {
      const { scene } = this;
      if (!scene) return;
      const from = this.chosen + 1, found = scene.changed.findIndex((it, box) => it && box >= from);
      const box = found >= 0 ? found : scene.changed.findIndex(Boolean);
      if (box >= 0) this.choose(box, true);
    }

    /** Marks the box under the pointer. */
    pointAt(box) {
      if (box === this.pointed) return;
      this.pointed = box;
      this.side.markPointed();
      this.stage.draw();
    }

    nameOf(box) {
      return this.scene?.boxes.names[box];
    }

    /** Chooses what stands on a line of the source: its node, or the step of its edit. */
    chooseLine(line) {
      const step = this.run.printed.answers.findIndex((_, at) => at && this.run.editAt(at)?.line === line);
      if (step >= 0) this.go(step);
      else if (this.scene) this.choose(this.scene.nodes.findIndex(it => it.line === line), true);
    }

    /** The line of the source that is to be seen: that of the refusal, of the chosen box, or of the edit. */
    lineInQuestion() {
      const { answer } = this;
      if (answer?.kind === 'refused') return answer.line;
      if (this.chosen >= 0 && answer?.kind !== 'hit') return this.scene.nodes[this.chosen].line;
      return answer?.number ? this.run.editAt(this.step)?.line ?? 0 : 0;
    }

    /** Says a word in the line below the bar; '' takes it away. */
    say(text) {
      this.part.notice.textContent = text;
      this.part.notice.hidden = !text;
    }
  }

  gridlay.viewer = { Viewer };
})(globalThis.gridlay ??= {});
