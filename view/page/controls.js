// The viewer's buttons, slider and keys.
(function (gridlay) {
  'use strict';

  const HELP = ['Left, right: layouts', 'up, down: boxes', 'C: next changed box', 'wheel: move, with Ctrl: zoom', '0, 9, 1: whole, wide, 1:1'];
  const CLOSER = 1.25;

  /** What each key does in a viewer. */
  function keysOf(viewer) {
    const { stage } = viewer;
    return {
      ArrowLeft: () => viewer.go(viewer.step - 1),
      ArrowRight: () => viewer.go(viewer.step + 1),
      Home: () => viewer.go(0),
      End: () => viewer.go(viewer.run.steps - 1),
      ArrowUp: () => viewer.chooseBy(-1),
      ArrowDown: () => viewer.chooseBy(1),
      Escape: () => viewer.pointer.cancel() || viewer.choose(-1),
      c: () => viewer.chooseChanged(),
      '+': () => stage.enlarge(CLOSER),
      '=': () => stage.enlarge(CLOSER),
      '-': () => stage.enlarge(1 / CLOSER),
      0: () => stage.fit('whole'),
      9: () => stage.fit('wide'),
      1: () => stage.showActual(),
    };
  }

  /** What each button does in a viewer, by the names of the elements. */
  function buttonsOf(viewer) {
    const { stage } = viewer;
    return {
      previous: () => viewer.go(viewer.step - 1),
      next: () => viewer.go(viewer.step + 1),
      smaller: () => stage.enlarge(1 / CLOSER),
      larger: () => stage.enlarge(CLOSER),
      actual: () => stage.showActual(),
      whole: () => stage.fit('whole'),
      wide: () => stage.fit('wide'),
    };
  }

  /** Lets the buttons, the slider and the keys of the page work a viewer. */
  function connect(viewer) {
    const { part } = viewer, keys = keysOf(viewer);
    for (const [name, does] of Object.entries(buttonsOf(viewer))) part[name].addEventListener('click', does);
    part.slider.addEventListener('input', () => viewer.go(Number(part.slider.value)));
    document.addEventListener('keydown', event => {
      const isWriting = event.target.closest('textarea, select, input:not([type=range])');
      if (isWriting || event.altKey || event.metaKey || event.ctrlKey || !viewer.run || !keys[event.key]) return;
      event.preventDefault();
      keys[event.key]();
    });
  }

  gridlay.controls = { connect, HELP: HELP.join(' \u00b7 ') };
})(globalThis.gridlay ??= {});
