// What the rows of the viewer's lists show.
(function (gridlay) {
  'use strict';

  const { element, visible } = gridlay.text, { HUES } = gridlay.draw, { describe } = gridlay.caption;
  /** Of a long line so many characters are shown, and before a mark so many. */
  const LONG = 800, BEFORE = 400;

  /** A box: its name and numbers, under its parent. */
  function fillBox(viewer, row, box) {
    const { scene } = viewer, depth = scene.depth[box], hue = depth % HUES, isChosen = box === viewer.chosen;
    row.style.paddingLeft = `${8 + 12 * depth}px`;
    row.setAttribute('role', 'treeitem');
    row.setAttribute('aria-level', String(depth + 1));
    row.setAttribute('aria-selected', String(isChosen));
    row.classList.toggle('chosen', isChosen);
    row.classList.toggle('pointed', box === viewer.pointed);
    row.classList.toggle('changed', scene.changed[box] > 0);
    row.title = describe(scene, box).join('\n');
    const dot = element('span', 'dot');
    dot.style.background = `var(--${scene.isLeaf[box] ? 'leaf' : 'fill'}${hue})`;
    dot.style.borderColor = `var(--edge${hue})`;
    row.append(dot, element('span', '', scene.boxes.names[box]), element('span', 'number', scene.boxes.printed(box).join(' ')));
  }

  /** A step: the number and text of its edit, and the fault where it was refused. */
  function fillStep(viewer, row, step) {
    const answer = viewer.run.printed.answers[step], edit = viewer.run.editAt(step);
    row.classList.toggle('chosen', step === viewer.step);
    row.append(element('span', 'at', String(answer.number)));
    const wrong = answer.kind === 'refused' ? 'wrong' : '';
    row.append(element('span', wrong, edit ? visible(edit.text.slice(0, LONG)) : 'the document'));
    if (answer.kind !== 'layout') row.append(element('span', `number ${wrong}`, answer.fault ?? answer.name));
  }

  /** A line of the source, with the place marked where it was refused. `index` counts from 0. */
  function fillLine(viewer, row, index) {
    const { run } = viewer, refusal = run.refusedLines.get(index + 1), text = element('span');
    row.classList.toggle('chosen', index + 1 === viewer.lineInQuestion());
    if (refusal) {
      const [before, token, after] = run.markedLine(refusal.line, refusal.column);
      text.append(before.slice(-BEFORE), element('mark', '', token || ' '), after.slice(0, LONG));
    } else {
      text.append(run.shownLine(index).slice(0, LONG));
    }
    row.append(element('span', 'at', String(index + 1)), text);
  }

  gridlay.rows = { fillBox, fillStep, fillLine };
})(globalThis.gridlay ??= {});
