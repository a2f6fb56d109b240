// What is told of a step, above the picture: the layout's number and edit, or the refusal with its place marked in the line;
// and of a box, below it and beside the pointer.
(function (gridlay) {
  'use strict';

  const { element, visible } = gridlay.text, { NEW } = gridlay.scene;
  /** More of a line is not shown around a mark. */
  const AROUND = 160;

  function count(number, one, many = `${one}s`) {
    return `${number.toLocaleString('en')} ${number === 1 ? one : many}`;
  }

  function changesOf({ changed, added, gone }) {
    const parts = [];
    if (changed) parts.push(`${count(changed, 'box', 'boxes')} changed`);
    if (added) parts.push(count(added, 'new', 'new'));
    if (gone) parts.push(count(gone, 'gone', 'gone'));
    return parts.join(', ') || 'no box changed';
  }

  /** A line with the marked place, cut at both ends where it is long. */
  function marked([before, token, after]) {
    const pre = element('pre');
    pre.append(before.length > AROUND ? `\u2026${before.slice(-AROUND)}` : before);
    pre.append(element('mark', '', token.slice(0, AROUND) || ' '));
    pre.append(after.length > AROUND ? `${after.slice(0, AROUND)}\u2026` : after);
    return pre;
  }

  function refusal(run, answer) {
    const { line, column, fault, number } = answer;
    const parts = [element('b', 'wrong', number ? `refused ${number}` : 'refused'), element('code', 'wrong', fault)];
    parts.push(element('span', 'note', `line ${line}, byte ${column}. ${gridlay.faults.meaning(fault)}`));
    if (line > run.lines.count) parts.push(element('pre', '', '(the end of the text)'));
    else parts.push(marked(run.markedLine(line, column)));
    return parts;
  }

  function layout(run, answer, scene) {
    const { number } = answer, edit = number ? run.document.edits[number - 1] : null;
    const parts = [element('b', '', `layout ${number}`)];
    if (edit) parts.push(element('code', '', visible(edit.text.slice(0, 400))));
    const notes = [edit ? `line ${edit.line}` : 'the document', count(scene.count, 'box', 'boxes')];
    notes.push(`viewport ${scene.viewport.join(' \u00d7 ')}`);
    if (scene.isCompared) notes.push(changesOf(scene.changes));
    parts.push(element('span', 'note', notes.join(' \u00b7 ')));
    if (!scene.isTree) parts.push(element('span', 'note wrong', 'The names are not those of the document: no tree is shown.'));
    return parts;
  }

  function hit(run, { number, name }) {
    const { text, line } = run.document.edits[number - 1];
    const found = name === '-' ? 'no box holds the point' : `the last box that holds the point: ${name}`;
    return [element('b', '', `hit ${number}`), element('code', '', visible(text)), element('span', 'note', `line ${line} \u00b7 ${found}`)];
  }

  /** The elements that tell of a step. */
  function captionOf(run, step, scene) {
    const answer = run.printed.answers[step];
    if (!answer) return [element('b', 'wrong', 'Nothing was printed.')];
    return { layout, refused: refusal, hit }[answer.kind](run, answer, scene);
  }

  /** What is told of a box, as lines: its kind, its numbers as they were printed, how it changed, and where it stands out. */
  function describe(scene, box) {
    const { boxes, changed, parent } = scene, [x, y, width, height] = boxes.printed(box);
    const lines = [`${boxes.names[box]}  ${scene.kindOf(box)}`, `x ${x}  y ${y}  width ${width}  height ${height}`];
    if (changed[box]) lines.push(`${changed[box] === NEW ? 'new' : 'changed'} in this layout`);
    const sides = scene.standsOut(box);
    if (sides.length) lines.push(`stands out of ${boxes.names[parent[box]]}: ${sides.join(', ')}`);
    return lines;
  }

  /** What stands below a picture: of the chosen box what is told of it, and without one (-1) which keys there are. */
  function detailsOf(scene, chosen) {
    if (chosen < 0) return [gridlay.controls.HELP];
    const [name, ...rest] = describe(scene, chosen);
    return [element('b', '', name), `  ${rest.join('  \u00b7  ')}`];
  }

  gridlay.caption = { captionOf, describe, detailsOf };
})(globalThis.gridlay ??= {});
