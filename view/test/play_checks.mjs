// Checks of the page that lays out while you type.
import assert from 'node:assert/strict';
import { writeFileSync } from 'node:fs';
import { availableParallelism, loadavg } from 'node:os';
import { join } from 'node:path';
import { pathToFileURL } from 'node:url';
import { CAPTION, NOTING, SHOWN, answersOf, assertDrawn, cards, printedBy, text } from './harness.mjs';

const SETTLED = 'gridlay.page.viewer.run?.lines.text === gridlay.page.editor.text && !gridlay.page.engine.isBusy';
const TEXT = 'gridlay.page.editor.text';
const NOTICE = 'document.querySelector("#notice").hidden ? "" : document.querySelector("#notice").textContent';
const MARKS = `[...document.querySelectorAll('#marks .place')].map(it => {
  const { left, top, width } = it.getBoundingClientRect(), paper = document.querySelector('#text').getBoundingClientRect(), { letter, area } = gridlay.page.editor;
  return [Math.round((top - paper.top + area.scrollTop - 6) / 20) + 1, Math.round((left - paper.left + area.scrollLeft - 8) / letter) + 1, Math.round(width / letter)];
})`;

async function opened({ browser, playing }) {
  const page = await browser.open();
  await page.call('Page.addScriptToEvaluateOnNewDocument', { source: NOTING });
  await page.size(1400, 820);
  await page.go(pathToFileURL(playing).href);
  await page.value('gridlay.started.then(() => 0)');
  await page.until(SETTLED);
  return page;
}

/** Puts a text into the editor, and waits for its picture. */
async function put(page, source) {
  await page.value(`gridlay.page.open(${JSON.stringify(source)})`);
  await page.until(SETTLED);
}

/** Puts the caret behind the first place where a piece of the text stands. */
async function caretBehind(page, piece) {
  await page.value(`(() => { const { area } = gridlay.page.editor, at = area.value.indexOf(${JSON.stringify(piece)}) + ${piece.length}; area.focus(); area.setSelectionRange(at, at); })()`);
}

/** Holds what the page shows to what the program prints for the text that stands in the editor. */
async function assertAsProgram(page, program) {
  const source = await page.value(TEXT), printed = printedBy(program, source), answers = answersOf(printed);
  assert.equal(await page.value('gridlay.page.viewer.run.printed.text'), printed);
  await page.value("gridlay.page.viewer.stage.fit('whole')");
  const shown = await page.value(SHOWN);
  assertDrawn(shown, answers.slice(0, shown.step + 1).findLast(it => it.head[0] === 'layout').boxes);
  return { source, answers, shown };
}

/** Where an edge of a box, or its middle, is seen in the window. */
function edgeOf(page, name, side) {
  return page.value(`(() => {
    const { scene, part, stage: { view } } = gridlay.page.viewer, box = scene.boxes.places.get('${name}'), { x, y, width, height } = scene.boxes;
    const place = { right: [x[box] + width[box], y[box] + height[box] / 2], lower: [x[box] + width[box] / 2, y[box] + height[box]], corner: [x[box] + width[box], y[box] + height[box]], middle: [x[box] + width[box] / 2, y[box] + height[box] / 2] }['${side}'];
    const stage = part.canvas.getBoundingClientRect(), [left, top] = view.toWindow(...place);
    return [stage.left + left - 1, stage.top + top - 1];
  })()`);
}

/** Drags an edge by px of the page, and waits for its edit. */
async function dragEdge(page, name, side, dx, dy) {
  const from = await edgeOf(page, name, side), zoom = await page.value('gridlay.page.viewer.stage.view.zoom');
  await page.drag(from, [from[0] + dx * zoom, from[1] + dy * zoom]);
  await page.until(SETTLED);
}

async function checkWords(checks, tools, page) {
  await checks.check('the playing page says that its engine is not proved', async () => {
    assert.match(await page.value("document.querySelector('#about').textContent"), /tested, and not proved|of which nothing was proved/);
  });
}

async function checkExamples(checks, tools, page) {
  const { program, examples } = tools;
  await checks.check('each example can be chosen, and all its layouts are those of the program', async () => {
    const names = await page.value("[...document.querySelectorAll('#examples option')].map(it => it.value)");
    assert.ok(names.length >= 5, names.join(' '));
    for (const name of names) {
      await page.value(`(() => { const it = document.querySelector('#examples'); it.value = '${name}'; it.dispatchEvent(new Event('change')); })()`);
      await page.until(SETTLED);
      assert.equal(await page.value(TEXT), text(join(examples, `${name}.gridlay`)));
      await assertAsProgram(page, program);
    }
  });
}

async function checkKeys(checks, tools, page) {
  const { program, examples } = tools;
  await checks.check('each keystroke gives the boxes that the program gives for the text', async () => {
    await put(page, text(join(examples, 'cards.gridlay')));
    await caretBehind(page, 'text2 words 16 4 90 20 60');
    for (const key of [' ', '7', '5', ' ', '8']) {
      await page.type(key);
      await page.until(SETTLED);
      await assertAsProgram(page, program);
    }
    assert.match(await page.value(TEXT), /text2 words 16 4 90 20 60 75 8\n/);
    await page.key('Backspace');
    await page.until(SETTLED);
    await assertAsProgram(page, program);
  });
}

/** Lays a text out beside the editor, and holds the answer to that of the program; gives the answer. */
async function answered(page, program, source) {
  const answer = await page.value(`gridlay.page.engine.layout(${JSON.stringify(source)})`);
  assert.equal(answer.output, printedBy(program, source), source);
  return answer;
}

/** What typing makes of a line, one after another: numbers that grow, pieces that are missing, and what is put behind it. */
function typedInto(line) {
  const number = /\d+(?=\D*$)/.exec(line), at = number ? number.index + number[0].length : line.length;
  const grown = `${line.slice(0, at)}0${line.slice(at)}`;
  return [
    grown, `${grown} # a comment`, line.slice(0, Math.ceil(line.length * 0.7)), grown, line.replace(/:[^;}]*/, ': 3px'), line.replace(/\{.*/, ''),
    line.replace(/ *\}? *$/, '; order: 2 }'), line.replace(/\{ */, '{ margin: 1px 2px; margin-top: 3px; '), line.replace(/\{ */, '{ margin: 1px 2px; '),
    line.replace(/\{ */, '{ margin-top: 3px; margin: 1px 2px; '), line.replace(/(leaf|words) .*/, 'words 10 2 20 30 40'), line.replace(/(grid|flex)/, 'flex'),
    line.replace(/[a-z]/, 'q'), `${line}\n`, `# before\n${line}`, line,
  ];
}

async function checkTyping(checks, tools, page) {
  const { program, examples } = tools;
  await checks.check('lines that are typed into, also beside faults, are answered as by the program', async () => {
    for (const name of ['cards', 'form', 'edits']) {
      const lines = text(join(examples, `${name}.gridlay`)).split('\n');
      for (const [at, line] of lines.slice(0, lines.indexOf('---')).entries()) {
        for (const it of new Set(typedInto(line))) {
          await answered(page, program, [...lines.slice(0, at), it, ...lines.slice(at + 1)].join('\n'));
        }
      }
    }
  });
  await checks.check('a line that is typed into is an edit for the engine, also where a fault was mended; other texts are opened anew', async () => {
    const source = text(join(examples, 'cards.gridlay')), last = 'align-self: center }\n', edits = [];
    const texts = [
      source, source.replace('20 60\n', '20 60 7\n'), source.replace('20 60\n', '20 60 x\n'), source.replace('20 60\n', '20 60 75\n'),
      source.replace(last, 'align-self: center } # a comment\n'), source.replace('viewport 640', 'viewport 600'), source.replace(last, `${last}    new leaf 1 1\n`),
    ];
    for (const it of texts) edits.push((await answered(page, program, it)).edits);
    assert.deepEqual(edits, [0, 1, null, 2, 3, 4, 0]);
  });
}

async function checkCaret(checks, tools, page) {
  const { examples } = tools;
  await checks.check('the picture shows the layout of the line where the caret stands', async () => {
    await put(page, text(join(examples, 'cards.gridlay')));
    await caretBehind(page, 'remove wide');
    await page.until("gridlay.page.viewer.step === 4", 5000);
    await caretBehind(page, 'card1');
    await page.until("gridlay.page.viewer.step === 0", 5000);
  });
}

async function checkFault(checks, tools, page) {
  const { program, shots, examples } = tools;
  await checks.check('a fault is underlined at its place and explained, the last picture stays, and it goes when it is mended', async () => {
    await put(page, text(join(examples, 'cards.gridlay')));
    const before = (await page.value(SHOWN)).boxes;
    await caretBehind(page, 'card2 gri');
    await page.key('Backspace');
    await page.until(SETTLED);
    const [{ head }] = answersOf(printedBy(program, await page.value(TEXT)));
    assert.deepEqual(head.slice(0, 2), ['refused', '0']);
    const [line, column] = head[2].split(':').map(Number);
    assert.deepEqual(await page.value(MARKS), [[line, column, 'grd'.length]]);
    assert.equal(await page.value("document.querySelector('#marks .said').textContent"), head[3]);
    assert.ok((await page.value("document.querySelector('#faults').textContent")).startsWith(`${head[2]} ${head[3]}The kind of a node is`));
    assert.match(await page.value(CAPTION), /^refusedunknown-kindline 8, byte 9\./);
    assert.deepEqual((await page.value(SHOWN)).boxes, before);
    assert.equal(await page.value('gridlay.page.viewer.isDim'), true);
    assert.match(await page.value(CAPTION), /The picture is the last that could be made\.$/);
    await page.picture(join(shots, 'play-fault.png'));
    await page.type('i');
    await page.until(SETTLED);
    assert.deepEqual(await page.value(MARKS), []);
    assert.equal(await page.value('gridlay.page.viewer.isDim'), false);
    await assertAsProgram(page, program);
  });
}

async function checkRefused(checks, tools, page) {
  const { shots, examples } = tools;
  await checks.check('refused edits are underlined, each at its place; a click on its explanation goes there', async () => {
    await put(page, `${text(join(examples, 'first.gridlay'))}---\nset z width: 1px\nset a widht: 1px\nset a width: 7px\n`);
    assert.deepEqual(await page.value(MARKS), [[7, 5, 1], [8, 7, 5]]);
    await page.value("document.querySelectorAll('#faults button')[1].click()");
    assert.equal(await page.value('gridlay.page.editor.caretLine'), 8);
    await page.until('gridlay.page.viewer.step === 2', 5000);
    assert.match(await page.value(CAPTION), /^refused 2unknown-property/);
    await page.picture(join(shots, 'play-refused.png'));
  });
}

async function checkDragging(checks, tools, page) {
  const { program, shots, examples } = tools;
  await checks.check('dragging edges writes edits behind the layout that is seen, and a second drag of an edge replaces the first', async () => {
    const source = text(join(examples, 'cards.gridlay'));
    await put(page, source);
    await page.value("gridlay.page.dragging.forget(), gridlay.page.viewer.stage.fit('whole')");
    // card1 has paddings of 10px and borders of 1px, which its width does not count
    await dragEdge(page, 'card1', 'right', -40, 0);
    assert.equal(await page.value(TEXT), source.replace('---\n', '---\nset card1 width: 118px\n'));
    let { answers, shown } = await assertAsProgram(page, program);
    assert.equal(shown.step, 1);
    assert.ok(answers[1].boxes.some(it => /^card1 20 74 140 /.test(it)));
    await dragEdge(page, 'card1', 'right', 25, 0);
    assert.equal(await page.value(TEXT), source.replace('---\n', '---\nset card1 width: 143px\n'));
    await dragEdge(page, 'text3', 'lower', 0, 30);
    assert.equal(await page.value(TEXT), source.replace('---\n', '---\nset card1 width: 143px\nset text3 height: 50px\n'));
    ({ shown } = await assertAsProgram(page, program));
    assert.equal(shown.step, 2);
    await dragEdge(page, 'title', 'corner', 8, 6);
    const script = ['set card1 width: 143px', 'set text3 height: 50px', 'set title width: 200px', 'set title height: 30px'];
    assert.equal(await page.value(TEXT), source.replace('---\n', `---\n${script.join('\n')}\n`));
    await assertAsProgram(page, program);
    assert.equal(await page.value("document.querySelector('#script').textContent"), script.join('\n'));
    await page.picture(join(shots, 'play-dragged.png'));
    await page.call('Browser.grantPermissions', { permissions: ['clipboardReadWrite', 'clipboardSanitizedWrite'] }).catch(() => {});
    await page.value("document.querySelector('#copy').click()");
    await page.until("document.querySelector('#copy').textContent === 'Copied'", 5000);
  });
}

async function checkScript(checks, tools, page) {
  const { program, examples } = tools;
  await checks.check('a script is begun where there is none; the grips drag the viewport; Escape takes a drag back; undo takes an edit back', async () => {
    const source = text(join(examples, 'first.gridlay')).replace(/\n$/, '');
    await put(page, source);
    await page.value("gridlay.page.dragging.forget(), gridlay.page.viewer.stage.fit('whole')");
    const [x, y] = await page.value(`(() => {
      const { scene, part, stage: { view } } = gridlay.page.viewer, stage = part.canvas.getBoundingClientRect();
      const grip = gridlay.draw.gripsOf(scene.viewport, view).find(it => it.axis === 'width');
      return [stage.left + grip.left + 3, stage.top + grip.top + 8];
    })()`);
    const zoom = await page.value('gridlay.page.viewer.stage.view.zoom');
    await page.drag([x, y], [x - 100 * zoom, y]);
    await page.until(SETTLED);
    assert.equal(await page.value(TEXT), `${source}\n---\nviewport 200 200\n`);
    const { shown } = await assertAsProgram(page, program);
    assert.equal(shown.step, 1);

    const edited = await page.value(TEXT), from = await edgeOf(page, 'b', 'lower');
    await page.mouse('mouseMoved', ...from);
    await page.mouse('mousePressed', ...from);
    await page.mouse('mouseMoved', from[0], from[1] + 60, { buttons: 1, button: 'left' });
    await page.until('gridlay.page.viewer.step === 2', 5000);
    await page.key('Escape');
    await page.mouse('mouseReleased', from[0], from[1] + 60);
    await page.until(`gridlay.page.viewer.step === 1 && ${SETTLED}`);
    assert.equal(await page.value(TEXT), edited);

    await page.value("gridlay.page.editor.area.focus(), document.execCommand('undo')");
    await page.until(SETTLED);
    assert.equal(await page.value(TEXT), source);
  });
}

async function checkKept(checks, tools, page) {
  const { program, examples } = tools;
  await checks.check('texts of one document with scripts that grow, shrink and change are answered as by the program', async () => {
    for (const name of ['edits', 'hit', 'undo', 'tour', 'cards']) {
      const source = text(join(examples, `${name}.gridlay`)), [document, script] = source.split(/^---\n/m), lines = script.split('\n');
      const scripts = [...lines.keys()].flatMap(at => [lines.slice(0, at), lines.slice(at), [...lines.slice(0, at), 'set nowhere gap: 1px', ...lines.slice(at)]]);
      for (const it of scripts) {
        const whole = `${document}---\n${it.join('\n')}`, answer = await page.value(`gridlay.page.engine.layout(${JSON.stringify(whole)})`);
        assert.equal(answer.output, printedBy(program, whole), whole);
      }
    }
  });
}

async function checkHit(checks, tools, page) {
  const { program, examples } = tools;
  await checks.check('a click chooses the box that the engine tells, and it tells what `hit` does, after each edit', async () => {
    const [document] = text(join(examples, 'hit.gridlay')).split(/^---\n/m), edits = ['remove note', 'set page padding: 0'];
    await put(page, `${document}---\n${edits.join('\n')}\n`);
    for (const step of [2, 0, 1, 2]) {
      const points = [[60, 50], [90, 20], [70, 20], [175, 20], [150, 115], [-1, 0], [0.5, 4.984375]];
      const asked = `${document}---\n${edits.slice(0, step).join('\n')}\n${points.map(it => `hit ${it.join(' ')}\n`).join('')}`;
      const due = answersOf(printedBy(program, asked)).filter(it => it.head[0] === 'hit').map(it => it.head[2]);
      const told = await page.value(`(async () => {
        const { engine, viewer } = gridlay.page, names = viewer.run.printed.boxes(${step}).names, told = [];
        for (const [x, y] of ${JSON.stringify(points)}) told.push(await engine.hit(viewer.run.lines.text, ${step}, x, y));
        return told.map(it => it === null ? 'nothing' : names[it] ?? '-');
      })()`);
      assert.deepEqual(told, due);
    }
    await put(page, document);
    await page.value("gridlay.page.viewer.stage.fit('whole')");
    const [x, y] = await edgeOf(page, 'note', 'middle');
    await page.click(x, y);
    await page.until("gridlay.page.viewer.nameOf(gridlay.page.viewer.chosen) === 'note'", 5000);
    assert.equal(await page.value("gridlay.page.engine.hit('another text', 0, 1, 1)"), null);
  });
}

async function checkLatest(checks, tools, page) {
  await checks.check('of texts that come while one is laid out, only the latest is', async () => {
    const answers = await page.value("Promise.all([1, 2, 3, 4].map(it => gridlay.page.engine.layout(`gridlay 1\\nviewport 9 9\\na leaf ${it} 1\\n`)))");
    assert.deepEqual(answers.map(it => it && it.output.split('\n')[1]), ['a 0 0 9 1', null, null, 'a 0 0 9 1']);
    assert.deepEqual(answers.map(it => it && it.status), [0, null, null, 0]);
  });
}

async function checkTrap(checks, tools, page) {
  const { program, examples } = tools;
  await checks.check('after a trap the page says so, keeps the text and the picture, and lays out the next text', async () => {
    await put(page, text(join(examples, 'first.gridlay')));
    const before = await page.value(SHOWN);
    // A module whose `take_room` traps: (memory i64 1), take_room (i64) -> i64 is `unreachable`.
    const trap = [0, 97, 115, 109, 1, 0, 0, 0, 1, 6, 1, 96, 1, 126, 1, 126, 3, 2, 1, 0, 5, 3, 1, 4, 1, 7, 22, 2, 9, ...Buffer.from('take_room'), 0, 0, 6, ...Buffer.from('memory'), 2, 0, 10, 5, 1, 3, 0, 0, 11];
    await page.value(`globalThis.kept = gridlay.page.engine.module, gridlay.page.engine.module = new WebAssembly.Module(Uint8Array.of(${trap})), gridlay.page.engine.start()`);
    await caretBehind(page, 'a leaf 10');
    await page.type('0');
    await page.until(`(${NOTICE}).includes('The engine stopped at this text')`, 5000);
    assert.match(await page.value(NOTICE), /unreachable/);
    assert.match(await page.value(TEXT), /a leaf 100 10/);
    assert.deepEqual((await page.value(SHOWN)).boxes, before.boxes);
    await page.value('gridlay.page.engine.module = globalThis.kept, gridlay.page.engine.start()');
    await page.type('0');
    await page.until(SETTLED);
    assert.equal(await page.value(NOTICE), '');
    await assertAsProgram(page, program);
  });
}

async function checkWorker(checks, tools, page) {
  await checks.check('a worker that fails, and a text that takes too long while another waits, are given up', async () => {
    const source = 'gridlay 1\\nviewport 9 9\\na leaf 1 1\\n', layOut = `gridlay.page.engine.layout('${source}')`;
    await page.value("globalThis.kept = gridlay.page.engine.source, gridlay.page.engine.source = 'onmessage = ({ data }) => { if (data.input) throw new Error(`it failed`); }', gridlay.page.engine.start()");
    await page.value(`globalThis.first = ${layOut}, gridlay.page.engine.source = globalThis.kept, 0`);
    assert.match((await page.value('globalThis.first')).trouble, /it failed/);
    assert.equal((await page.value(layOut)).output, 'layout 0\na 0 0 9 1\n');
    await page.value("gridlay.page.engine.source = 'onmessage = ({ data }) => { while (data.input); }', gridlay.page.engine.start()");
    await page.value(`globalThis.first = ${layOut}, globalThis.second = ${layOut}, gridlay.page.engine.source = globalThis.kept, 0`);
    assert.equal(await page.value('globalThis.first'), null);
    assert.equal((await page.value('globalThis.second')).output, 'layout 0\na 0 0 9 1\n');
  });
}

async function checkChosen(checks, tools, page) {
  const { examples } = tools;
  await checks.check('a box that is chosen is marked in the text', async () => {
    await put(page, text(join(examples, 'cards.gridlay')));
    await page.click(...await edgeOf(page, 'text3', 'middle'));
    await page.until('gridlay.page.editor.here === 11', 5000);
    assert.equal(await page.value("Math.round(document.querySelector('#marks .here').getBoundingClientRect().top - document.querySelector('#text').getBoundingClientRect().top)"), 6 + 10 * 20);
  });
}

async function checkMarks(checks, tools, page) {
  await checks.check('a text with marks of HTML is text, in the editor as in the picture', async () => {
    await put(page, 'gridlay 1\nviewport 90 90\n</script><script>globalThis.harm = 1</script><img src=x onerror="globalThis.harm = 2"> leaf 1 1\n');
    assert.match(await page.value(CAPTION), /^refusedbad-nameline 3, byte 1\./);
    assert.equal(await page.value('typeof globalThis.harm'), 'undefined');
    assert.equal(await page.value("document.querySelectorAll('img').length"), 0);
  });
}

async function checkNarrow(checks, tools, page) {
  const { shots, examples } = tools;
  await checks.check('the playing page fits a narrow window, and has a dark look', async () => {
    await put(page, text(join(examples, 'toolbar.gridlay')));
    await page.scheme('dark');
    await page.picture(join(shots, 'play-dark.png'));
    await page.size(420, 900);
    await page.until('gridlay.page.viewer.stage.view.width <= 420', 5000);
    const [wide, editor, canvas] = await page.value("[document.documentElement.scrollWidth, document.querySelector('#text').clientHeight, document.querySelector('#canvas').clientHeight]");
    assert.ok(wide <= 420 && editor > 120 && canvas > 200, [wide, editor, canvas].join(' '));
    await page.picture(join(shots, 'play-narrow.png'));
    await page.scheme('light');
    await page.size(1400, 820);
  });
}

async function checkQuiet(checks, tools, page) {
  await checks.check('the playing page complained of nothing, and asked nothing of the network', () => {
    assert.deepEqual(page.troubles, []);
    assert.deepEqual(page.requests, []);
  });
}

/** Types digits and takes them away again; gives the ms from each keystroke until its boxes were drawn, in order of size. */
async function timesOfKeys(page, behind, count) {
  await caretBehind(page, behind);
  await page.value(`(() => {
    const { viewer, editor } = gridlay.page;
    globalThis.times = [];
    let start = 0;
    editor.area.addEventListener('beforeinput', () => { start = performance.now(); });
    viewer.hears.drawn = () => {
      if (start && viewer.run.lines.text === editor.text) {
        globalThis.times.push(performance.now() - start);
        start = 0;
      }
    };
  })()`);
  for (let key = 0; key < count; key++) {
    if (key % 2) await page.key('Backspace'); else await page.type('5');
    await page.until(`globalThis.times.length > ${key}`);
  }
  await page.value('delete gridlay.page.viewer.hears.drawn');
  return (await page.value('globalThis.times')).sort((a, b) => a - b);
}

/** Times in order of size, in words. */
function summary(times) {
  return `least ${times[0]?.toFixed(0)}, median ${times[times.length >> 1]?.toFixed(0)}, most ${times.at(-1)?.toFixed(0)}`;
}

async function checkSpeed(checks, tools, page) {
  const { program, shots } = tools;
  for (const [count, keys, limit] of [[240, 24, 150], [2400, 10, 1500]]) {
    let times = [];
    await checks.check(`a keystroke in ${count} cards gives the boxes of the program`, async () => {
      await put(page, cards(count));
      times = await timesOfKeys(page, `x${count / 2} leaf 6`, keys);
      console.log(`         ms: ${summary(times)}`);
      if (count === 2400) await page.picture(join(shots, 'play-cards2400.png'));
      await assertAsProgram(page, program);
    });
    const within = `a keystroke in ${count} cards shows its boxes within ${limit} ms`, busy = loadavg()[0] / availableParallelism();
    // (others at work on the same processors tell nothing of the page)
    if (busy > 1.5 && times[0] >= limit) checks.skip(within, `the machine is busy: ${busy.toFixed(1)} jobs for each processor; ${summary(times)} ms`);
    else await checks.check(within, () => assert.ok(times[0] < limit, times.join(' ')));
  }
}

async function checkDragSpeed(checks, tools, page) {
  const { program } = tools;
  await checks.check('a drag in 240 cards follows the pointer', async () => {
    await put(page, cards(240));
    await page.value("gridlay.page.viewer.stage.fit('wide')");
    const from = await edgeOf(page, 'p2', 'right'), times = [];
    await page.mouse('mouseMoved', ...from);
    await page.mouse('mousePressed', ...from);
    for (let step = 1; step <= 12; step++) {
      await page.value('globalThis.moved = performance.now(), gridlay.page.viewer.hears.drawn = () => { globalThis.drawnAt ??= gridlay.page.viewer.step ? performance.now() : undefined; }, globalThis.drawnAt = undefined');
      await page.mouse('mouseMoved', from[0] - 5 * step, from[1], { buttons: 1, button: 'left' });
      await page.until('globalThis.drawnAt && !gridlay.page.engine.isBusy');
      times.push(await page.value('globalThis.drawnAt - globalThis.moved'));
    }
    await page.value('delete gridlay.page.viewer.hears.drawn');
    await page.mouse('mouseReleased', from[0] - 60, from[1]);
    await page.until(SETTLED);
    times.sort((a, b) => a - b);
    console.log(`         ms: ${summary(times)}`);
    assert.match(await page.value(TEXT), /---\nset p2 width: \d+px\n$/);
    await assertAsProgram(page, program);
  });
  let spent = [];
  await checks.check('an edit behind a document of 240 cards is one edit for the engine', async () => {
    spent = await page.value(`(async () => {
      const times = [], { engine } = gridlay.page;
      for (let width = 100; width < 130; width++) times.push((await engine.layout(${JSON.stringify(cards(240))} + '---\\nset p2 width: ' + width + 'px\\n')).time);
      return times.slice(1).sort((a, b) => a - b);
    })()`);
    console.log(`         ms: ${summary(spent)}`);
  });
  const within = 'such an edit takes the engine less than 30 ms', busy = loadavg()[0] / availableParallelism();
  if (busy > 1.5 && spent[0] >= 30) checks.skip(within, `the machine is busy: ${busy.toFixed(1)} jobs for each processor; ${summary(spent)} ms`);
  else await checks.check(within, () => assert.ok(spent[0] < 30, spent.join(' ')));
}

async function checkLargeTexts(checks, tools, page) {
  const { program, work } = tools;
  await checks.check('64 MB are refused with a word, as a file and as a paste, and the page goes on', async () => {
    await put(page, cards(2));
    const before = await page.value(TEXT), file = join(work, 'large.gridlay');
    writeFileSync(file, Buffer.alloc(1 << 26, 32));
    const { root } = await page.call('DOM.getDocument'), { nodeId } = await page.call('DOM.querySelector', { nodeId: root.nodeId, selector: '#file' });
    const start = Date.now();
    await page.call('DOM.setFileInputFiles', { nodeId, files: [file] });
    await page.until(`(${NOTICE}).includes('67,108,864 characters')`, 5000);
    assert.equal(await page.value(TEXT), before);
    await page.value("gridlay.page.viewer.say('')");
    const isTaken = await page.value("(() => { const data = new DataTransfer(); data.setData('text/plain', ' '.repeat(1 << 26)); return gridlay.page.editor.area.dispatchEvent(new ClipboardEvent('paste', { clipboardData: data, cancelable: true, bubbles: true })); })()");
    assert.equal(isTaken, false);
    assert.match(await page.value(NOTICE), /characters, and this page takes at most/);
    assert.ok(Date.now() - start < 10000);
    assert.equal(await page.value(TEXT), before);
    await caretBehind(page, 'x1 leaf 6');
    await page.type('1');
    await page.until(SETTLED);
    await assertAsProgram(page, program);
  });
}

const CHECKS = [
  checkWords, checkExamples, checkKeys, checkTyping, checkCaret, checkFault, checkRefused, checkDragging, checkScript, checkLatest, checkKept,
  checkHit, checkTrap, checkWorker, checkChosen, checkSpeed, checkDragSpeed, checkLargeTexts, checkMarks, checkNarrow, checkQuiet,
];

/** Checks the page in one window, one check after another. */
export async function checkPlaying(checks, tools) {
  const page = await opened(tools);
  for (const check of CHECKS) await check(checks, tools, page);
  await page.close();
}
