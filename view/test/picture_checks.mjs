// Checks of the pages that `picture` makes.
import assert from 'node:assert/strict';
import { readdirSync, writeFileSync } from 'node:fs';
import { join } from 'node:path';
import { CAPTION, NOTING, SHOWN, answersOf, assertDrawn, cards, makePicture, printedBy, text } from './harness.mjs';

/** Opens the picture of a file, and gives the page. */
async function opened(tools, file, name = file) {
  const { browser, view, program, work } = tools;
  const made = makePicture(view, program, file, join(work, `${name.replace(/\W/g, '_').slice(-40)}.html`));
  assert.equal(made.status, 0, made.said);
  const page = await browser.open();
  await page.call('Page.addScriptToEvaluateOnNewDocument', { source: NOTING });
  await page.size(1200, 760);
  await page.go(made.url);
  return page;
}

/** Nothing was complained of, and nothing asked of the network. */
function assertQuiet(page) {
  assert.deepEqual(page.troubles, []);
  assert.deepEqual(page.requests, []);
}

const MARKED = 'document.querySelector("#caption mark")?.textContent ?? null';
const ROWS = id => `[...document.querySelectorAll('#${id} .row')].map(it => [...it.children].map(child => child.textContent).join(' ').trim())`;

/** Goes through all steps by the key, and holds each to what was printed. */
async function throughSteps(page, source, answers) {
  const lines = source.split('\n');
  await page.key('0');
  let good = [];
  for (const [step, { head, boxes }] of answers.entries()) {
    if (step) await page.key('ArrowRight');
    const isRefused = head[0] === 'refused';
    if (head[0] === 'layout') good = boxes;
    const shown = await page.value(SHOWN), caption = await page.value(CAPTION);
    assert.equal(shown.step, step);
    assertDrawn(shown, good);
    assert.ok(shown.isTree || !good.length, 'the tree is that of the printed names');
    assert.ok(caption.startsWith(`${head[0]} ${head[1]}`), caption);
    if (isRefused) {
      const [line, column] = head[2].split(':').map(Number), token = await page.value(MARKED);
      assert.ok(caption.includes(head[3]), caption);
      assert.ok(token.length > 0 && lines[line - 1].startsWith(token, column - 1), `${token} is marked in ${lines[line - 1]}`);
    } else if (head[1] !== '0') {
      const edits = lines.slice(lines.indexOf('---') + 1).map(it => it.replace(/#.*/, '').trim()).filter(Boolean);
      assert.ok(caption.includes(edits[Number(head[1]) - 1]), caption);
    }
  }
}

async function checkSteps(checks, tools) {
  const { program, shots, examples } = tools;
  for (const file of readdirSync(examples).filter(it => it.endsWith('.gridlay'))) {
    await checks.check(`picture of ${file}: each step draws just the printed boxes, and refusals are marked at their places`, async () => {
      const page = await opened(tools, join(examples, file)), source = text(join(examples, file));
      await throughSteps(page, source, answersOf(printedBy(program, source)));
      await page.picture(join(shots, `picture-${file.replace(/\..*/, '')}.png`));
      assertQuiet(page);
      await page.close();
    });
  }
}

async function checkList(checks, tools) {
  const { program, examples } = tools;
  await checks.check('the list of boxes shows the printed numbers, and the depth of each node', async () => {
    const source = text(join(examples, 'cards.gridlay')), page = await opened(tools, join(examples, 'cards.gridlay'));
    const rows = await page.value(ROWS('boxes'));
    assert.deepEqual(rows, answersOf(printedBy(program, source))[0].boxes);
    const levels = await page.value("[...document.querySelectorAll('#boxes .row')].map(it => Number(it.getAttribute('aria-level')))");
    const wanted = source.split('\n---')[0].split('\n').slice(2).filter(it => it && !it.startsWith('#')).map(it => it.match(/^ */)[0].length / 2 + 1);
    assert.deepEqual(levels, wanted);
    await page.close();
  });
}

async function checkChanges(checks, tools) {
  const { program, examples } = tools;
  await checks.check('boxes that changed are marked, and what came and went is counted', async () => {
    const page = await opened(tools, join(examples, 'cards.gridlay')), answers = answersOf(printedBy(program, text(join(examples, 'cards.gridlay'))));
    for (let step = 1; step < answers.length; step++) {
      await page.key('ArrowRight');
      const before = new Set(answers[step - 1].boxes), names = new Set(answers[step - 1].boxes.map(it => it.split(' ')[0]));
      const wanted = answers[step].boxes.filter(it => !before.has(it)).map(it => it.split(' ')[0]);
      const marked = await page.value("[...document.querySelectorAll('#boxes .row.changed')].map(it => it.children[1].textContent)");
      assert.deepEqual(marked, wanted);
      const added = wanted.filter(it => !names.has(it)).length, gone = names.size + added - answers[step].boxes.length, caption = await page.value(CAPTION);
      assert.equal(caption.includes(`${added} new`), added > 0, caption);
      assert.equal(caption.includes(`${gone} gone`), gone > 0, caption);
    }
    // from the last step, at which all but one box of ten changed: the key C goes from one to the next
    const chosen = [];
    for (let press = 0; press < 3; press++) {
      await page.key('c');
      chosen.push(await page.value("document.querySelector('#boxes .row.chosen').children[1].textContent"));
    }
    const changed = answers.at(-1).boxes.filter(it => !answers.at(-2).boxes.includes(it)).map(it => it.split(' ')[0]);
    assert.deepEqual(chosen, changed.slice(0, 3));
    await page.close();
  });
}

/** A document with an edit of each kind but undo and redo, and two that are refused. */
const ALL_EDITS = `gridlay 1
viewport 100 100
root grid # the root
  a grid{padding:1px}

  # a comment
    a1 leaf 1 1
    a2 words 1 1 { width: 2px; }
  b flex
---
insert a 1 new grid { gap: 1px }
insert new 0 deep leaf 3 3
move a2 new 1
 set b  width: 5px ;
unset b width
content deep words 1 1 1 1
insert nobody 0 none leaf 1 1
move new root 0
remove a
viewport 50 60px
`;

async function checkTree(checks, tools) {
  const { work } = tools;
  await checks.check('the tree follows all kinds of edits', async () => {
    const file = join(work, 'edits.gridlay');
    writeFileSync(file, ALL_EDITS);
    const page = await opened(tools, file), trees = [
      'root 1,a 2,a1 3,a2 3,b 2', 'root 1,a 2,a1 3,new 3,a2 3,b 2', 'root 1,a 2,a1 3,new 3,deep 4,a2 3,b 2', 'root 1,a 2,a1 3,new 3,deep 4,a2 4,b 2',
      'root 1,a 2,a1 3,new 3,deep 4,a2 4,b 2', 'root 1,a 2,a1 3,new 3,deep 4,a2 4,b 2', 'root 1,a 2,a1 3,new 3,deep 4,a2 4,b 2', 'root 1,a 2,a1 3,new 3,deep 4,a2 4,b 2',
      'root 1,new 2,deep 3,a2 3,a 2,a1 3,b 2', 'root 1,new 2,deep 3,a2 3,b 2', 'root 1,new 2,deep 3,a2 3,b 2'];
    for (const [step, tree] of trees.entries()) {
      if (step) await page.key('ArrowRight');
      assert.equal(await page.value("[...document.querySelectorAll('#boxes .row')].map(it => `${it.children[1].textContent} ${it.getAttribute('aria-level')}`).join()"), tree, `step ${step}`);
      assert.equal((await page.value(SHOWN)).isTree, true);
    }
    assert.match(await page.value(CAPTION), /viewport 50 \u00d7 60 /);
    const kinds = await page.value('gridlay.page.scene.nodes.map(it => `${it.kind} ${it.sizes}`.trim()).join()');
    assert.equal(kinds, 'grid,grid,words 1 1 1 1,words 1 1,flex');
    // back again, to a tree from before the edits
    await page.key('Home');
    assert.equal((await page.value(SHOWN)).isTree, true);
    assertQuiet(page);
    await page.close();
  });
}

/** A document whose edits are undone and redone, with points that are asked about. */
const UNDONE = `gridlay 1
viewport 100 50
main flex
  a leaf 20 10
  b leaf 30 10
---
remove a
set b flex-grow: 1
undo 2
hit 15px 5
redo 1
hit 15 40
undo 3
redo 2
`;

async function checkUndone(checks, tools) {
  const { program, work } = tools;
  await checks.check('undone and redone edits, and hits: the tree follows, and the point is marked', async () => {
    // what is printed here was worked by hand, so that this holds for a program that does not know these edits too
    const [file, program] = ['undo.gridlay', 'printer'].map(it => join(work, it));
    writeFileSync(file, UNDONE);
    const [whole, less, wide] = ['main 0 0 100 10\na 0 0 20 10\nb 20 0 30 10', 'main 0 0 100 10\nb 0 0 30 10', 'main 0 0 100 10\nb 0 0 100 10'];
    const printed = `layout 0\n${whole}\nlayout 1\n${less}\nstats 1 2\nlayout 2\n${wide}\nlayout 3\n${whole}\nhit 4 a\nlayout 5\n${less}\nhit 6 -\nrefused 7 13:6 nothing-to-undo\nrefused 8 14:6 nothing-to-redo\n`;
    writeFileSync(program, `#!/bin/sh\ncat >/dev/null\ncat <<'PRINTED'\n${printed}PRINTED\nexit 3\n`, { mode: 0o755 });
    const page = await opened({ ...tools, program }, file), names = '[...document.querySelectorAll("#boxes .row")].map(it => it.children[1].textContent).join()';
    for (const [step, boxes, caption] of [
      [0, whole, /^layout 0/], [1, less, /^layout 1remove a.* 1 gone/], [2, wide, /^layout 2set b/], [3, whole, /^layout 3undo 2.*1 new/],
      [4, whole, /^hit 4hit 15px 5line 10 .* point: a$/], [5, less, /^layout 5redo 1/], [6, less, /^hit 6hit 15 40.*no box holds the point$/],
      [7, less, /^refused 7nothing-to-undoline 13, byte 6/], [8, less, /^refused 8nothing-to-redoline 14, byte 6/]]) {
      if (step) await page.key('ArrowRight');
      assert.match(await page.value(CAPTION), caption);
      const shown = await page.value(SHOWN);
      assertDrawn(shown, boxes.split('\n'));
      assert.equal(shown.isTree, true);
      assert.equal(await page.value(names), boxes.split('\n').map(it => it.split(' ')[0]).join());
      if (step === 4) assert.equal(await page.value("document.querySelector('#boxes .row.chosen').children[1].textContent"), 'a');
      assert.deepEqual(await page.value('gridlay.page.point'), { 4: [15, 5], 6: [15, 40] }[step] ?? null);
    }
    assertQuiet(page);
    await page.close();
  });
}

async function checkChoosing(checks, tools) {
  const { examples } = tools;
  await checks.check('hovering tells the exact numbers; a click in the picture chooses in the list, and the other way round', async () => {
    const page = await opened(tools, join(examples, 'cards.gridlay'));
    const placeOf = name => page.value(`(() => {
      const { scene, part, stage: { view } } = gridlay.page, box = scene.boxes.places.get('${name}'), { x, y, width, height } = scene.boxes;
      const [left, top] = view.toWindow(x[box] + width[box] / 2, y[box] + height[box] - 2), stage = part.canvas.getBoundingClientRect();
      return [stage.left + left, stage.top + top];
    })()`);
    await page.mouse('mouseMoved', ...await placeOf('card3'));
    await page.until("!document.querySelector('#tip').hidden");
    assert.match(await page.value("document.querySelector('#tip').textContent"), /^card3 {2}grid\nx 440 {2}y 80 {2}width 180 {2}height 42/);
    await page.click(...await placeOf('text2'));
    assert.equal(await page.value("document.querySelector('#boxes .row.chosen').children[1].textContent"), 'text2');
    const [x, y] = await page.value("(() => { const it = [...document.querySelectorAll('#boxes .row')].find(it => it.children[1].textContent === 'wide').getBoundingClientRect(); return [it.left + 40, it.top + 8]; })()");
    await page.click(x, y);
    assert.match(await page.value("document.querySelector('#details').textContent"), /^wide {2}grid/);
    await page.key('ArrowUp');
    assert.match(await page.value("document.querySelector('#details').textContent"), /^text3 {2}leaf 80 20/);
    await page.key('Escape');
    assert.equal(await page.value("document.querySelector('#boxes .row.chosen')"), null);
    assertQuiet(page);
    await page.close();
  });
}

async function checkGoing(checks, tools) {
  const { examples } = tools;
  await checks.check('the slider and the list of layouts go to a step', async () => {
    const page = await opened(tools, join(examples, 'cards.gridlay'));
    await page.value("(() => { const it = document.querySelector('#slider'); it.value = '3'; it.dispatchEvent(new Event('input', { bubbles: true })); })()");
    assert.match(await page.value(CAPTION), /^layout 3/);
    await page.value("document.querySelector('#tab-layouts').click()");
    await page.value("document.querySelectorAll('#layouts .row')[5].click()");
    assert.match(await page.value(CAPTION), /^layout 5viewport 400 480/);
    await page.close();
  });
}

async function checkMoving(checks, tools) {
  const { program, examples } = tools;
  await checks.check('zooming and moving draw the same boxes elsewhere', async () => {
    const page = await opened(tools, join(examples, 'toolbar.gridlay')), [{ boxes }] = answersOf(printedBy(program, text(join(examples, 'toolbar.gridlay'))));
    const first = await page.value(SHOWN);
    await page.call('Input.dispatchMouseEvent', { type: 'mouseWheel', x: 300, y: 300, deltaX: 0, deltaY: -60, modifiers: 2 });
    await page.until(`gridlay.page.stage.view.zoom > ${first.zoom} * 1.1`);
    const near = await page.value(SHOWN);
    await page.drag([400, 500], [380, 540]);
    const moved = await page.value(SHOWN);
    assert.deepEqual([moved.zoom, Math.round((near.top - moved.top) * near.zoom)], [near.zoom, 40]);
    await page.key('0');
    assertDrawn(await page.value(SHOWN), boxes);
    await page.key('1');
    assert.equal((await page.value(SHOWN)).zoom, 1);
    await page.close();
  });
}

async function checkLarge(checks, tools) {
  const { program, work, shots } = tools;
  await checks.check('a page of 14,405 boxes: all are drawn, and a step, a scroll and a zoom each take less than 0.3 s', async () => {
    const file = join(work, 'cards2400.gridlay'), source = `${cards(2400)}---\nset x1200 width: 70px\nset nobody width: 1px\nset cards column-gap: 30px\n`;
    writeFileSync(file, source);
    const page = await opened(tools, file), answers = answersOf(printedBy(program, source));
    assert.equal(answers[0].boxes.length, 14405);
    await page.picture(join(shots, 'picture-cards2400.png'));
    await throughSteps(page, source, answers);
    await page.picture(join(shots, 'picture-cards2400-whole.png'));
    const times = await page.value(`(() => {
      const least = does => Math.min(...[1, 2, 3, 4, 5].map(it => { const start = performance.now(); does(it); gridlay.page.stage.draw(true); return performance.now() - start; }));
      return { step: least(it => gridlay.page.go(it % 2)), whole: least(() => gridlay.page.stage.fit('whole')), wide: least(() => gridlay.page.stage.fit('wide')),
        scroll: least(() => { document.querySelector('#boxes').scrollTop += 4000; gridlay.page.side.lists.boxes.look(); }) };
    })()`);
    console.log(`         least ms: ${Object.entries(times).map(([what, time]) => `${what} ${time.toFixed(1)}`).join(', ')}`);
    for (const time of Object.values(times)) assert.ok(time < 300, JSON.stringify(times));
    // what is out of sight is not drawn, and what is in sight is
    const wide = await page.value("(gridlay.page.stage.fit('wide'), gridlay.page.stage.draw(true), gridlay.page.stage.drawn)");
    assert.ok(wide > 20 && wide < 1000, `${wide} boxes drawn`);
    await page.value("document.querySelector('#boxes').scrollTop = 20 * 10000");
    await page.until("document.querySelector('#boxes .row')?.dataset.index > 9000");
    const rows = await page.value(`(() => { const first = Number(document.querySelector('#boxes .row').dataset.index); return [first, ${ROWS('boxes')}]; })()`);
    const shown = (await page.value(SHOWN)).boxes;
    assert.deepEqual(rows[1], shown.slice(rows[0], rows[0] + rows[1].length));
    // a list that is opened shows what is chosen
    await page.value("gridlay.page.choose(gridlay.page.scene.boxes.places.get('y2000'), true), document.querySelector('#tab-source').click()");
    assert.equal(await page.value("document.querySelector('#source .row.chosen')?.textContent"), '12007        y2000 leaf 60 24 { margin-left: auto }');
    await page.value("document.querySelector('#tab-boxes').click()");
    assert.ok((await page.value("document.querySelector('#boxes .row.chosen')?.textContent")).startsWith('y2000'));
    assertQuiet(page);
    await page.close();
  });
}

const NASTY = '</script><script>globalThis.harm = 1</script><img src=x onerror="globalThis.harm = 2">&amp;"\'`${harm}';

/** Inputs of which nothing may run: what each is, its bytes, and how its caption begins. */
const BAD_INPUTS = [
  ['marks of HTML in a comment', Buffer.from(`gridlay 1\nviewport 90 90\n# ${NASTY}\na leaf 1 1\n---\nset ${NASTY}\n`), /^layout 0/],
  ['marks of HTML in place of a name', Buffer.from(`gridlay 1\nviewport 90 90\n${NASTY} leaf 1 1\n`), /^refusedbad-nameline 3, byte 1\./],
  ['control bytes', Buffer.from('gridlay 1\nviewport 90 90\na leaf 1 1 # \x00\x1b[31m\x07\n'), /^refusedbad-byteline 3, byte 14\./],
  ['bytes that are no UTF-8', Buffer.from([...Buffer.from('gridlay 1\nviewport 90 90\na leaf 1 1 # '), 0xff, 0xc3, 0x28, 10]), /^refusedbad-byteline 3, byte 14\./],
  ['carriage returns', Buffer.from('gridlay 1\r\nviewport 90 90\r\na leaf 1 1\r\n'), /^refusedbad-byteline 1, byte 10\./],
  ['an empty file', Buffer.from(''), /^refusedbad-headerline 1, byte 1\./],
  ['a long line', Buffer.from(`gridlay 1\nviewport 90 90\na words 1 1${' 10'.repeat(30000)}\n`), /^refusedline-too-longline 3, byte 65537\./],
];

async function checkBadInput(checks, tools) {
  const { work } = tools;
  for (const [what, bytes, place] of BAD_INPUTS) {
    await checks.check(`picture of ${what}: shown as text where it stands, and nothing of it runs`, async () => {
      const file = join(work, `${what.replace(/\W/g, '-')}"<b>&.gridlay`);
      writeFileSync(file, bytes);
      const page = await opened(tools, file), caption = await page.value(CAPTION);
      assert.match(caption, place);
      assert.equal(await page.value('typeof globalThis.harm'), 'undefined');
      assert.equal(await page.value("document.querySelectorAll('img, b b, title + script[src]').length"), 0);
      assert.ok((await page.value("document.querySelector('#title').textContent")).endsWith('"<b>&.gridlay'));
      await page.value("document.querySelector('#tab-source').click()");
      const shown = (await page.value(ROWS('source'))).map(it => it.replace(/^\d+ /, ''));
      const pictured = new TextDecoder().decode(bytes).replace(/[\x00-\x09\x0b-\x1f]/g, it => String.fromCharCode(0x2400 + it.charCodeAt(0)));
      const wanted = pictured.split('\n').slice(0, shown.length).map(it => it.slice(0, 300).trim());
      assert.deepEqual(shown.map(it => it.slice(0, 300).trim()).filter((_, at) => !wanted[at].startsWith('a words')), wanted.filter(it => !it.startsWith('a words')));
      assertQuiet(page);
      await page.close();
    });
  }
}

async function checkNotDrawn(checks, tools) {
  const { view, program, work } = tools;
  await checks.check('picture says a word where it draws nothing: 64 MB, no file, no program, no word', () => {
    const file = join(work, 'large.gridlay');
    writeFileSync(file, Buffer.alloc(1 << 26, 10));
    const start = Date.now(), large = makePicture(view, program, file, join(work, 'none.html'));
    assert.deepEqual([large.status, large.bytes], [65, 0]);
    assert.match(large.said, /has 67108864 bytes, and a picture is drawn of at most 8388608/);
    assert.ok(Date.now() - start < 5000);
    writeFileSync(file, '');
    const missing = makePicture(view, program, join(work, 'no such file'), join(work, 'none.html'));
    assert.deepEqual([missing.status, missing.bytes], [66, 0]);
    const unbuilt = makePicture(view, join(work, 'no such program'), file, join(work, 'none.html'));
    assert.deepEqual([unbuilt.status, unbuilt.bytes], [69, 0]);
    assert.match(unbuilt.said, /the program is not built/);
  });
}

async function checkLooks(checks, tools) {
  const { shots, examples } = tools;
  await checks.check('light and dark follow the system, also while the page is open', async () => {
    const page = await opened(tools, join(examples, 'cards.gridlay'));
    // (from 0, black, to 765, white)
    const ground = "[...gridlay.page.part.canvas.getContext('2d').getImageData(2, 2, 1, 1).data].slice(0, 3).reduce((a, b) => a + b)";
    await page.scheme('light');
    await page.until(`${ground} > 600`, 5000);
    await page.scheme('dark');
    await page.until(`${ground} < 180`, 5000);
    await page.key('ArrowRight');
    await page.picture(join(shots, 'picture-cards-dark.png'));
    await page.close();
  });

  await checks.check('the picture that README shows can be made', async () => {
    const page = await opened(tools, join(examples, 'cards.gridlay'));
    await page.size(1020, 430);
    await page.until('gridlay.page.stage.view.width === 680');
    for (const key of ['ArrowRight', 'ArrowRight', '9', ...Array(6).fill('ArrowDown')]) await page.key(key);
    assert.match(await page.value(CAPTION), /^layout 2insert page 5 card5 leaf 100 40.*1 new$/);
    assert.match(await page.value("document.querySelector('#details').textContent"), /^text2 {2}words, 5 of them/);
    await page.value('gridlay.page.stage.draw(true)');
    await page.picture(join(shots, 'cards.png'));
    await page.close();
  });

  await checks.check('in a narrow window all is in reach', async () => {
    const page = await opened(tools, join(examples, 'form.gridlay'));
    await page.size(380, 700);
    await page.until('gridlay.page.stage.view.width === 380');
    const room = await page.value("[document.documentElement.scrollWidth, document.querySelector('#canvas').clientHeight, document.querySelector('#boxes').clientHeight]");
    assert.ok(room[0] <= 380 && room[1] >= 200 && room[2] >= 60, room.join(' '));
    await page.key('End');
    await page.picture(join(shots, 'picture-form-narrow.png'));
    await page.close();
  });
}

const CHECKS = [
  checkSteps, checkList, checkChanges, checkTree, checkUndone, checkChoosing, checkGoing, checkMoving, checkLarge, checkBadInput, checkNotDrawn,
  checkLooks,
];

/** Checks the pages one after another. */
export async function checkPictures(checks, tools) {
  for (const check of CHECKS) await check(checks, tools);
}
