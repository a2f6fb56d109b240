// What the checks share: a list of named checks, the program itself, pages made by `picture`, and what a canvas was told to draw.
import assert from 'node:assert/strict';
import { spawnSync } from 'node:child_process';
import { readFileSync, writeFileSync } from 'node:fs';
import { join } from 'node:path';
import { pathToFileURL } from 'node:url';

/** Runs checks one after another, and counts them; only those with a word in their names, where one is told. */
export class Checks {
  constructor(word) {
    this.word = word;
    this.passed = 0;
    this.failed = 0;
    this.skipped = 0;
  }

  async check(name, does) {
    if (!name.includes(this.word)) return;
    try {
      await does();
      this.passed++;
      console.log(`ok       ${name}`);
    } catch (error) {
      this.failed++;
      console.log(`FAILED   ${name}\n${String(error.stack ?? error).replace(/^/gm, '         ')}`);
    }
  }

  skip(name, why) {
    if (!name.includes(this.word)) return;
    this.skipped++;
    console.log(`skipped  ${name}: ${why}`);
  }

  end() {
    console.log(`${this.passed} passed, ${this.failed} failed, ${this.skipped} skipped`);
    return this.failed ? 1 : 0;
  }
}

/** What the program itself prints for a text, as a text. */
export function printedBy(program, input) {
  const ran = spawnSync(program, ['layout'], { input, maxBuffer: 1 << 28 });
  if (ran.error) throw ran.error;
  return ran.stdout.toString('latin1');
}

/** The answers in a printed text, read here anew: `{ head: words, boxes: [line] }`. */
export function answersOf(printed) {
  const answers = [];
  for (const line of printed.split('\n').slice(0, -1)) {
    const words = line.split(' ');
    if (words.length === 5) answers.at(-1).boxes.push(line);
    else if (words[0] !== 'stats') answers.push({ head: words, boxes: [] });
  }
  return answers;
}

/** The page that `picture` makes of a file, and what it said. */
export function makePicture(view, program, file, into) {
  const ran = spawnSync(join(view, 'picture'), [file], { env: { ...process.env, GRIDLAY_PROGRAM: program }, maxBuffer: 1 << 28 });
  if (ran.error) throw ran.error;
  writeFileSync(into, ran.stdout);
  return { status: ran.status, said: ran.stderr.toString(), bytes: ran.stdout.length, url: pathToFileURL(into).href };
}

/** Has a page note each rectangle that its canvas fills since the last one that covered all of it. */
export const NOTING = `(() => {
  const fill = CanvasRenderingContext2D.prototype.fillRect;
  globalThis.noted = [];
  CanvasRenderingContext2D.prototype.fillRect = function (x, y, width, height) {
    if (x === 0 && y === 0 && width === this.canvas.width && height === this.canvas.height && this.globalAlpha === 1) globalThis.noted = [];
    globalThis.noted.push([x, y, width, height]);
    return fill.call(this, x, y, width, height);
  };
})()`;

/** What stands above the picture. */
export const CAPTION = 'document.querySelector("#caption").textContent';

/** What the viewer shows now, from the page itself. */
export const SHOWN = `(() => {
  const viewer = gridlay.page.viewer ?? gridlay.page, { zoom, left, top, ratio } = viewer.stage.view;
  viewer.stage.draw(true);
  return {
    step: viewer.step, drawn: viewer.stage.drawn, zoom, left, top, ratio, noted: globalThis.noted,
    boxes: viewer.scene ? viewer.scene.boxes.names.map((name, at) => [name, ...viewer.scene.boxes.printed(at)].join(' ')) : [],
    isTree: viewer.scene?.isTree ?? false,
  };
})()`;

/** Asserts that what a page drew are just the boxes that were printed: each rectangle once, in their order, at its place. */
export function assertDrawn(shown, boxes) {
  assert.deepEqual(shown.boxes, boxes);
  assert.equal(shown.drawn, boxes.length);
  // (the first two rectangles are the ground and the viewport)
  const rectangles = shown.noted.slice(2, 2 + boxes.length), by = shown.zoom * shown.ratio;
  assert.equal(rectangles.length, boxes.length);
  for (const [at, line] of boxes.entries()) {
    const [x, y, width, height] = line.split(' ').slice(1).map(Number);
    const wanted = [(x - shown.left) * by, (y - shown.top) * by, (x + width - shown.left) * by, (y + height - shown.top) * by];
    const [left, top, wide, high] = rectangles[at], is = [left, top, left + wide, top + high];
    // half a pixel of the screen for whole pixels, and a line where a box has no width or height
    const room = [0.501, 0.501, wanted[2] - wanted[0] < 1 ? 1.501 : 0.501, wanted[3] - wanted[1] < 1 ? 1.501 : 0.501];
    for (const side of [0, 1, 2, 3]) {
      assert.ok(Math.abs(is[side] - wanted[side]) <= room[side], `${line}: drawn ${is.join(' ')}, wanted ${wanted.join(' ')}`);
    }
  }
}

/** A page of so many cards, six boxes each, and five boxes more. */
export function cards(count) {
  const lines = ['gridlay 1', 'viewport 1000 600', 'main grid { grid-template-columns: 1fr; row-gap: 20px; padding: 10px }',
    '  head flex { justify-content: space-between; align-items: center }', '    logo leaf 120 40', '    nav words 20 5 40 50 60',
    '  cards grid { grid-template-columns: repeat(auto-fill, minmax(200px, 1fr)); gap: 20px }'];
  for (let card = 1; card <= count; card++) {
    lines.push(`    c${card} grid { grid-row: span 3; grid-template-rows: subgrid; row-gap: 4px }`, `      t${card} words 20 5 60 70`,
      `      p${card} words 16 4${' 40'.repeat(12)}`, `      f${card} flex { column-gap: 8px }`, `        x${card} leaf 60 24`, `        y${card} leaf 60 24 { margin-left: auto }`);
  }
  return `${lines.join('\n')}\n`;
}

export function text(file) {
  return readFileSync(file, 'utf8');
}
