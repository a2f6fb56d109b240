// Runs the checks: node run.mjs BROWSER PROGRAM VIEW SHOTS PLAYING-PAGE-OR-'' WORD-OR-''
import { mkdirSync, mkdtempSync, rmSync } from 'node:fs';
import { tmpdir } from 'node:os';
import { join } from 'node:path';
import { start } from './browser.mjs';
import { Checks } from './harness.mjs';
import { checkPictures } from './picture_checks.mjs';
import { checkPlaying } from './play_checks.mjs';

const [browserProgram, program, view, shots, playing, word] = process.argv.slice(2);
const work = mkdtempSync(join(tmpdir(), 'gridlay-view-test-'));
mkdirSync(shots, { recursive: true });
const checks = new Checks(word), browser = await start(browserProgram);
const tools = { browser, program, view, shots, work, playing, examples: join(view, '..', 'examples') };
console.log(`the browser is ${browser.product}`);
try {
  await checkPictures(checks, tools);
  if (playing) await checkPlaying(checks, tools);
  else checks.skip('the page that lays out while you type', 'it is not built: view/build_engine.sh builds it');
} finally {
  await browser.close();
  rmSync(work, { recursive: true, force: true });
}
console.log(`the screenshots lie in ${shots}`);
process.exit(checks.end());
