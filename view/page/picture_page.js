// The page of `picture`: shows what the program printed for one file.
(function (gridlay) {
  'use strict';

  const { block, textOfBytes, textOfUtf8 } = gridlay.text;
  const STATUSES = {
    4: 'the input could not be read to its end',
    5: 'the output could not be written',
    6: 'memory was wanting',
    7: 'the input is longer than 2^26 bytes',
  };

  function noticeOf({ status, isCut }) {
    if (isCut) return 'More was printed than a picture holds: the layouts after the last one here are left out.';
    if (!(status in STATUSES)) return '';
    return `The program ended with status ${status}: ${STATUSES[status]}. What it had printed until then is shown.`;
  }

  function start() {
    const name = textOfUtf8(block('name')), [status, isCut] = textOfUtf8(block('ended')).split(' ').map(Number);
    const [text, output] = ['input', 'output'].map(it => textOfBytes(block(it)));
    const run = new gridlay.run.Run({ text, output, status, isBytes: true, isCut: Boolean(isCut) });
    document.title = `${name} \u2013 gridlay`;
    gridlay.page = new gridlay.viewer.Viewer();
    gridlay.page.part.title.textContent = name;
    gridlay.page.part.title.title = name;
    gridlay.page.say(noticeOf(run));
    gridlay.page.open(run, 0);
    if (run.hasNoLayout) gridlay.page.side.showTab('source');
  }

  start();
})(globalThis.gridlay ??= {});
