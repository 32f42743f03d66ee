// node page/tests/pictures.mjs: the pictures of docs/: three examples on the page, in a headless Chromium. Look at them.

import { writeFileSync } from 'node:fs';
import { Browser, ROOT } from './chromium.mjs';

const PICTURES = [
  { file: 'page-timed-call.png', example: 'timed-call', size: [1400, 900], theme: 'light' },
  { file: 'page-unshown.png', example: 'unshown', size: [1400, 900], theme: 'dark', line: 15 },
  { file: 'page-redial.png', example: 'redial', size: [420, 1500], theme: 'light', line: 30 },
];

const browser = await new Browser().begin();
for (const { file, example, size, theme, line } of PICTURES) {
  await browser.look(...size, theme);
  await browser.open(`?command=draw&example=${example}`);
  if (line) await browser.value(`document.getElementById('line-${line}').click()`);
  writeFileSync(`${ROOT}docs/${file}`, await browser.picture());
  process.stdout.write(`pictures: docs/${file}\n`);
}
await browser.end();
