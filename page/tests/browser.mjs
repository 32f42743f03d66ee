// node page/tests/browser.mjs PROGRAM: the page in a headless Chromium, opened from the disk. Each example through the page gives
// the bytes, the status and the sentence of the native PROGRAM, and the text that is stored beside it; each trace its picture.

import { spawnSync } from 'node:child_process';
import { existsSync, readFileSync } from 'node:fs';
import { chartOf } from '../src/chart.js';
import { readVerdict } from '../src/verdict.js';
import { examplesOf } from '../pack.mjs';
import { Browser, ROOT } from './chromium.mjs';
import { longTrace } from './long.mjs';
import { isSaid } from './sentences.mjs';
import { expect, tallyOver } from './tally.mjs';

const EXAMPLES = `${ROOT}examples/`;
const ANSWERS = { run: 'trace', tones: 'trace', relay: 'trace', floor: 'trace', register: 'register', replay: 'verdict', decode: 'description', encode: 'sets', frames: 'told' };

/** Chooses on the page as a person does. */
const chose = (id, value) => `(() => { const box = document.getElementById('${id}'); box.value = ${JSON.stringify(value)}; box.dispatchEvent(new Event('change')); })()`;
const typed = text => `(() => { const area = document.getElementById('input'); area.value = ${JSON.stringify(text)}; area.dispatchEvent(new Event('input')); })()`;
const GO = "document.querySelector('form > button').click()";
const STATUS = "document.getElementById('status').textContent";
/** What a button offers as a file, as text. */
const offered = id => `new Promise(done => { const was = URL.createObjectURL; URL.createObjectURL = blob => { URL.createObjectURL = was; blob.text().then(done); return 'about:blank#'; };
  HTMLAnchorElement.prototype.click = () => {}; document.getElementById('${id}').click(); })`;

const native = (program, words, input) => spawnSync(program, words, { input, encoding: 'utf8', maxBuffer: 1 << 28 });

/** What the page says and offers is what the program says and writes. */
async function checkAnswer(browser, what, { stdout, stderr, status }) {
  expect(`${what}: text`, await browser.value(offered('save')), stdout);
  expect(`${what}: status`, /\(status (\d)\)/.exec(await browser.value(STATUS))?.[1], String(status));
  const judged = status === 2 || status === 3;
  const [, line, why] = /^line (\d+): (.*)$/s.exec(await browser.value("document.querySelector('#judged:not([hidden]) span')?.textContent ?? ''")) ?? [];
  expect(`${what}: sentence`, judged ? isSaid(line, why, stderr) : line === undefined, true);
  expect(`${what}: marked line`, await browser.value("document.getElementById('refused').hidden"), !judged);
}

async function checkAnswers(browser, program) {
  for (const { commands, numbers, name, file, text } of examplesOf()) {
    for (const command of commands.filter(one => one !== 'draw')) {
      await browser.value(chose('command', command));
      await browser.value(chose('example', name));
      const ran = native(program, [command, ...numbers], text), stored = `${EXAMPLES}${name}.${ANSWERS[command]}`;
      await checkAnswer(browser, `${command} < ${file}`, ran);
      if (command !== 'replay' || file.endsWith('.recorded')) expect(`${command} < ${file}: stored`, ran.stdout, existsSync(stored) ? readFileSync(stored, 'utf8') : ran.stdout);
    }
  }
}

async function checkNumbered(browser, program) {
  for (const [command, number] of [['conform'], ['make', '0'], ['make', '7'], ['make', '4294967295'], ['trial', '3']]) {
    await browser.value(chose('command', command));
    if (number) await browser.value(chose('number', number));
    await browser.value(GO);
    await checkAnswer(browser, [command, number].join(' ').trim(), native(program, number ? [command, number] : [command], ''));
  }
}

/** A made script of 20,000 lines is played in the page, and its trace of many more is drawn in a window. */
async function checkMade(browser, program) {
  const script = native(program, ['make', '3'], '').stdout, ran = native(program, ['run'], script);
  await browser.value(chose('command', 'run'));
  await browser.value(typed(script));
  const took = await browser.value(`(() => { const began = performance.now(); ${GO}; return performance.now() - began; })()`);
  await checkAnswer(browser, 'run of make 3', ran);
  expect('run of make 3: drawn in a window', await browser.value("document.querySelectorAll('#canvas [data-item]').length > 5"), true);
  process.stdout.write(`browser: ${ran.stdout.length} bytes of a trace written and drawn in ${took.toFixed(0)} ms\n`);
}

/** What a command wrote, or judged, is drawn as the picture of that trace. */
async function checkDrawn(browser) {
  for (const { commands, name, file, text, verdict } of examplesOf()) {
    const command = ['run', 'tones', 'relay', 'replay'].find(one => commands.includes(one));
    if (!command) continue;
    await browser.value(chose('command', command));
    await browser.value(chose('example', name));
    const trace = command === 'replay' ? text : await browser.value(offered('save'));
    const wanted = chartOf(trace, command === 'replay' ? readVerdict(verdict ?? await browser.value(offered('save'))) : null);
    expect(`${command} < ${file}: picture`, await browser.value(offered('save-chart')), wanted);
  }
}

/** The page says by which module a command runs, and what is trusted for it. */
async function checkTrust(browser) {
  for (const [command, module] of [['decode', 'the module that the toolchain of ecall builds'], ['run', 'the module with all of ecall'], ['draw', 'draw runs no module']]) {
    await browser.value(chose('command', command));
    expect(`${command}: trust`, (await browser.value("document.getElementById('trust').textContent")).includes(module), true);
  }
}

async function checkPictures(browser) {
  await browser.value(chose('command', 'draw'));
  for (const { name, file, text, verdict } of examplesOf().filter(({ commands }) => commands.includes('draw'))) {
    await browser.value(chose('example', name));
    const wanted = chartOf(text, verdict ? readVerdict(verdict) : null);
    expect(`draw < ${file}: picture`, await browser.value(offered('save-chart')), wanted);
    const drawn = await browser.value("document.querySelectorAll('#canvas [data-item]').length");
    expect(`draw < ${file}: something is in sight`, drawn > 0, true);
  }
}

/** An item is found from its line, and the line from its item, by the pointer and by the keyboard. */
async function checkLinks(browser) {
  await browser.open('?command=draw&example=timed-call');
  const chosen = "document.querySelector('#canvas .chosen')?.dataset.line", line = "document.querySelector('#output [aria-selected=true]')?.id";
  await browser.value("document.getElementById('line-9').click()");
  expect('mark of a line', await browser.value(chosen), '9');
  await browser.value("document.querySelector('#canvas [data-line=\"3\"]').dispatchEvent(new MouseEvent('click', { bubbles: true }))");
  expect('line of a mark', await browser.value(line), 'line-3');
  for (const place of ['chart', 'output']) {
    const was = Number(await browser.value(chosen));
    await browser.value(`document.getElementById('${place}').focus()`);
    await browser.press('ArrowDown');
    expect(`${place}: arrow down`, await browser.value(chosen), String(was + 1));
    expect(`${place}: its line`, await browser.value(line), `line-${was + 1}`);
  }
}

/** Each control has a name that a screen reader says. */
async function checkNames(browser) {
  const { nodes } = await browser.send('Accessibility.getFullAXTree');
  const roles = new Set(['button', 'combobox', 'textbox', 'spinbutton', 'listbox', 'link', 'image', 'application']);
  const nameless = nodes.filter(node => !node.ignored && roles.has(node.role?.value) && !node.name?.value).map(node => node.role.value);
  expect('controls without a name', nameless.join(' '), '');
}

async function checkLong(browser) {
  await browser.value(chose('command', 'draw'));
  await browser.value(typed(longTrace(20_000)));
  const took = await browser.value(`(() => { const began = performance.now(); ${GO}; document.getElementById('chart').clientHeight; return performance.now() - began; })()`);
  const drawn = "document.querySelectorAll('#canvas [data-item]').length";
  expect('long trace: entries', await browser.value(STATUS), '20000 entries');
  expect('long trace: drawn in a window', await browser.value(`${drawn} > 5 && ${drawn} < 400`), true);
  await browser.value("document.getElementById('chart').scrollTop = 1e9");
  await browser.until("document.querySelector('#canvas [data-line=\"20000\"]') !== null");
  expect('long trace: still a window', await browser.value(`${drawn} < 400`), true);
  await browser.value("document.getElementById('line-9000').click()");
  expect('long trace: the mark of a line', await browser.value("document.querySelector('#canvas .chosen')?.dataset.line"), '9000');
  process.stdout.write(`browser: 20,000 entries drawn in ${took.toFixed(0)} ms\n`);
}

async function checkLooks(browser) {
  const wide = "document.documentElement.scrollWidth <= innerWidth";
  const paper = "getComputedStyle(document.querySelector('#canvas .paper')).fill";
  for (const [width, height, theme, colour] of [[1400, 900, 'light', 'rgb(255, 255, 255)'], [1400, 900, 'dark', 'rgb(20, 24, 29)'], [390, 800, 'light', 'rgb(255, 255, 255)']]) {
    await browser.look(width, height, theme);
    await browser.open('?command=draw&example=unshown');
    expect(`${width} pixels, ${theme}: fits`, await browser.value(wide), true);
    expect(`${width} pixels, ${theme}: paper`, await browser.value(paper), colour);
  }
}

async function main(program) {
  const browser = await new Browser().begin();
  try {
    await browser.look(1400, 900);
    await browser.open();
    await checkTrust(browser);
    await checkAnswers(browser, program);
    await checkNumbered(browser, program);
    await checkMade(browser, program);
    await checkPictures(browser);
    await checkDrawn(browser);
    await checkLinks(browser);
    await checkNames(browser);
    await checkLong(browser);
    await checkLooks(browser);
    expect('requests beside files', browser.requests.filter(url => !/^(file|blob|data|about):/.test(url)).join(' '), '');
    expect('faults on the page', browser.faults.join('; '), '');
  } finally {
    await browser.end();
  }
}

await tallyOver(process.argv[2], 'browser', 'Chromium', main);
