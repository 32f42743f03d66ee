// node page/tests/check.mjs: the page without a browser. Each mark stands in the picture of each example as often as its
// entries in the trace; a window of a long trace is what the whole picture has there; the sentences on sets and frames are the native ones.

import { spawnSync } from 'node:child_process';
import { existsSync, mkdtempSync, readFileSync, readdirSync, rmSync, symlinkSync } from 'node:fs';
import { tmpdir } from 'node:os';
import { fileURLToPath } from 'node:url';
import { chartOf, drawWhole, drawWindow } from '../src/chart.js';
import { layOut } from '../src/layout.js';
import { readTrace } from '../src/trace.js';
import { readVerdict, verdictOf } from '../src/verdict.js';
import { longTrace } from './long.mjs';
import { isSaid } from './sentences.mjs';
import { expect, tellTally } from './tally.mjs';

const ROOT = fileURLToPath(new URL('../../', import.meta.url)), EXAMPLES = `${ROOT}examples/`;
const ANSWERS = { recorded: 'verdict', hex: 'description', facts: 'sets', frames: 'told', script: 'trace' };
const COMMANDS = { recorded: 'replay', hex: 'decode', facts: 'encode', frames: 'frames', script: 'run' };
const stored = name => (existsSync(EXAMPLES + name) ? readFileSync(EXAMPLES + name, 'utf8') : null);
const count = (text, part) => text.split(part).length - 1;

/** How often each item stands in a trace, counted from its lines alone. Items of a relay desk have no mark. */
function itemsOf(trace) {
  const counts = {};
  for (const line of trace.split('\n')) {
    const found = /^\d+ ([a-z]+)/.exec(line);
    if (found && found[1] !== 'relay') counts[found[1]] = (counts[found[1]] ?? 0) + 1;
  }
  return counts;
}

function checkMarks(name, trace) {
  const picture = chartOf(trace);
  const counts = itemsOf(trace);
  for (const [item, times] of Object.entries(counts)) expect(`${name}: marks of ${item}`, count(picture, `data-item="${item}"`), times);
  expect(`${name}: all marks`, count(picture, 'data-item='), Object.values(counts).reduce((sum, times) => sum + times, 0));
  expect(`${name}: arrows`, count(picture, 'class="sent under'), counts.send ?? 0);
  expect(`${name}: legs`, count(picture, 'class="leg '), counts.up ?? 0);
  expect(`${name}: voices`, count(picture, 'class="voice '), 2 * (counts.voice ?? 0));
  expect(`${name}: clocks`, count(picture, 'class="clock"'), trace.split('\n').filter(line => /^\d+ ended \w+ [1-9]/.test(line)).length);
}

function checkVerdict(name, trace, verdict) {
  const read = readVerdict(verdict);
  expect(`${name}: verdicts`, count(chartOf(trace, read), 'data-verdict='), read.line === null ? 0 : 1);
}

/** What the page says of a set or a frame is what the native program says on standard error; of another line it has the same reason or rule. */
function checkSentence(name, kind) {
  const said = stored(`${name}.said`), answer = stored(`${name}.${ANSWERS[kind]}`);
  if (said === null || answer === null) return;
  const { line, why } = verdictOf(answer, COMMANDS[kind]);
  expect(`${name}: sentence`, isSaid(line, why, said), true);
}

/** The windows of a picture hold each mark of the whole one, and each at the same height. */
function checkWindows() {
  const { entries } = readTrace(longTrace(20_000));
  expect('long trace: entries', entries.length, 20_000);
  const layout = layOut(entries), began = performance.now();
  const marks = new Map();
  const pieces = text => text.match(/<g class="item".*?<\/g>/g) ?? [];
  for (let from = 0; from < layout.height; from += 1500) {
    for (const mark of pieces(drawWindow(layout, from, from + 1500))) marks.set(/data-line="(\d+)"/.exec(mark)[1], mark);
  }
  expect('long trace: marks in windows', [...marks.values()].join(''), pieces(drawWhole(layout)).join(''));
  expect('long trace: columns', layout.columns < 10, true);
  const took = performance.now() - began, windows = Math.ceil(layout.height / 1500);
  process.stdout.write(`check: 20,000 entries in ${windows} windows, ${(took / windows).toFixed(2)} ms each\n`);
}

/** The program for a command line draws the page's picture, and says what is no trace. */
function checkProgram() {
  const draw = (words, input) => spawnSync('node', [`${ROOT}page/chart.mjs`, ...words], { input, encoding: 'utf8' });
  const trace = stored('unshown.recorded'), verdict = stored('unshown.verdict');
  expect('chart.mjs: picture', draw([], trace).stdout, chartOf(trace));
  expect('chart.mjs: picture with a verdict', draw([verdict], trace).stdout, chartOf(trace, readVerdict(verdict)));
  expect('chart.mjs: no trace', draw([], 'vin X\n').status, 1);
  expect('chart.mjs: no verdict', draw(['fine'], trace).status, 1);
}

/** The lines of README that draw at the command line run as they stand, and write pictures. */
function checkReadme() {
  const folder = mkdtempSync(`${tmpdir()}/ecall-chart-`);
  ['page', 'examples'].forEach(name => symlinkSync(ROOT + name, `${folder}/${name}`));
  const lines = readFileSync(`${ROOT}README.md`, 'utf8').match(/(?<=^ {4}\$ )node page\/chart\.mjs .*$/gm) ?? [];
  expect('README: lines that draw', lines.length, 2);
  for (const line of lines) {
    expect(`README: ${line}`, spawnSync('sh', ['-c', line], { cwd: folder }).status, 0);
    const picture = readFileSync(`${folder}/${line.split('> ').at(-1)}`, 'utf8');
    expect(`README: picture of ${line}`, count(picture, 'data-item=') > 10, true);
  }
  rmSync(folder, { recursive: true });
}

/** Lines of a relay desk are no entries: the picture passes them over, and the program says how many. */
function checkDesk() {
  const trace = stored('second-point.trace'), lines = trace.split('\n');
  const { entries, others } = readTrace(trace);
  const ofDesk = lines.flatMap((line, index) => (line.split(' ')[1] === 'relay' ? [index + 1] : []));
  expect('relay desk: entries', entries.length, lines.length - 1 - ofDesk.length);
  expect('relay desk: lines passed over', others.join(), ofDesk.join());
  const said = spawnSync('node', [`${ROOT}page/chart.mjs`], { input: trace, encoding: 'utf8' }).stderr;
  expect('relay desk: what is said', said, `chart: ${ofDesk.length} lines are no entries, the first is line ${ofDesk[0]}\n`);
}

/** What stands in a trace is text in the picture, and never an element of it. */
function checkEscapes() {
  const picture = chartOf('0 up vehicle 1\n1 down vehicle 1 <script>&"\n');
  expect('escapes: elements', count(picture, '<script'), 0);
  expect('escapes: texts', count(picture, '&lt;script&gt;&amp;&quot;'), 2);
}

for (const file of readdirSync(EXAMPLES).sort()) {
  const [name, kind] = file.split('.');
  if (kind === 'trace' || kind === 'recorded') checkMarks(file, stored(file));
  if (kind === 'trace') checkVerdict(file, stored(file), 'sound 1');
  if (kind === 'recorded') checkVerdict(file, stored(file), stored(`${name}.verdict`));
  if (kind in ANSWERS) checkSentence(name, kind);
}
checkWindows();
checkProgram();
checkReadme();
checkDesk();
checkEscapes();
tellTally('check', 'Node');
