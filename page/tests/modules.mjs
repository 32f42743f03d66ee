// node page/tests/modules.mjs PROGRAM: both modules of the page, without a browser, beside the built PROGRAM: the same bytes, the
// same status, and where a line is refused or breaks a rule the same sentence. Over the examples, over made scripts, over words
// that name no command, over lines that are none, over examples of which some lines were changed, over rooms that are full, and over memory that
// ends.

import { spawnSync } from 'node:child_process';
import { readFileSync, readdirSync } from 'node:fs';
import { setFlagsFromString } from 'node:v8';
import { PAGE, ROOM, isSupported, loadModule } from '../src/module.js';
import { verdictOf } from '../src/verdict.js';
import { examplesOf } from '../pack.mjs';
import { isSaid } from './sentences.mjs';
import { expect, tallyOver } from './tally.mjs';

const OUT = new URL('../out/', import.meta.url), EXAMPLES = new URL('../../examples/', import.meta.url);
const MOST_INPUT = 16_777_216, MOST_NATIVE = 1 << 29;

const bytesOf = text => (typeof text === 'string' ? new TextEncoder().encode(text) : text);

/** Where two texts differ first; an empty text where they don't. */
function difference(got, wanted) {
  const [one, other] = [got, wanted].map(bytes => Buffer.from(bytes.buffer, bytes.byteOffset, bytes.length));
  if (one.equals(other)) return '';
  let at = 0;
  while (at < one.length && one[at] === other[at]) at += 1;
  return `${one.length} bytes for ${other.length}, from byte ${at} on: ${JSON.stringify(one.subarray(at, at + 40).toString())} for ${JSON.stringify(other.subarray(at, at + 40).toString())}`;
}

const native = (program, words, input) => spawnSync(program, words, { input, maxBuffer: MOST_NATIVE });

/** Tries words and an input on the program, and on each module that takes the words; answers what the program wrote. */
function compare(program, modules, words, input, name) {
  const ran = native(program, words, bytesOf(input)), what = `${words.join(' ')} < ${name}`;
  const text = ran.stdout.toString(), verdict = ran.status === 2 || ran.status === 3 ? verdictOf(text, words[0]) : null;
  if (verdict) expect(`${what}: sentence`, isSaid(verdict.line, verdict.why, ran.stderr.toString()), true);
  for (const module of modules.filter(one => one.takes(words))) {
    const { status, bytes } = module.run(words, bytesOf(input));
    expect(`${what}: status ${module.isWhole ? 'of the whole' : 'of the plain'} module`, status, ran.status);
    expect(`${what}: text ${module.isWhole ? 'of the whole' : 'of the plain'} module`, difference(bytes, ran.stdout), '');
  }
  return text;
}

/** Draws numbers that are the same in each run. */
function drawing(seed) {
  let x = seed;
  return below => {
    x = (Math.imul(x, 1664525) + 1013904223) >>> 0;
    return Math.floor(x / 65536) % below;
  };
}

/** A text of which a few lines were doubled, taken out, put elsewhere, or given another number or character. */
function changed(text, draw) {
  const lines = text.split('\n');
  for (let times = 1 + draw(4); times > 0; times -= 1) {
    const at = draw(lines.length), line = lines[at];
    const other = [
      () => [line, line], () => [], () => [lines[draw(lines.length)], line], () => [line.replace(/\d+/, () => String(draw(400)))],
      () => [`${line.slice(0, draw(line.length + 1))}${'0a x#'[draw(5)]}${line.slice(draw(line.length + 1))}`],
    ][draw(5)]();
    lines.splice(at, 1, ...other);
  }
  return lines.join('\n');
}

const REFUSED = {
  run: ['trigger', 'tick 01', 'tick  1', 'x'.repeat(513), 'tick\t1', 'set 0', 'trigger auto', 'trigger auto\nvin X', 'vin X\nextra 01 00\n'.repeat(6)],
  replay: ['0 dial', '0 dail 1', '5 nothing\n4 nothing', '0 dial  1', '0 dial 1\r', '0 acked 1 1 00', '0 up vehicle 01'],
  encode: ['write auto 1', 'vin WM9VDSVDSYA12345', 'kind 99', 'extra 01'], frames: ['7', '07', '0200', '0407', '060101'],
  decode: ['00', '', '0'.repeat(282), '0300', '02', 'zz'],
};
const NO_WORDS = [['nothing'], [''], ['make'], ['make', '01'], ['make', '4294967296'], ['trial', 'x'], ['tones', '1500', '1'], ['tones', '500'],
  ['run', '1'], ['conform', '1', '2'], ['run '], ['tones', '500', '-1'], ['r\u00fcn']];

function compareExamples(program, modules) {
  for (const { commands, numbers, file, text } of examplesOf()) {
    for (const command of commands.filter(name => name !== 'draw')) compare(program, modules, [command, ...numbers], text, file);
    if (commands[0] === 'run') compare(program, modules, ['tones', '700', '3'], text, file);
    if (commands[0] === 'run') compare(program, modules, ['relay'], text, file);
  }
  for (const file of readdirSync(EXAMPLES).filter(name => name.endsWith('.trace'))) compare(program, modules, ['replay'], readFileSync(new URL(file, EXAMPLES)), file);
}

/** The scripts of some numbers, and what becomes of them. */
function compareMade(program, modules) {
  for (const number of ['0', '3', '4294967295']) {
    compare(program, modules, ['trial', number], '', 'nothing');
    const script = compare(program, modules, ['make', number], '', 'nothing');
    compare(program, modules, ['register'], script, `make ${number}`);
    compare(program, modules, ['replay'], compare(program, modules, ['run'], script, `make ${number}`), `run of make ${number}`);
  }
  compare(program, modules, ['conform'], '', 'nothing');
}

function compareChanged(program, modules) {
  const draw = drawing(20);
  for (const { commands, numbers, file, text } of examplesOf()) {
    for (let times = 0; times < 6; times += 1) {
      const other = changed(text, draw);
      for (const command of commands.filter(name => name !== 'draw')) compare(program, modules, [command, ...numbers], other, `${file}, changed ${times}`);
    }
  }
}

function compareRefused(program, modules) {
  for (const words of NO_WORDS) compare(program, modules, words, 'trigger auto\n', 'a line');
  for (const [command, inputs] of Object.entries(REFUSED)) inputs.forEach(input => compare(program, modules, [command], input, JSON.stringify(input.slice(0, 40))));
}

/** Where the answer has no room, its room is full of the beginning of what the program writes; and an input may be too long. */
function compareFull(program, modules) {
  const set = '02000681d54970d65c3597ca0420c414640af05f080452e9960413e2550168\n';
  const many = bytesOf(set.repeat(260_000)), wanted = native(program, ['decode'], many).stdout;
  for (const module of modules) {
    const { status, bytes } = module.run(['decode'], many);
    expect('decode of 260,000 sets: status', status, 5);
    expect('decode of 260,000 sets: text', difference(bytes, wanted.subarray(0, ROOM)), '');
  }
  compare(program, modules, ['frames'], `#${'\n#'.repeat(MOST_INPUT / 2)}`, 'a byte too many');
  compare(program, modules, ['run'], `${'#'.repeat(500)}\n`.repeat(33_488), 'too many comments');
}

/** A number as a module has it, seven bits an octet; and the number at a place of a module, with the place behind it. */
const octetsOf = number => (number < 128 ? [number] : [128 | (number & 127), ...octetsOf(Math.floor(number / 128))]);
const numberAt = (bytes, at) => {
  if (bytes[at] < 128) return [bytes[at], at + 1];
  const [rest, end] = numberAt(bytes, at + 1);
  return [(bytes[at] & 127) + 128 * rest, end];
};

/** The module where its memory may grow by so many pages at most. */
function limited(bytes, more) {
  for (let at = 8; at < bytes.length;) {
    const [size, body] = numberAt(bytes, at + 1);
    if (bytes[at] === 5) { // the memory: one, of 64 bits
      const [pages] = numberAt(bytes, body + 2);
      const memory = [1, 5, ...octetsOf(pages), ...octetsOf(pages + more)];
      return Buffer.concat([bytes.subarray(0, at), Uint8Array.from([5, memory.length, ...memory]), bytes.subarray(body + size)]);
    }
    at = body + size;
  }
  throw new Error('the module has no memory');
}

/** Where there is no memory the module says so, behind a beginning of what the program writes. */
async function compareStarved(program, whole) {
  const rooms = Math.ceil((2 * ROOM + PAGE) / PAGE), script = native(program, ['make', '3']).stdout, set = bytesOf('00\n');
  for (const [words, input, heap] of [[['decode'], set, 0], [['run'], script, 0], [['run'], script, 256], [['register'], script, 256]]) {
    const module = await loadModule(limited(whole, rooms + Math.ceil((input.length + 64) / PAGE) + heap));
    const { status, bytes } = module.run(words, input), wanted = native(program, words, input), what = `${words[0]} with ${heap} pages`;
    expect(`${what}: status`, status === 6 || (heap > 0 && status === wanted.status), true);
    expect(`${what}: text`, difference(bytes, status === 6 ? wanted.stdout.subarray(0, heap ? bytes.length : 0) : wanted.stdout), '');
  }
}

async function main(program) {
  if (!isSupported()) setFlagsFromString('--experimental-wasm-memory64'); // Node 20
  const files = ['page.wasm', 'whole.wasm'].map(name => readFileSync(new URL(name, OUT)));
  const modules = await Promise.all(files.map(loadModule));
  [compareExamples, compareMade, compareChanged, compareRefused, compareFull].forEach(check => check(program, modules));
  await compareStarved(program, files[1]);
}

await tallyOver(process.argv[2], 'modules', 'Node', main);
