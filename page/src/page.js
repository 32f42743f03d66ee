// The page: a command, its input, its output, and the picture of a trace.

import { examples } from './examples.js';
import { byId, make, offer } from './dom.js';
import { Editor } from './editor.js';
import { Lines } from './lines.js';
import { STATUSES, isSupported, loadModule } from './module.js';
import { Picture } from './picture.js';
import { readTrace } from './trace.js';
import { UNSUPPORTED, WITHOUT, moduleFor, trustOf } from './trust.js';
import { readVerdict, verdictOf } from './verdict.js';

/** What each command is called, which numbers it takes, whether it reads the input, and of what its picture is. */
const COMMANDS = {
  draw: { name: 'draw: a trace, as a picture', numbers: [], reads: true },
  run: { name: 'run: a script, as a trace', numbers: [], reads: true, drawn: 'output' },
  register: { name: 'register: a script, as its calls', numbers: [], reads: true },
  replay: { name: 'replay: a trace, judged', numbers: [], reads: true, drawn: 'input' },
  tones: { name: 'tones: a script, over a noisy modem', numbers: ['noise', 'number'], reads: true, drawn: 'output' },
  floor: { name: 'floor: a script of many vehicles', numbers: [], reads: true },
  relay: { name: 'relay: a script with a relay desk', numbers: [], reads: true, drawn: 'output' },
  decode: { name: 'decode: sets, described', numbers: [], reads: true },
  encode: { name: 'encode: facts, as sets', numbers: [], reads: true },
  frames: { name: 'frames: octets, as frames', numbers: [], reads: true },
  make: { name: 'make: the script of a number', numbers: ['number'] },
  trial: { name: 'trial: what that script comes to', numbers: ['number'] },
  conform: { name: 'conform: the known vectors', numbers: [] },
};
const NUMBERS = ['noise', 'number'];

const editor = new Editor();
const lines = new Lines(line => choose(line));
const picture = new Picture(line => choose(line));
/** The modules that were packed into the page, and of what the picture is. */
let modules = [], drawn = 'output';

const command = () => byId('command').value;

/** Marks a line, and its mark in the picture. */
function choose(line) {
  if (drawn === 'output') lines.select(line);
  else editor.show(line);
  picture.select(line);
}

function say(text, good) {
  byId('status').textContent = text;
  byId('status').className = good ? 'good' : 'bad';
}

/** Draws the trace of the input, with the verdict that stands below it. */
function draw() {
  const verdict = readVerdict(byId('verdict').value);
  const { entries, others } = readTrace(editor.text);
  editor.judge(verdict);
  lines.show(editor.text, { shortened: true, bad: verdict?.line ?? null });
  drawn = 'output';
  picture.show(entries, verdict);
  const left = others.length ? `; ${others.length} lines are no entries, the first is line ${others[0]}` : '';
  const sound = verdict?.kind === 'sound' ? `; ${verdict.why}` : '';
  say(`${entries.length} entries${sound}${left}`, others.length === 0 && (verdict?.line ?? null) === null);
}

/** Draws the trace that a command wrote, or that it judged. */
function drawAnswer(text, verdict) {
  drawn = COMMANDS[command()].drawn ?? 'output';
  const traces = { output: text, input: editor.text };
  picture.show(COMMANDS[command()].drawn ? readTrace(traces[drawn]).entries : [], drawn === 'input' ? verdict : null);
}

function run() {
  const { numbers, reads, drawn: traced } = COMMANDS[command()];
  const words = [command(), ...numbers.map(number => byId(number).value)];
  const module = modules.find(one => one.takes(words)), began = performance.now();
  if (!module) return say(`${STATUSES[1]}: ${words.join(' ')}`, false);
  const { status, bytes } = module.run(words, reads ? new TextEncoder().encode(editor.text) : undefined);
  const took = performance.now() - began;
  const text = new TextDecoder().decode(bytes);
  const verdict = verdictOf(text, command());
  editor.judge(status === 0 ? null : verdict);
  lines.show(text, { shortened: traced === 'output' });
  drawAnswer(text, verdict);
  return say(`${STATUSES[status]} (status ${status}), ${bytes.length} bytes in ${took.toFixed(1)} ms`, status === 0);
}

const ask = () => (command() === 'draw' ? draw() : run());

/** Shows what the command takes, its examples, and which module it runs by. */
function settle() {
  const { reads, numbers } = COMMANDS[command()];
  NUMBERS.forEach(number => { byId(`${number}-field`).hidden = !numbers.includes(number); });
  byId('verdict-field').hidden = command() !== 'draw';
  byId('input').disabled = !reads;
  byId('trust').textContent = modules.length ? trustOf(modules, command()) : byId('trust').textContent;
  const fitting = examples.filter(example => example.commands.includes(command()));
  byId('example').disabled = fitting.length === 0;
  byId('example').replaceChildren(new Option('choose one', ''), ...fitting.map(example => new Option(example.name)));
}

function take(name) {
  const example = examples.find(one => one.commands.includes(command()) && one.name === name);
  if (!example) return;
  byId('example').value = name;
  byId('verdict').value = example.verdict ?? '';
  COMMANDS[command()].numbers.forEach((number, at) => { byId(number).value = example.numbers[at]; });
  editor.text = example.text;
  ask();
}

async function open() {
  const [file] = byId('file').files;
  if (!file) return;
  byId('verdict').value = '';
  editor.text = await file.text();
  ask();
}

function listen() {
  byId('command').addEventListener('change', settle);
  byId('example').addEventListener('change', () => take(byId('example').value));
  byId('file').addEventListener('change', open);
  byId('ask').addEventListener('submit', event => { event.preventDefault(); ask(); });
  byId('save').addEventListener('click', () => offer('ecall.txt', lines.text, 'text/plain'));
  byId('save-chart').addEventListener('click', () => offer('call.svg', picture.svg, 'image/svg+xml'));
}

/** The bytes of a module that was packed into the page, if it was. */
function packed(name) {
  const text = byId(name).textContent.trim();
  return text === '' ? null : Uint8Array.from(atob(text), character => character.charCodeAt(0));
}

/** The modules that were packed into the page and that the browser can run, that one first for which less is trusted; or why there is none. */
async function load() {
  const found = ['plain', 'whole'].map(packed).filter(bytes => bytes);
  if (found.length === 0) return { modules: [], why: WITHOUT };
  if (!isSupported()) return { modules: [], why: UNSUPPORTED };
  return { modules: await Promise.all(found.map(loadModule)), why: '' };
}

async function begin() {
  listen();
  const loaded = await load().catch(fault => ({ modules: [], why: `The modules of ecall don't run here (${fault.message}), so the page draws traces alone.` }));
  modules = loaded.modules;
  byId('trust').textContent = loaded.why;
  const offered = Object.keys(COMMANDS).filter(name => name === 'draw' || moduleFor(modules, name));
  byId('command').replaceChildren(...offered.map(name => make('option', { value: name, textContent: COMMANDS[name].name })));
  const asked = new URLSearchParams(location.search);
  if (offered.includes(asked.get('command'))) byId('command').value = asked.get('command');
  settle();
  take(asked.get('example') ?? 'timed-call');
  document.documentElement.dataset.ready = 'yes';
}

await begin();
