// node page/pack.mjs [PLAIN.wasm [WHOLE.wasm]]: the page in one file, page/out/ecall.html, which opens from a disk, where browsers
// load neither a script's modules nor a .wasm. The first module has the commands that take no memory, the second one has all;
// without a module the page draws traces alone.

import { mkdirSync, readFileSync, readdirSync, writeFileSync } from 'node:fs';
import { fileURLToPath } from 'node:url';

const HERE = fileURLToPath(new URL('.', import.meta.url));
const EXAMPLES = `${HERE}../examples/`;
/** The sources, each behind those that it imports. */
const SOURCES = ['dom', 'svg', 'colours', 'trace', 'verdict', 'layout', 'marks', 'chart', 'module', 'trust', 'editor', 'lines', 'picture', 'page'];
/** The commands for each kind of example; the first one is that whose text is stored. */
const KINDS = {
  script: ['run', 'register'], floor: ['floor'], trace: ['draw', 'replay'], recorded: ['draw', 'replay'],
  hex: ['decode'], facts: ['encode'], frames: ['frames'],
};

const read = name => readFileSync(HERE + name, 'utf8');

/** The commands of an example, and the numbers behind the command: those of its own file of words, where it has one. */
function asked(folder, name, kind, names) {
  if (kind !== 'script' || !names.includes(`${name}.words`)) return { commands: KINDS[kind], numbers: [] };
  const [command, ...numbers] = readFileSync(`${folder}${name}.words`, 'utf8').trim().split('\n');
  return { commands: [command], numbers };
}

/** The examples of the repository, and the verdict on those traces that have one beside them. */
export function examplesOf(folder = EXAMPLES) {
  const names = readdirSync(folder).sort();
  return names.flatMap(file => {
    const [name, kind] = file.split('.');
    // the trace of a floor is no trace of one vehicle, which is what is drawn and judged
    if (!Object.hasOwn(KINDS, kind ?? '') || (kind === 'trace' && names.includes(`${name}.floor`))) return [];
    const verdict = names.includes(`${name}.verdict`) ? readFileSync(`${folder}${name}.verdict`, 'utf8').trim() : undefined;
    return [{ ...asked(folder, name, kind, names), name, file, text: readFileSync(folder + file, 'utf8'), verdict }];
  });
}

/** What a part of the script is called. */
const partName = source => `${source}_js`;

/** A source as a part of one script: what it exports is what a function of no arguments gives. */
function part(source) {
  const text = read(`src/${source}.js`);
  const exported = [...text.matchAll(/^export (?:async )?(?:const|function|class) (\w+)/gm)].map(found => found[1]);
  const body = text.replace(/^import (\{.*\}) from '\.\/(\w+)\.js';$/gm, (_, names, from) => `const ${names} = ${partName(from)};`)
    .replace(/^export /gm, '');
  if (exported.length === 0) return `{\n${body}}`;
  return `const ${partName(source)} = (() => {\n${body}return { ${exported.join(', ')} };\n})();`;
}

function scriptOf() {
  const examples = JSON.stringify(examplesOf()).replaceAll('<', '\\u003c');
  const script = [`const ${partName('examples')} = { examples: ${examples} };`, ...SOURCES.map(part)].join('\n');
  if (script.includes('</script') || script.includes("from './")) throw new Error('a source ends its own script element, or imports in a way that is not known');
  return script;
}

/** The one file, with these modules in it. */
export function pack(modules) {
  const puts = { '/* page.css */': read('page.css'), '/* page.js */': scriptOf() };
  let page = read('index.html');
  for (const [name, bytes] of Object.entries(modules)) page = page.replace(`<script id="${name}" type="text/plain">`, start => start + bytes.toString('base64'));
  for (const [place, text] of Object.entries(puts)) page = page.replace(place, () => text);
  return page;
}

if (process.argv[1] === fileURLToPath(import.meta.url)) {
  const modules = Object.fromEntries(process.argv.slice(2, 4).map((file, at) => [['plain', 'whole'][at], readFileSync(file)]));
  const page = pack(modules);
  mkdirSync(`${HERE}out`, { recursive: true });
  writeFileSync(`${HERE}out/ecall.html`, page);
  process.stdout.write(`pack: page/out/ecall.html, ${page.length} bytes, modules: ${Object.keys(modules).join(' and ') || 'none'}\n`);
}
