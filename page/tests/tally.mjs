// What the page's tests share: they count what they try, and tell at their end what failed.
import { existsSync } from 'node:fs';

const MOST_TOLD = 20;
const faults = [];
let tried = 0;

const short = value => String(value).slice(0, 160);

/** Tries whether this is what is wanted. */
export function expect(what, got, wanted) {
  tried += 1;
  if (got !== wanted) faults.push(`${what}: ${short(got)}, and not ${short(wanted)}`);
}

/** Tells what failed of all that was tried; the process ends with 1 where anything did. */
export function tellTally(name, where) {
  faults.slice(0, MOST_TOLD).forEach(fault => process.stdout.write(`${name}: ${fault}\n`));
  process.stdout.write(`${name}: ${tried} tried in ${where}, ${faults.length} failed\n`);
  process.exitCode = faults.length ? 1 : 0;
}

/** Tries a program of this path, and tells what failed; without the program the process ends with 1. */
export async function tallyOver(program, name, where, check) {
  if (!existsSync(program ?? '')) {
    process.stdout.write(`${name}: the native program is missing: \`make build\` makes crates/ecall/out/ecall\n`);
    process.exitCode = 1;
    return;
  }
  await check(program);
  tellTally(name, where);
}
