// node page/chart.mjs [VERDICT] < TRACE > CALL.svg: the picture of a trace, with what `ecall replay` says of it marked where
// it is given as one word, as in: node page/chart.mjs "$(ecall replay < TRACE)" < TRACE > CALL.svg

import { readFileSync } from 'node:fs';
import { chartOf } from './src/chart.js';
import { readTrace } from './src/trace.js';
import { readVerdict } from './src/verdict.js';

function main(said) {
  const trace = readFileSync(0, 'utf8');
  const { entries, others } = readTrace(trace);
  if (said !== undefined && !readVerdict(said)) return `no verdict of ecall replay: ${said}`;
  if (entries.length === 0) return 'no line of the input is an entry of a trace';
  process.stdout.write(chartOf(trace, said === undefined ? null : readVerdict(said)));
  if (others.length) process.stderr.write(`chart: ${others.length} lines are no entries, the first is line ${others[0]}\n`);
  return null;
}

const fault = main(process.argv[2]);
if (fault) {
  process.stderr.write(`chart: ${fault}\n`);
  process.exitCode = 1;
}
