// Which module runs a command, and what is trusted for it.

export const WITHOUT = 'This page draws traces alone: it was packed without a module of ecall.';
export const UNSUPPORTED = 'This browser has no WebAssembly with a 64-bit memory (Chromium has it from 133 on), so the page draws traces alone.';
const JAVASCRIPT = 'The picture, the page and the sentences on refusals are JavaScript, and tested only.';
const DRAWN = 'draw runs no module.';
const PLAIN = 'runs by the module that the toolchain of ecall builds for WebAssembly: what it answers is proved. Trusted are the '
  + 'toolchain, with LLVM for WebAssembly, and this browser.';
const WHOLE = 'takes memory, which the toolchain can’t do for WebAssembly yet, so it runs by the module with all of ecall: what it '
  + 'answers is proved, for x86-64. What the toolchain compiles there was compiled for WebAssembly by a script. Trusted are, beside the '
  + 'toolchain with LLVM and this browser: that it means the same here, a heap in C, and the script.';
const ELSEWHERE = 'run, register, replay, tones, floor, relay and trial aren’t in this page: run them at the command line, and draw the trace here.';

/** The first of these modules that has a command: those that are trusted least for stand behind. */
export const moduleFor = (modules, command) => modules.find(module => module.commands.includes(command)) ?? null;

/** What the page says of a command. */
export function trustOf(modules, command) {
  const module = moduleFor(modules, command);
  const said = module ? `${command} ${module.isWhole ? WHOLE : PLAIN}` : DRAWN;
  return [said, JAVASCRIPT, ...(modules.some(one => one.isWhole) ? [] : [ELSEWHERE])].join(' ');
}
