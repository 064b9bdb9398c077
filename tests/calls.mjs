// What is said of muiwash.wasm's buffers and stack, tried, as tests/calls.c tries the archives: node calls.mjs WASM HOLDING CHANGE. Bytes
// beyond what is lent are tests/driver.mjs's.
import { readFileSync } from 'node:fs';

const ROOM = 65536, MARK = 0xa5, STATED = 256 * 1024;
const [wasm, holding, change] = process.argv.slice(2).map((path) => readFileSync(path));
const { instance } = await WebAssembly.instantiate(wasm);
const { memory, __heap_base: heap, __stack_pointer: stack, ...functions } = instance.exports;
// Where each buffer stands; the answer comes last.
const start = (i) => Math.ceil(heap.value / 8) * 8 + i * ROOM;
memory.grow(5);
const bytes = Buffer.from(memory.buffer);
const answer = new BigUint64Array(memory.buffer, start(4), 8);
const [OUT_OF_PLACE, DONE, ABSENT, NO_SUCH_PART] = [3, 0, 11, 19];
// Name, numbers, code where nothing is lent, and how it is called with a holding, a file, and buffers for the new holding and the undo.
const CALLS = [
  ['check_file', 7, OUT_OF_PLACE, (h, f) => f],
  ['check_holding', 3, DONE, (h) => h],
  ['load', 7, OUT_OF_PLACE, (h, f, o, u) => [...h, ...f, ...o, ...u]],
  ['find', 5, ABSENT, (h) => [...h, 11n, 40000102n]],
  ['in_force', 6, OUT_OF_PLACE, (h, f) => [...h, ...f, 21n, 130000001n]],
  ['field', 5, NO_SUCH_PART, (h) => [...h, 1n, 1n]],
];
let faults = 0, most = 0;
function expect(holds, what) {
  if (holds) return;
  console.log(`FAILED: ${what}`);
  faults++;
}
for (const [name, numbers, onNothing, words] of CALLS) {
  const call = (...lent) => functions[`muiwash_${name}`](...words(...lent), start(4));
  const top = stack.value;
  bytes.fill(MARK, 0, top);
  bytes.fill(MARK, start(0), start(4) + 64);
  holding.copy(bytes, start(0));
  change.copy(bytes, start(1));
  call([start(0), BigInt(holding.length)], [start(1), BigInt(change.length)], [start(2), BigInt(ROOM)], [start(3), BigInt(ROOM)]);
  expect(stack.value === top, 'the stack is left as it was found');
  most = Math.max(most, top - bytes.findIndex((byte, i) => i >= top || byte !== MARK));
  expect(answer[0] === 0n, 'the night is taken, and every enquiry is answered');
  expect(answer[numbers - 1] !== answer[7] && answer[numbers] === answer[7], 'as many numbers as are stated');
  call([0, 0n], [0, 0n], [0, 0n], [0, 0n]);
  expect(answer[0] === BigInt(onNothing), 'nothing lent is met');
}
expect(most <= STATED, '256 KiB of stack are enough');

// With too little stack left a load traps, and writes neither over the rest of the stack nor over anything else that it wasn't lent. The
// module isn't used after that: a trap leaves its stack pointer where it was.
const LEFT = 65536, top = stack.value, whole = Buffer.from(bytes);
const lent = [start(0), BigInt(holding.length), start(1), BigInt(change.length), start(2), BigInt(ROOM), start(3), BigInt(ROOM), start(4)];
const behind = start(4) + 56;
let trapped = false;
stack.value = LEFT;
try {
  functions.muiwash_load(...lent);
} catch (error) {
  trapped = error instanceof WebAssembly.RuntimeError;
}
expect(trapped, 'a call without its stack traps');
expect(top > LEFT && bytes.compare(whole, LEFT, start(2), LEFT, start(2)) === 0, 'and writes over nothing below its buffers');
expect(behind < bytes.length && bytes.compare(whole, behind, whole.length, behind, bytes.length) === 0, 'nor behind its answer');
console.log(`calls: ${faults} faults; the most stack that a call used: ${most} bytes`);
process.exitCode = faults ? 1 : 0;
