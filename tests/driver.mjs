// muiwash.wasm behind a pipe, as tests/driver.c has the archive: node driver.mjs WASM. That file says what a call and an answer are.
import { readFileSync, readSync, writeSync } from 'node:fs';

const GUARD = 64, MARK = 0xa5, NUMBERS = 7;
// The operations in the header's order: their name, how many numbers they answer, and whether they take holding, file, out, undo and words.
const OPERATIONS = [
  ['check_file', 7, 'f'], ['check_holding', 3, 'h'], ['load', 7, 'hfou'], ['find', 5, 'h12'], ['in_force', 6, 'hf12'], ['field', 5, 'h12'],
];
const { instance } = await WebAssembly.instantiate(readFileSync(process.argv[2]));
const { memory, __heap_base: heap, ...functions } = instance.exports;

// So many bytes of the input, or null where it ends.
let read = Buffer.alloc(0);
function take(length) {
  const parts = [read];
  let have = read.length;
  while (have < length) {
    const part = Buffer.alloc(65536), got = readSync(0, part, 0, part.length, null);
    if (got === 0) return null;
    parts.push(part.subarray(0, got));
    have += got;
  }
  const all = parts.length > 1 ? Buffer.concat(parts) : read;
  read = all.subarray(length);
  return all.subarray(0, length);
}
function put(bytes) {
  for (let at = 0; at < bytes.length;) at += writeSync(1, bytes, at);
}

// Buffers of these lengths and the answer behind them, full of marks, each with a guard at its end; one of no bytes is NULL.
function lend(lengths) {
  let end = heap.value;
  const buffers = [...lengths, 8 * (NUMBERS + 2)].map((length) => {
    const start = Math.ceil(end / 8) * 8;
    end = start + length + GUARD;
    return { start, length, pointer: length ? start : 0 };
  });
  const missing = end - memory.buffer.byteLength;
  if (missing > 0) memory.grow(Math.ceil(missing / 65536));
  const bytes = Buffer.from(memory.buffer);
  bytes.fill(MARK, heap.value, end);
  return { bytes, buffers };
}

function answered(operation, asked, inputs) {
  const [name, count, takes] = OPERATIONS[operation];
  const { bytes, buffers } = lend(asked.slice(0, 4).map(Number));
  const [holding, file, out, undo, answer] = buffers;
  inputs.forEach((input, i) => input.copy(bytes, buffers[i].start));
  const lent = { h: holding, f: file, o: out, u: undo };
  const words = [...takes].flatMap((what) => (lent[what] ? [lent[what].pointer, BigInt(lent[what].length)] : [asked[3 + Number(what)]]));
  functions[`muiwash_${name}`](...words, answer.start);
  const part = ({ start, length }) => bytes.subarray(start, start + length);
  const marked = (from, to) => bytes.subarray(from, to).every((byte) => byte === MARK);
  const kept = inputs.every((input, i) => input.equals(part(buffers[i]))) && marked(answer.start + 8 * count, answer.start + answer.length) &&
    buffers.every(({ start, length }) => marked(start + length, start + length + GUARD));
  return Buffer.concat([Buffer.of(kept ? 0 : 1), part({ start: answer.start, length: 8 * count }), part(out), part(undo)]);
}

for (let operation; (operation = take(1)) !== null;) {
  const code = operation[0], numbers = take(48);
  const asked = Array.from({ length: 6 }, (_, i) => numbers.readBigUInt64LE(8 * i));
  const inputs = [0, 1].map((i) => Buffer.from(take(Number(asked[i]))));
  put(answered(code, asked, inputs));
}
