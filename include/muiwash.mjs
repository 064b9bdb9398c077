// Muiwash for JavaScript, in a browser or in node: the six functions of muiwash.h, which says what each does, out of muiwash.wasm, which
// `bin/archive wasm32` makes.
//
//   const muiwash = await open(wasm);                 // the bytes of muiwash.wasm
//   const { answer, out, undo } = muiwash.load(holding, file);
//
// What is lent is a Uint8Array and is only read. An answer is an array of numbers that begins with code, line, field; those of checkFile
// and load end with the place, which counts bytes and not the units of a string. `out` is the new holding and `undo` the file's undo, both
// without the zeros behind them: no bytes on a refusal. Buffers are as long as is always enough, so 13 isn't answered for want of room, and
// neither is 17; give { room, undoRoom }, or one of the two, for other lengths: backRoom(file, undo) is enough for the undo of an undo. A
// call runs to its end on the thread that makes it.

// How long a buffer is always enough, as muiwash.h says it: for the new holding, for the undo, and for the undo of a file's undo.
const enough = (holding, file) => holding.length + file.length + 16384;
const enoughForUndo = (holding, file) => holding.length + 2 * file.length;
export const backRoom = (file, undo) => file.length + undo.length;

// A number that the functions take: 64 bits and no sign.
function word(number) {
  const whole = BigInt(number);
  if (whole !== BigInt.asUintN(64, whole)) throw new RangeError(`${number} isn't a number of 64 bits`);
  return whole;
}

// What stands before the zeros.
function bare(bytes) {
  let length = bytes.length;
  while (length > 0 && bytes[length - 1] === 0) length--;
  return bytes.slice(0, length);
}

export async function open(wasm) {
  const { instance } = await WebAssembly.instantiate(wasm);
  const { memory, __heap_base: heap, ...functions } = instance.exports;

  // Lends `inputs`, buffers of the lengths `rooms` and an answer of `count` numbers, side by side in the module's memory, where a pointer is
  // a number and a length a BigInt; hands back the answer and the buffers.
  function call(name, count, inputs, rooms = [], words = []) {
    let end = heap.value;
    const place = (length) => {
      const start = Math.ceil(end / 8) * 8;
      end = start + length;
      return start;
    };
    const lent = [...inputs.map((input) => input.length), ...rooms].map((length) => [place(length), BigInt(length)]);
    const answer = place(8 * count);
    const missing = end - memory.buffer.byteLength;
    if (missing > 0) memory.grow(Math.ceil(missing / 65536));
    const bytes = new Uint8Array(memory.buffer);
    inputs.forEach((input, i) => bytes.set(input, lent[i][0]));
    functions[name](...lent.flat(), ...words.map(word), answer);
    return {
      answer: Array.from(new BigUint64Array(memory.buffer, answer, count), Number),
      buffers: lent.slice(inputs.length).map(([start, length]) => bytes.subarray(start, start + Number(length))),
    };
  }

  return {
    checkFile: (file) => call('muiwash_check_file', 7, [file]).answer,
    checkHolding: (holding) => call('muiwash_check_holding', 3, [holding]).answer,
    load: (holding, file, { room = enough(holding, file), undoRoom = enoughForUndo(holding, file) } = {}) => {
      const { answer, buffers } = call('muiwash_load', 7, [holding, file], [room, undoRoom]);
      return { answer, out: bare(buffers[0]), undo: bare(buffers[1]) };
    },
    find: (holding, kind, number) => call('muiwash_find', 5, [holding], [], [kind, number]).answer,
    inForce: (holding, file, kind, number) => call('muiwash_in_force', 6, [holding, file], [], [kind, number]).answer,
    field: (bytes, line, field) => call('muiwash_field', 5, [bytes], [], [line, field]).answer,
  };
}
