// A night in JavaScript: the same as night.c. node night.mjs WASM HOLDING CHANGE REFUSED; a browser fetches the bytes of muiwash.wasm instead.
import { readFileSync } from 'node:fs';
import { backRoom, open } from '../include/muiwash.mjs';

const [wasm, holding, change, refused] = process.argv.slice(2).map((path) => readFileSync(path));
const muiwash = await open(wasm);
const show = (what, numbers) => console.log(`${what}: ${numbers.join(',')}`);
const part = (bytes, start, length) => bytes.subarray(start, start + length).toString();

show('the holding', muiwash.checkHolding(holding));
const not = muiwash.load(holding, refused);
show('refused', not.answer);
console.log(`bytes left in the outputs: ${not.out.length} and ${not.undo.length}`);
const taken = muiwash.load(holding, change);
show('taken', taken.answer);
console.log(`bytes of its undo, which is kept: ${taken.undo.length}`);
const found = muiwash.find(holding, 11, 40000102);
console.log('street 40000102:', part(holding, found[3], found[4]));
const force = muiwash.inForce(holding, change, 21, 130000001);
console.log(`BLPU 130000001, in force in the ${force[3] ? 'file' : 'holding'}:`, part(force[3] ? change : holding, force[4], force[5]));
const field = muiwash.field(holding, 2, 4);
console.log('line 2, field 4:', part(holding, field[3], field[4]));
const back = muiwash.load(taken.out, taken.undo, { undoRoom: backRoom(change, taken.undo) });
show('the undo, taken', back.answer);
const same = holding.equals(back.out);
console.log('handed back:', same ? 'the old holding, byte for byte' : 'NOT the old holding');
process.exitCode = same ? 0 : 1;
