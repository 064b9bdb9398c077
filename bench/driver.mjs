// muiwash.wasm's side of the benchmark: node driver.mjs WASM OPERATION FOLDER RUNS prints the median time in microseconds of check_file,
// check_holding or load on FOLDER's holding.csv and change.csv, what muiwash.mjs copies in and out included. As many runs go before those
// that are timed, in which node compiles the module.
import { readFileSync } from 'node:fs';
import { open } from '../include/muiwash.mjs';

const [wasm, operation, folder, runs] = process.argv.slice(2);
const muiwash = await open(readFileSync(wasm));
const [holding, change] = ['holding', 'change'].map((name) => readFileSync(`${folder}/${name}.csv`));
const operations = {
  check_file: () => muiwash.checkFile(change),
  check_holding: () => muiwash.checkHolding(holding),
  load: () => muiwash.load(holding, change).answer,
};
function time() {
  const began = performance.now();
  const [code] = operations[operation]();
  if (code !== 0) throw new Error('refused');
  return 1000 * (performance.now() - began);
}
const times = Array.from({ length: 2 * Number(runs) }, time).slice(Number(runs)).sort((a, b) => a - b);
console.log(times[times.length >> 1].toFixed(1));
