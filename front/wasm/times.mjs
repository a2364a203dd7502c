// Times calls over both modules beside loops over a Uint32Array: microseconds, the least of many rounds, each side in turn.
import { once } from "node:events";
import { readFile } from "node:fs/promises";
import { Worker, isMainThread, parentPort } from "node:worker_threads";
import { load } from "./bits.mjs";

const LENGTH = 1_000_000, ROUNDS = 800, TURNS = 20;
const positions = (step) => Array.from({ length: Math.floor(LENGTH / step) }, (_, at) => at * step);
const filled = [positions(3), positions(7)];

/** The sums of bits in each byte of a word, added up. */
function onesOf(word) {
  const pairs = word - ((word >>> 1) & 0x55555555), fours = (pairs & 0x33333333) + ((pairs >>> 2) & 0x33333333);
  return Math.imul((fours + (fours >>> 4)) & 0x0f0f0f0f, 0x01010101) >>> 24;
}

/** What a program does by itself. */
class Typed {
  constructor(length, positions = []) {
    this.words = new Uint32Array(Math.ceil(length / 32));
    for (const it of positions) this.words[it >>> 5] |= 1 << (it & 31);
  }
  union_with({ words }) {
    const mine = this.words;
    for (let at = 0; at < mine.length; at++) mine[at] |= words[at];
  }
  intersect_with({ words }) {
    const mine = this.words;
    for (let at = 0; at < mine.length; at++) mine[at] &= words[at];
  }
  count_ones() {
    const mine = this.words;
    let count = 0;
    for (let at = 0; at < mine.length; at++) count += onesOf(mine[at]);
    return count;
  }
  intersection_count({ words }) {
    const mine = this.words;
    let count = 0;
    for (let at = 0; at < mine.length; at++) count += onesOf(mine[at] & words[at]);
    return count;
  }
  contains(position) { return (this.words[position >>> 5] >>> (position & 31)) % 2 === 1; }
}

const calls = {
  union_with: (one, other) => one.union_with(other),
  intersect_with: (one, other) => one.intersect_with(other),
  count_ones: (one) => one.count_ones(),
  intersection_count: (one, other) => one.intersection_count(other),
  "contains, of 1000 positions": (one) => {
    let found = 0;
    for (let at = 0; at < LENGTH; at += 1000) found += one.contains(at) ? 1 : 0;
    return found;
  },
};

function microseconds(call, sets) {
  const began = performance.now();
  for (let turn = 0; turn < TURNS; turn++) call(...sets);
  return ((performance.now() - began) * 1000) / TURNS;
}

/** The sets of a class, what a call answers of them, and the microseconds of a round of it. */
const sides = (classes, name) => classes.map((Side) => {
  const sets = filled.map((it) => new Side(LENGTH, it));
  return { answer: calls[name](...sets), round: () => microseconds(calls[name], sets) };
});

// The loops have a thread of their own: where a module's memory grows, V8 asks at each look into an array whether that was taken
// away.
if (!isMainThread) {
  let side;
  parentPort.on("message", (name) => {
    if (name) [side] = sides([Typed], name);
    parentPort.postMessage(name ? side.answer : side.round());
  });
} else {
  const loops = new Worker(new URL(import.meta.url)), modules = [];
  const ask = async (name) => (loops.postMessage(name), (await once(loops, "message"))[0]);
  for (const bits of [32, 64]) modules.push(await load(readFile(`bits${bits}.wasm`)));
  console.log("call,bits,module_32,module_64,typed_array");
  for (const name of Object.keys(calls)) {
    const own = sides(modules, name), answers = [...own.map((it) => it.answer), await ask(name)], least = answers.map(() => Infinity);
    if (new Set(answers).size > 1) throw new Error(`${name}: ${answers}`);
    for (let round = 0; round < ROUNDS; round++) {
      const found = [...own.map((it) => it.round()), await ask()];
      found.forEach((it, side) => (least[side] = Math.min(least[side], it)));
    }
    console.log([`"${name}"`, LENGTH, ...least.map((it) => it.toFixed(2))].join());
  }
  await loops.terminate();
}
