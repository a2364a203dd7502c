// Random calls on sets of a module, beside a Set of JavaScript with a length: `node --expose-gc random.mjs MODULE STEPS START`.
// Each answer is the same, and so is each set after each call. Memory comes back. Each export is called that README.md does not
// name. It prints how many calls it made.
import { readFile } from "node:fs/promises";
import { inspect } from "node:util";
import assert from "node:assert/strict";
import { load } from "./bits.mjs";

/** The answers by plain loops. */
class Slow {
  constructor(length, positions = []) { [this.length, this.has] = [length, new Set(positions)]; }
  all(start = 0, end = this.length) {
    const made = []; // (Array.from takes half of the time of a run)
    for (let at = start; at < end; at++) made.push(at);
    return made;
  }
  those(enabled, start = 0, end = this.length) {
    const made = [];
    for (let at = start; at < end; at++) if (this.has.has(at) === enabled) made.push(at);
    return made;
  }
  ones(start, end) { return this.those(true, start, end); }
  zeroes(start, end) { return this.those(false, start, end); }
  runs(enabled) {
    const found = [];
    for (const at of this.those(enabled)) {
      if (found.at(-1)?.[1] === at) found.at(-1)[1]++;
      else found.push([at, at + 1]);
    }
    return found;
  }
  gap(count, align, start, end) {
    for (let at = start; at + count <= end; at++) {
      if ((align ? at % align : at) === 0 && this.ones(at, at + count).length === 0) return at;
    }
  }
  last_gap(count, below) {
    for (let at = below - count; at >= 0; at--) if (this.ones(at, at + count).length === 0) return at;
  }
  compare(other) {
    if (this.length !== other.length) return this.length < other.length ? -1 : 1;
    const unlike = this.all().filter((it) => this.has.has(it) !== other.has.has(it));
    const greatest = unlike.findLast((it) => it >> 6 === unlike[0] >> 6);
    return greatest === undefined ? 0 : this.has.has(greatest) ? 1 : -1;
  }
  put(position, enabled) { enabled ? this.has.add(position) : this.has.delete(position); }
  keep(length, test, ...sets) {
    const found = new Slow(length);
    for (const it of found.all()) if (test(...[this, ...sets].map((set) => set.has.has(it)))) found.has.add(it);
    return found;
  }
}

const [module, steps, start] = [process.argv[2], Number(process.argv[3]), Number(process.argv[4])];

// (Which exports are called is noted.)
const called = new Map(), instantiate = WebAssembly.instantiate;
WebAssembly.instantiate = async (...given) => {
  const { memory, ...exports } = (await instantiate(...given)).instance.exports, noted = { memory };
  for (const [name, call] of Object.entries(exports).filter(([, it]) => typeof it === "function")) {
    const short = name.replace(/^(fixedbitset_)?bits_/, "");
    called.set(short, called.get(short) ?? 0);
    noted[name] = (...words) => (called.set(short, called.get(short) + 1), call(...words));
  }
  return { instance: { exports: noted } };
};
const FixedBitSet = await load(readFile(module));

// (mulberry32)
let state = start;
function below(bound) {
  state = (state + 0x6d2b79f5) | 0;
  let mixed = Math.imul(state ^ (state >>> 15), 1 | state);
  mixed = (mixed + Math.imul(mixed ^ (mixed >>> 7), 61 | mixed)) ^ mixed;
  return ((mixed ^ (mixed >>> 14)) >>> 0) % bound;
}
const lengths = [0, 1, 63, 64, 65, 255, 256, 257, 300, 600];
const someLength = () => (below(2) ? lengths[below(lengths.length)] : below(700));

/** A set by both, with few or many positions. */
function make() {
  const length = someLength(), of = 1 + below(6);
  const positions = Array.from({ length }, (_, it) => it).filter(() => below(6) >= of);
  return { fast: new FixedBitSet(length, positions), slow: new Slow(length, positions) };
}

const sets = Array.from({ length: 5 }, make);
const some = () => sets[below(sets.length)];
const refused = (call) => assert.throws(call, RangeError);

/** Calls that name one position: each within the length, and refused past it. */
function position(set) {
  const { fast, slow } = set, at = below(slow.length + 3), has = slow.has.has(at), enabled = below(2) === 1;
  assert.equal(fast.contains(at), has);
  const kinds = {
    insert: () => (fast.insert(at), slow.put(at, true)),
    remove: () => (fast.remove(at), slow.put(at, false)),
    toggle: () => (fast.toggle(at), slow.put(at, !has)),
    set: () => (fast.set(at, enabled), slow.put(at, enabled)),
    put: () => (assert.equal(fast.put(at), has), slow.put(at, true)),
    take: () => (assert.equal(fast.take(at), has), slow.put(at, false)),
  };
  const call = Object.values(kinds)[below(6)];
  at < slow.length ? call() : refused(call);
}

function range(set) {
  const { fast, slow } = set, start = below(slow.length + 2), end = below(slow.length + 2), kind = below(3);
  const name = ["insert_range", "remove_range", "toggle_range"][kind];
  if (start > end || end > slow.length) {
    for (const it of [name, "count_ones", "count_zeroes", "contains_any_in_range", "contains_all_in_range"]) refused(() => fast[it](start, end));
    return;
  }
  const ones = slow.ones(start, end), zeroes = slow.zeroes(start, end);
  assert.equal(fast.count_ones(start, end), ones.length);
  assert.equal(fast.count_zeroes(start, end), zeroes.length);
  assert.equal(fast.contains_any_in_range(start, end), ones.length > 0);
  assert.equal(fast.contains_all_in_range(start, end), zeroes.length === 0);
  fast[name](start, end);
  for (const it of slow.all(start, end)) slow.put(it, kind === 0 || (kind === 2 && !ones.includes(it)));
}

/** A position, past the length too, or any number. */
function anywhere(length) {
  const at = below(length + 80);
  return below(2) ? at : [at - 0.5, -at, -0.5, 2 ** 33 * at, Infinity, -Infinity][below(6)];
}

function neighbours({ fast, slow }) {
  const at = anywhere(slow.length), index = below(slow.length + 3) * (below(9) ? 1 : 2 ** 33);
  const ones = slow.ones(), zeroes = slow.zeroes();
  assert.equal(fast.next_one(at), ones.find((it) => it >= at));
  assert.equal(fast.next_zero(at), zeroes.find((it) => it >= at));
  assert.equal(fast.previous_one(at), ones.findLast((it) => it < at));
  assert.equal(fast.previous_zero(at), zeroes.findLast((it) => it < at));
  assert.equal(fast.nth_one(index), ones[index]);
  assert.equal(fast.minimum(), ones[0]);
  assert.equal(fast.maximum(), ones.at(-1));
  assert.deepEqual([fast.is_clear(), fast.is_full()], [ones.length === 0, zeroes.length === 0]);
  assert.deepEqual([fast.count_ones(), fast.count_zeroes()], [ones.length, zeroes.length]);
}

/** Walks over positions and stretches, gaps, what the console shows, and the text. */
function walks({ fast, slow }) {
  const start = below(slow.length + 1), end = start + below(slow.length + 1 - start), at = anywhere(slow.length);
  assert.deepEqual([[...fast.ones(start, end)], [...fast.zeroes(start, end)]], [slow.ones(start, end), slow.zeroes(start, end)]);
  assert.deepEqual([[...fast], [...fast.zeroes()]], [slow.ones(), slow.zeroes()]);
  assert.deepEqual([[...fast.runs()], [...fast.zero_runs()]], [slow.runs(true), slow.runs(false)]);
  const count = below(12), align = below(20);
  assert.equal(fast.first_gap(count, at), slow.gap(count, 1, Math.max(Math.ceil(at), 0), slow.length));
  assert.equal(fast.last_gap(count, at), slow.last_gap(count, Math.min(Math.max(Math.ceil(at), 0), slow.length)));
  assert.equal(fast.first_aligned_gap(count, align, start, end), slow.gap(count, align, start, end));
  for (const name of ["ones", "zeroes"]) refused(() => fast[name](start, slow.length + 1));
  refused(() => fast.first_aligned_gap(count, align, start, slow.length + 1));
  const ones = slow.ones(), shown = ones.slice(0, count), more = ones.length - shown.length;
  const words = more ? [...shown, `... ${more} more`] : shown, inside = words.length ? ` ${words.join(", ")} ` : "";
  assert.equal(inspect(fast, { maxArrayLength: count }), `FixedBitSet(${slow.length}) {${inside}}`);
  const stretches = slow.runs(true).map(([start, end]) => (end === start + 1 ? `${start}` : `${start}-${end - 1}`));
  assert.equal(`${fast}`, `{${stretches.join(",")}}/${slow.length}`);
}

/** Ranks, which stay where the set changes. */
function ranked({ fast, slow }) {
  const ranks = fast.ranks(), ones = slow.ones(), at = anywhere(slow.length), index = below(slow.length + 3);
  const enabled = below(2) === 1;
  if (slow.length) fast.set(0, enabled), slow.put(0, enabled);
  assert.equal(ranks.rank(at), ones.filter((it) => it < at).length);
  assert.equal(ranks.select(index), ones[index]);
  if (below(2)) return;
  for (const name of ["free", below(2) ? "free" : Symbol.dispose]) ranks[name]();
  assert.deepEqual([ranks.rank(at), ranks.select(0)], [0, undefined]);
}

/** A set as bytes, in each form in which these are taken, whole or cut, and as JSON. */
function bytes({ fast, slow }) {
  const data = fast.to_bytes(), length = someLength(), cut = below(data.length + 1);
  const words = new Uint32Array(new Uint8Array([255, 255, 255, 255, ...data]).buffer);
  const [forms, count] = below(2)
    ? [[data, data.buffer, [...data], new Uint8Array([255, ...data]).subarray(1), words.subarray(1)], data.length]
    : [[data.slice(0, cut).buffer, [...data.slice(0, cut)], new Uint8Array(words.buffer, 4, cut), new DataView(words.buffer, 4, cut)], cut];
  assert.equal(data.length, 8 * Math.ceil(slow.length / 64));
  assert.deepEqual(slow.all(0, 8 * data.length).filter((it) => (data[it >> 3] >> (it & 7)) & 1), slow.ones());
  assert.equal(JSON.stringify(fast), `{"length":${slow.length},"data":[${data}]}`);
  const kept = slow.ones().filter((it) => it < Math.min(length, 8 * count));
  same({ fast: FixedBitSet.from_bytes(length, forms[below(forms.length)]), slow: new Slow(length, kept) });
}

/** A part of a set, and positions that are moved. */
function moved({ fast, slow }) {
  const { fast: other, slow: theirs } = some();
  const start = below(theirs.length + 1), end = start + below(theirs.length + 1 - start);
  same({ fast: other.slice(start, end), slow: new Slow(end - start, theirs.ones(start, end).map((it) => it - start)) });
  refused(() => other.slice(start, theirs.length + 1));
  const mine = new Set(slow.has), added = new Set(theirs.has), by = below(9) ? below(300) : 2 ** 33, at = below(slow.length + 3);
  const isOver = (it) => it >= at && it < at + end - start;
  const [name, given, test] = [
    ["shift_up", [by], (it) => mine.has(it - by)],
    ["shift_down", [by], (it) => mine.has(it + by)],
    ["union_with_own_shift", [by], (it) => mine.has(it) || mine.has(it - by)],
    ["union_with_shifted", [other, by], (it) => mine.has(it) || added.has(it - by)],
    ["copy_range", [other, start, end, at], (it) => (isOver(it) ? added.has(it - at + start) : mine.has(it))],
  ][below(5)];
  if (name === "copy_range" && at + end - start > slow.length) return refused(() => fast[name](...given));
  fast[name](...given);
  slow.has = new Set(slow.all().filter(test));
}

const joins = [
  ["union", "union_with", (one, other) => one || other, Math.max, Math.max],
  ["symmetric_difference", "symmetric_difference_with", (one, other) => one !== other, Math.max, Math.max],
  ["intersection", "intersect_with", (one, other) => one && other, Math.min, (length) => length],
  ["difference", "difference_with", (one, other) => one && !other, (length) => length, (length) => length],
];

/** Joins of two sets, which may be one. */
function pair(set) {
  const other = some(), { fast, slow } = set, lengths = [slow.length, other.slow.length], from = anywhere(slow.length);
  for (const [name, , test, length] of joins) {
    const wanted = slow.keep(length(...lengths), test, other.slow), made = fast[name](other.fast);
    same({ fast: made, slow: wanted });
    assert.equal(fast[`${name}_count`](other.fast), wanted.has.size);
    if (below(2)) made.free();
  }
  const both = slow.ones().filter((it) => other.slow.has.has(it)), lacks = other.slow.ones().filter((it) => !slow.has.has(it));
  assert.equal(fast.next_common(other.fast, from), both.find((it) => it >= from));
  assert.equal(fast.first_lacking(other.fast), lacks[0]);
  assert.equal(fast.is_disjoint(other.fast), both.length === 0);
  assert.equal(fast.is_superset(other.fast), lacks.length === 0);
  assert.equal(other.fast.is_subset(fast), lacks.length === 0);
  assert.equal(fast.equals(other.fast), String([slow.length, ...slow.ones()]) === String([other.slow.length, ...other.slow.ones()]));
  assert.equal(fast.compare(other.fast), slow.compare(other.slow));
  const [, name, test, , length] = joins[below(joins.length)], tells = below(2);
  const answer = fast[tells ? `${name}_change` : name](other.fast);
  set.slow = slow.keep(length(...lengths), test, other.slow);
  assert.equal(answer, tells ? `${slow.ones()}` !== `${set.slow.ones()}` : undefined);
}

/** A join of three sets. */
function three(set) {
  const [gens, kills] = [some(), some()], { fast, slow } = set, length = Math.max(slow.length, gens.slow.length);
  set.slow = slow.keep(length, (mine, gen, kill) => mine || (gen && !kill), gens.slow, kills.slow);
  assert.equal(fast.union_with_difference(gens.fast, kills.fast), `${slow.ones()}` !== `${set.slow.ones()}`);
}

/** Calls that make or free memory. */
function memory(set) {
  const { fast, slow } = set, length = someLength();
  const kinds = [
    () => Object.assign(set, make()),
    () => (fast.grow(length), (slow.length = Math.max(length, slow.length))),
    () => (fast.clear(), slow.has.clear()),
    () => (fast[below(2) ? "free" : Symbol.dispose](), (set.slow = new Slow(0))),
    () => (set.fast = fast.clone()),
  ];
  kinds[below(kinds.length)]();
}

function same({ fast, slow }) {
  assert.equal(fast.length, slow.length);
  const found = fast.positions(), wanted = slow.ones(); // (deepEqual takes a quarter of the time of a run)
  if (found.length !== wanted.length || found.some((it, at) => it !== wanted[at])) assert.deepEqual(found, wanted);
}

/** What is no set of the module is told, by each call that takes another set, and changes nothing. */
async function strangers(set) {
  const Other = await load(readFile(module)), names = joins.flatMap(([made, changed]) => [made, `${made}_count`, changed]);
  names.push("symmetric_difference_with_change", "union_with_change", "intersect_with_change", "difference_with_change", "union_with_shifted", "copy_range");
  names.push("next_common", "first_lacking", "is_disjoint", "is_subset", "is_superset", "equals", "compare");
  names.push("union_with_difference");
  const wrong = { name: "TypeError", message: /^the other is no FixedBitSet of this module: new FixedBitSet/ };
  for (const it of [new Other(3), new Set([1]), [1], 1, null, undefined]) {
    for (const name of names) assert.throws(() => set[name](it, 0, 0, 0), wrong, name);
    assert.throws(() => set.union_with_difference(new FixedBitSet(3), it), wrong);
  }
  assert.equal(set.length, 0);
}

/** Walks in whose midst the set grows go on to what is new. */
function growing() {
  const set = new FixedBitSet(600), all = [...Array(3000).keys()], seen = [];
  for (const it of set.zeroes()) {
    seen.push(it);
    if (it === 100) set.grow(3000);
  }
  assert.deepEqual(seen, all);
  const other = new FixedBitSet(600, all.slice(0, 600)), later = [];
  for (const it of other) {
    later.push(it);
    if (it === 100) other.grow(3000), other.insert_range(1000, 3000);
  }
  assert.deepEqual(later, [...all.slice(0, 600), ...all.slice(1000)]);
  const third = new FixedBitSet(10, [3]), gaps = [];
  for (const gap of third.zero_runs()) {
    if (gaps.push(gap) > 2) break;
    third.grow(2000);
  }
  assert.deepEqual(gaps, [[0, 3], [4, 2000]]);
}

/** Walks in whose midst the set changes, numbers that are none, and sets of another instance. */
async function others() {
  const set = new FixedBitSet(3000), seen = [];
  set.insert_range(0, 600);
  for (const it of set) {
    seen.push(it);
    if (it === 100) set.insert_range(2000, 3000);
    if (it === 2000) set.free();
  }
  assert.deepEqual(seen, [...Array(600).keys(), ...Array.from({ length: 2 * 512 - 600 }, (_, it) => 2000 + it)]);
  assert.equal(set.length, 0);
  const other = new FixedBitSet(100, [1, 2, 50]), runs = [];
  for (const run of other.runs()) {
    runs.push(run);
    if (run[0] === 1) other.insert_range(60, 100);
    if (run[0] === 60) other.free();
  }
  assert.deepEqual(runs, [[1, 3], [50, 51], [60, 100]]);
  for (const it of [-1, 0.5, NaN, 2 ** 53, "1", undefined]) {
    for (const name of ["contains", "shift_up", "nth_one", "first_gap"]) refused(() => set[name](it));
  }
  for (const it of [NaN, "1", undefined]) for (const name of ["next_one", "previous_zero"]) refused(() => set[name](it));
  for (const it of [-1, 0.5, 2 ** 53 - 1]) refused(() => new FixedBitSet(it));
  for (const it of [256, -1, 0.5, "a"]) refused(() => FixedBitSet.from_bytes(8, [it]));
  assert.throws(() => FixedBitSet.from_bytes(8, 8), TypeError);
  const text = '{"length":66,"data":[1,2,0,0,0,0,0,0,2,0,0,0,0,0,0,0]}', { length, data } = JSON.parse(text); // (as of ../serde)
  assert.equal(JSON.stringify(FixedBitSet.from_bytes(length, data)), text);
  const few = new FixedBitSet(64, [3, 7, 10, 11, 12]), shown = "FixedBitSet(64) { 3, 7, 10, 11, 12 }";
  assert.equal(inspect([few, { a: { b: few } }]), `[ ${shown}, { a: { b: [FixedBitSet] } } ]`);
  assert.equal(inspect({ a: { b: few } }), `{ a: { b: ${shown} } }`);
  assert.equal(inspect({ a: { b: { c: few } } }, { depth: null }), `{ a: { b: { c: ${shown} } } }`);
  assert.equal(`${few}`, "{3,7,10-12}/64"); // (as in ../postgres)
  await strangers(set);
  const half = 2 ** 31, large = new FixedBitSet(half + 100, [5, half + 50]); // (a number of 32 bits that has a sign ends there)
  assert.deepEqual([large.positions(), large.maximum(), large.count_zeroes()], [[5, half + 50], half + 50, half + 98]);
  large.free();
}

/** Has the engine collect what nobody holds, and tell of it. */
async function collected() {
  globalThis.gc();
  await new Promise((done) => setTimeout(done));
}

/** Has each growth of a memory told, before it is made. */
function told(tell) {
  const grow = WebAssembly.Memory.prototype.grow;
  WebAssembly.Memory.prototype.grow = function (more) {
    tell(Number(more));
    return grow.call(this, more);
  };
  return () => (WebAssembly.Memory.prototype.grow = grow);
}

/** The memory of sets and ranks that are freed is taken again, and so is that of those that nobody holds. */
async function freed() {
  const Own = await load(readFile(module));
  let pages = 0;
  const untold = told((more) => (pages += more));
  for (let turn = 0; turn < 100; turn++) new Own(8_000_000).free();
  for (let turn = 0; turn < 100; turn++) {
    new Own(8_000_000).grow(9_000_000);
    if (turn % 10 === 9) await collected();
  }
  assert(pages < 1000, `the memory grew by ${pages} pages`);
  const large = new Own(20_000_000), calls = [() => large.ranks().free(), () => large.to_bytes()];
  for (const call of calls) {
    call();
    pages = 0;
    for (let turn = 0; turn < 20; turn++) call();
    assert.equal(pages, 0);
  }
  untold();
}

/** The memory grows seldom, and by what is wanted where more is refused. */
async function grown() {
  const Own = await load(readFile(module)), kept = [];
  let [times, most] = [0, Infinity];
  const untold = told((more) => {
    times++;
    if (more > most) throw new RangeError("too much");
  });
  const fill = () => { for (let turn = 0; turn < 10_000; turn++) kept.push(new Own(2000)); };
  fill();
  assert(times > 1 && times < 10, `the memory grew ${times} times`);
  most = 1;
  fill();
  untold();
  assert(times > 20, `the memory grew ${times} times`);
}

/** Those exports were not called that README.md names in the first column below the title. */
async function reached() {
  const [, out] = `${await readFile(new URL("README.md", import.meta.url))}`.match(/\n## What is out of reach\n(.*?)\n## /s);
  const named = [...out.matchAll(/^\|([^|]*)\|/gm)].flatMap(([, names]) => [...names.matchAll(/`(\w+)`/g)].map(([, it]) => it));
  assert.deepEqual([...called.keys()].filter((it) => !called.get(it)).sort(), named.sort());
}

// Each step is one of the first kinds, and some are of the others too.
const kinds = [position, position, position, range, neighbours, pair, memory];
const more = [walks, ranked, bytes, moved, three];
async function run(from, to) {
  for (let step = from; step < to; step++) {
    if (step % 500 === 0) await collected();
    try {
      const set = some();
      kinds[below(kinds.length)](set);
      if (below(4) === 0) more[below(more.length)](set);
      sets.forEach(same);
    } catch (fault) {
      fault.message = `step ${step} of ${start}: ${fault.message}`;
      throw fault;
    }
  }
}

// (Most wrong lines are found by the first steps.)
const first = Math.min(steps, 1000);
await run(0, first);
growing();
await others();
await freed();
await grown();
await run(first, steps);
await reached();
console.log(steps);
