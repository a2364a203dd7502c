// A user's program, which TypeScript takes: test compiles it over bits.d.mts, and runs nothing.
import { load, type FixedBitSet, type FixedBitSetClass, type Ranks } from "fixedbitset-wasm";

declare const bytes: Promise<ArrayBuffer>;
const Sets: FixedBitSetClass = await load(bytes);
const set: FixedBitSet = new Sets(10, new Set([1, 2])), other = Sets.from_bytes(10, [255, 3]).union(set);
const ranks: Ranks = Sets.from_bytes(32, new Uint32Array(1)).ranks();
const positions: number[] = [...set, ...other.ones(3), ...other.positions()];
for (const [start, end] of set.runs()) other.insert_range(start, end);
for (const it of [set, other, ranks]) it[Symbol.dispose](), it.free();
// @ts-expect-error: there may be no such position
const least: number = set.minimum();
// @ts-expect-error: a position is a number
set.insert("1");
// @ts-expect-error: a Set is not of the module
set.union(new Set([1]));
export { positions, least };
