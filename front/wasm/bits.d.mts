/** What the library esnext.disposable of TypeScript 5.2 declares, for earlier versions and for other libraries. */
declare global {
  interface SymbolConstructor {
    readonly dispose: unique symbol;
  }
  interface Disposable {
    [Symbol.dispose](): void;
  }
}

/**
 * A set of positions below a length. A position or range that is not below it is a RangeError, where nothing else is said.
 * Node's console.log shows the length, and the positions up to its maxArrayLength: FixedBitSet(10) { 0, 2, 4 }.
 */
export interface FixedBitSet extends Iterable<number>, Disposable {
  /** How many positions there may be. */
  readonly length: number;
  /** Makes the length greater; a lesser one changes nothing. */
  grow(length: number): void;
  /** Gives the memory back at once, and leaves the set of length 0. Without this the memory goes back with the object. */
  free(): void;
  /** The same, for `using`, where the engine has it. */
  [Symbol.dispose](): void;
  clone(): FixedBitSet;
  /** The set's positions below `end`, less `start`, in a new set of length `end - start`. */
  slice(start?: number, end?: number): FixedBitSet;
  /** Overwrites the positions from `at` on with those of the other from `start` up to and without `end`. */
  copy_range(other: FixedBitSet, start: number, end: number, at: number): void;

  /** The positions, ascending. The iterators give them too; where the set changes meanwhile, that shows within 512 positions. */
  positions(): number[];
  [Symbol.iterator](): IterableIterator<number>;
  /** The positions of the range, or all, ascending. */
  ones(start?: number, end?: number): IterableIterator<number>;
  /** The positions below the length that are not in the set. */
  zeroes(start?: number, end?: number): IterableIterator<number>;
  /** The runs: [start, end) of each longest range that is in the set, ascending. A change of the set shows in the next one. */
  runs(): IterableIterator<[start: number, end: number]>;
  /** The gaps: the same of the positions that are not in the set. */
  zero_runs(): IterableIterator<[start: number, end: number]>;

  /** Eight bytes for each 64 positions, rounded up: position p is bit p % 8 of byte p / 8. They do not say the length. */
  to_bytes(): Uint8Array;
  /** What JSON.stringify writes, as serde_json does for the crate. `from_bytes(length, data)` makes the set again. */
  toJSON(): { length: number; data: number[] };
  /** The text that PostgreSQL's type `bitset` reads, with runs and the length: `{3,7,10-12}/64`. Template literals write it. */
  toString(): string;

  /** Whether the position is in the set: false past the length. */
  contains(position: number): boolean;
  insert(position: number): void;
  remove(position: number): void;
  toggle(position: number): void;
  set(position: number, enabled: boolean): void;
  /** Inserts the position, and answers whether it was there. */
  put(position: number): boolean;
  /** Removes the position, and answers whether it was there. */
  take(position: number): boolean;
  /** Removes all positions. */
  clear(): void;

  /** A range is from `start` up to and without `end`, here and wherever both are named. Without them it has all positions. */
  insert_range(start?: number, end?: number): void;
  remove_range(start?: number, end?: number): void;
  toggle_range(start?: number, end?: number): void;
  contains_all_in_range(start?: number, end?: number): boolean;
  contains_any_in_range(start?: number, end?: number): boolean;
  /** How many positions of the range, or of all, are in the set. */
  count_ones(start?: number, end?: number): number;
  count_zeroes(start?: number, end?: number): number;

  is_clear(): boolean;
  is_full(): boolean;
  minimum(): number | undefined;
  maximum(): number | undefined;
  /** The least position at or past `from`, which may be any number, here and in the next three: -5, 2.5 and Infinity too. */
  next_one(from: number): number | undefined;
  /** The least position at or past `from` and below the length that is not in the set. */
  next_zero(from: number): number | undefined;
  /** The greatest position below `below`. */
  previous_one(below: number): number | undefined;
  previous_zero(below: number): number | undefined;
  /** The position with so many of the set below it: 0 asks for the first. It counts up to there; `ranks` has a directory. */
  nth_one(index: number): number | undefined;
  /** A directory of the set as it is now, for many questions. Later changes of the set do not show. */
  ranks(): Ranks;
  /** The start of the first `count` positions in a row that are not in the set, at or past `from`, which may be any number. */
  first_gap(count: number, from?: number): number | undefined;
  /** The start of the last `count` positions in a row that are not in the set, all below `below`, which may be any number. */
  last_gap(count: number, below?: number): number | undefined;
  /** The first gap at a multiple of `align`, all of it in the range. The only multiple of 0 is 0. */
  first_aligned_gap(count: number, align: number, start?: number, end?: number): number | undefined;

  /** Moves each position up; what is not below the length then falls away, and the length stays, here and in the next three. */
  shift_up(by: number): void;
  /** Moves each position down; those below `by` fall away. */
  shift_down(by: number): void;
  /** Adds the positions of the other, or its own, moved up. */
  union_with_shifted(other: FixedBitSet, by: number): void;
  union_with_own_shift(by: number): void;

  /** Two sets may have any lengths, but they are of one `load`: anything else is a TypeError. These four make a new set, */
  union(other: FixedBitSet): FixedBitSet;
  intersection(other: FixedBitSet): FixedBitSet;
  difference(other: FixedBitSet): FixedBitSet;
  symmetric_difference(other: FixedBitSet): FixedBitSet;
  /** and these change the set, which grows where the other is longer and gives positions. */
  union_with(other: FixedBitSet): void;
  intersect_with(other: FixedBitSet): void;
  difference_with(other: FixedBitSet): void;
  symmetric_difference_with(other: FixedBitSet): void;
  /** These do the same, and answer whether a position came in or went. */
  union_with_change(other: FixedBitSet): boolean;
  symmetric_difference_with_change(other: FixedBitSet): boolean;
  intersect_with_change(other: FixedBitSet): boolean;
  difference_with_change(other: FixedBitSet): boolean;
  /** Adds the positions of `gens` that `kills` lacks, and answers whether one came in. The set grows to the length of `gens`. */
  union_with_difference(gens: FixedBitSet, kills: FixedBitSet): boolean;
  union_count(other: FixedBitSet): number;
  intersection_count(other: FixedBitSet): number;
  difference_count(other: FixedBitSet): number;
  symmetric_difference_count(other: FixedBitSet): number;
  /** The least position at or past `from`, which may be any number, that both have. */
  next_common(other: FixedBitSet, from: number): number | undefined;
  /** The least position of the other that this set lacks. */
  first_lacking(other: FixedBitSet): number | undefined;
  is_disjoint(other: FixedBitSet): boolean;
  is_subset(other: FixedBitSet): boolean;
  is_superset(other: FixedBitSet): boolean;
  /** Whether the lengths and the positions are equal. */
  equals(other: FixedBitSet): boolean;
  /** -1, 0 or 1, for a sort: by the lengths, and then by the words of 64 bits from the first on. */
  compare(other: FixedBitSet): number;
}

/** How many positions of a set stand below one, and which is the k-th. It has a copy of the set, and memory as a set has. */
export interface Ranks extends Disposable {
  /** How many positions of the set are below this one, which may be any number. */
  rank(position: number): number;
  /** The position with so many of the set below it: 0 asks for the first. */
  select(index: number): number | undefined;
  /** Gives the memory back at once, and leaves the ranks of the empty set. */
  free(): void;
  [Symbol.dispose](): void;
}

export interface FixedBitSetClass {
  /** A set of this length with these positions, or with none. */
  new (length?: number, positions?: Iterable<number>): FixedBitSet;
  /**
   * The set of this length with the positions that the bytes say, which `to_bytes` made. Missing bytes count as 0, and bits past
   * the length are dropped. A number of a list that is no byte is a RangeError.
   */
  from_bytes(length: number, bytes: ArrayBuffer | ArrayBufferView | Iterable<number>): FixedBitSet;
}

/** The bytes of a module, or what fetch gives. */
type Source = ArrayBuffer | ArrayBufferView | { arrayBuffer(): Promise<ArrayBuffer> };

/** The class of the sets in a new instance of a module, bits32.wasm or bits64.wasm. */
export function load(source: Source | Promise<Source>): Promise<FixedBitSetClass>;
