// Sets of bits for browsers and Node, answered by the calls of ../c/bits.h in a WebAssembly module of 32 bits or of 64.
// bits.d.mts says what each method does.

import { Room, bytesOf } from "./room.mjs";

// The bytes of a set's struct, before its words, of a walk, and of ranks; and how many positions a walk gives at once.
const HEAD = 32, WALK = 64, RANKS = 64, HANDFUL = 512;

/** The class of the sets in a new instance of the module, whose bytes are given, or a Response with them. */
export async function load(source) {
  const given = await source;
  const { instance } = await WebAssembly.instantiate(await (given.arrayBuffer?.() ?? given));
  const room = new Room(instance.exports), { calls } = room, word = (number) => room.word(number);
  const left = new FinalizationRegistry((block) => room.give(block));
  const empty = word(room.take(HEAD).start), scratch = room.take(WALK + 8 * HANDFUL + 8).start, walk = word(scratch);
  const places = scratch + WALK, flag = places + 8 * HANDFUL;
  room.words(scratch + (room.isWide ? 32 : 24), 1)[0] = word(8); // (BITS_WALK of bits.h)
  const noRanks = [8, 0, 0, 8, 0].map(word), unranked = room.take(RANKS).start; // (BITS_RANKS)
  room.words(unranked, noRanks.length).set(noRanks);
  /** What a call answers, which has a sign here, as a number without one; undefined where it is BITS_NONE. */
  function found(answer) {
    const number = Number(answer);
    return number === -1 ? undefined : number < 0 ? number + 2 ** 32 : number;
  }
  const disposable = ({ prototype }) => Symbol.dispose && (prototype[Symbol.dispose] = prototype.free);

  /** The ranks of a set that nobody else has, in a block with their directory. */
  class Ranks {
    #kept; #block; #at;

    static { disposable(this); }
    constructor(kept, block) {
      left.register(this, block, this);
      [this.#kept, this.#block, this.#at] = [kept, block, word(block.start)];
    }
    rank(position) { return found(calls.rank(this.#at, room.sought(position))); }
    select(index) { return found(calls.select(this.#at, word(index))); }
    free() {
      if (left.unregister(this)) room.give(this.#block), this.#kept.free();
      this.#at = word(unranked);
    }
  }

  return class FixedBitSet {
    #block; #at = empty; #length = 0;

    constructor(length = 0, positions = []) {
      this.#move(length);
      for (const it of positions) this.insert(it);
    }
    static from_bytes(length, bytes) {
      const given = bytesOf(bytes), made = new FixedBitSet(length);
      room.lend(given.length, (start) => {
        room.bytes(start, given.length).set(given);
        calls.from_bytes(made.#at, word(start), word(given.length));
      });
      return made;
    }
    /** Moves what is below a length to a block for that length. */
    #move(length) {
      const size = word(length), count = calls.words(size);
      if (length >= room.most) throw new RangeError(`${length} positions are too many`);
      const block = room.take(HEAD + 8 * Number(count)), at = word(block.start);
      room.words(block.start, 3).set([word(block.start + HEAD), count, size]);
      calls.copy(at, this.#at);
      if (this.#block) left.unregister(this), room.give(this.#block);
      left.register(this, block, this);
      [this.#block, this.#at, this.#length] = [block, at, length];
    }
    #within(position) {
      if (position >= this.#length) throw new RangeError(`${position} is not below the length ${this.#length}`);
      return word(position);
    }
    #range(start, end) {
      const range = [word(start), word(end)];
      if (calls.range_is_valid(this.#at, ...range)) return range;
      throw new RangeError(`${start} to ${end} is no range below the length ${this.#length}`);
    }
    #ours(other) {
      if (#at in Object(other)) return other;
      throw new TypeError("the other is no FixedBitSet of this module: new FixedBitSet(length, positions) makes one of a Set");
    }
    #joined(call, other, length) {
      const made = new FixedBitSet(length(this.#length, this.#ours(other).#length));
      calls[call](made.#at, this.#at, other.#at);
      return made;
    }
    *#handfuls(kind = "ones", start = 0, end = Infinity) {
      for (let from = start, some = [0]; some.length; from = some.at(-1) + 1) {
        calls[`${kind}_in`](walk, this.#at, word(from), word(Math.min(end, this.#length)));
        const many = Number(calls[`${kind}_take`](walk, word(places), word(HANDFUL)));
        yield (some = room.numbers(places, many));
      }
    }
    *#walked(...which) { for (const some of this.#handfuls(...which)) yield* some; }
    *#stretches(first, past) {
      for (let end = 0, start; (start = this[first](end)) !== undefined; ) {
        yield [start, (end = this[past](start) ?? this.#length)];
      }
    }

    get length() { return this.#length; }
    grow(length) { if (length > this.#length) this.#move(length); }
    free() { this.#move(0); }
    clone() { return this.#joined("union_of", this, Math.max); }
    [Symbol.iterator]() { return this.#walked(); }
    ones(start = 0, end) { return this.#range(start, end ?? this.#length) && this.#walked("ones", start, end); }
    zeroes(start = 0, end) { return this.#range(start, end ?? this.#length) && this.#walked("zeroes", start, end); }
    runs() { return this.#stretches("next_one", "next_zero"); }
    zero_runs() { return this.#stretches("next_zero", "next_one"); }
    positions() {
      const all = [];
      for (const some of this.#handfuls()) all.push(...some);
      return all;
    }
    to_bytes() {
      const count = calls.bytes(word(this.#length)), size = Number(count);
      return room.lend(size, (start) => (calls.to_bytes(this.#at, word(start), count), room.bytes(start, size).slice()));
    }
    toJSON() { return { length: this.#length, data: [...this.to_bytes()] }; }
    [Symbol.for("nodejs.util.inspect.custom")](depth, { maxArrayLength = 100 } = {}) {
      if (depth < 0) return "[FixedBitSet]";
      const shown = [], count = this.count_ones();
      for (let at = 0; shown.length < Math.min(count, maxArrayLength); at = shown.at(-1) + 1) shown.push(this.next_one(at));
      const words = count > shown.length ? [...shown, `... ${count - shown.length} more`] : shown;
      return `FixedBitSet(${this.#length}) {${words.map((it) => ` ${it}`)}${words.length ? " " : ""}}`;
    }
    toString() {
      const runs = [...this.runs()].map(([start, end]) => (end - start > 1 ? `${start}-${end - 1}` : start));
      return `{${runs}}/${this.#length}`;
    }
    contains(position) { return Boolean(calls.contains(this.#at, word(position))); }
    insert(position) { calls.insert(this.#at, this.#within(position)); }
    remove(position) { calls.remove(this.#at, this.#within(position)); }
    set(position, enabled) { calls.set(this.#at, this.#within(position), Boolean(enabled)); }
    next_common(other, from) { return found(calls.next_common(this.#at, this.#ours(other).#at, room.sought(from))); }
    equals(other) { return Boolean(calls.equal(this.#at, this.#ours(other).#at)); }
    is_superset(other) { return this.#ours(other).is_subset(this); }
    union(other) { return this.#joined("union_of", other, Math.max); }
    intersection(other) { return this.#joined("intersection_of", other, Math.min); }
    difference(other) { return this.#joined("difference_of", other, (length) => length); }
    symmetric_difference(other) { return this.#joined("symmetric_difference_of", other, Math.max); }
    slice(start = 0, end = this.#length) {
      const range = this.#range(start, end), made = new FixedBitSet(end - start);
      calls.slice(made.#at, this.#at, ...range);
      return made;
    }
    ranks() {
      const kept = this.clone(), entries = calls.ranks_entries(word(this.#length));
      const block = room.take(RANKS + 8 * Number(entries));
      room.words(block.start, noRanks.length).set(noRanks);
      calls.ranks_fill(word(block.start), kept.#at, word(block.start + RANKS), entries);
      return new Ranks(kept, block);
    }

    static {
      // Methods of one call: what they make of its answer, their names, and what they give it beside the set.
      const each = (answer, names, given) => names.split(" ").forEach((name) => {
        this.prototype[name] = function (...asked) {
          const words = given(this, ...asked); // (which may move the set)
          return answer(calls[name](this.#at, ...words));
        };
      });
      const nothing = () => {}, none = () => [], number = (set, it) => [word(it)];
      const from = (set, it) => [room.sought(it)];
      const position = (set, it) => [set.#within(it)];
      const range = (set, start = 0, end = set.#length) => set.#range(start, end);
      const another = (set, other) => [set.#ours(other).#at];
      // (What a call changes overlaps nothing else, so a set that is joined with itself is read as a copy.)
      const beside = (set, other) => [(set === other ? set.clone() : set.#ours(other)).#at];
      const grown = (set, other) => set.#ours(other) && (set.grow(other.#length), beside(set, other));
      // (Where these calls write whether the set changed.)
      const change = word(flag), changed = () => room.bytes(flag, 1)[0] === 1;

      disposable(this);
      each(nothing, "clear", none);
      each(nothing, "toggle", position);
      each(nothing, "shift_up shift_down union_with_own_shift", number);
      each(nothing, "union_with_shifted", (set, other, by) => [...beside(set, other), word(by)]);
      each(nothing, "copy_range", (set, other, start, end, at) => {
        const [first, past] = set.#ours(other).#range(start, end), [to] = set.#range(at, at + end - start);
        return [...beside(set, other), first, past, to];
      });
      each(Boolean, "put take", position);
      each(nothing, "insert_range remove_range toggle_range", range);
      each(Boolean, "contains_all_in_range contains_any_in_range", range);
      each(found, "count_ones count_zeroes", range);
      each(found, "minimum maximum", none);
      each(Boolean, "is_clear is_full", none);
      each(found, "next_one next_zero previous_one previous_zero", from);
      each(found, "nth_one", number);
      each(found, "first_gap", (set, count, from = 0) => [word(count), room.sought(from)]);
      each(found, "last_gap", (set, count, below = set.length) => [word(count), room.sought(below)]);
      each(found, "first_aligned_gap", (set, count, align, ...ends) => [word(count), word(align), ...range(set, ...ends)]);
      each(Boolean, "is_disjoint is_subset", another);
      each(Number, "compare", another);
      each(found, "union_count intersection_count difference_count symmetric_difference_count first_lacking", another);
      each(nothing, "intersect_with difference_with", beside);
      each(Boolean, "intersect_with_change difference_with_change", beside);
      each(nothing, "union_with symmetric_difference_with", grown);
      each(changed, "union_with_change symmetric_difference_with_change", (set, other) => [...grown(set, other), change]);
      each(changed, "union_with_difference", (set, gens, kills) => set.#ours(kills) &&
        [...grown(set, gens), ...beside(set, kills), change]);
    }
  };
}
