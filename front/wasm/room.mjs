// An instance of a module with the calls of ../c/bits.h: these under short names, and blocks of its memory. A module of
// 32 bits takes Numbers for pointers and lengths, and one of 64 bits takes BigInts; a text becomes a number of either.

const PAGE = 65536;

/** The bytes of a buffer or of a view, or of a list of numbers. */
export function bytesOf(given) {
  if (given instanceof ArrayBuffer) return new Uint8Array(given);
  if (ArrayBuffer.isView(given)) return new Uint8Array(given.buffer, given.byteOffset, given.byteLength);
  const list = [...given], bytes = Uint8Array.from(list);
  list.forEach((it, at) => { if (it !== bytes[at]) throw new RangeError(`${it} is no byte`); });
  return bytes;
}

export class Room {
  #memory; #end; #free = new Map();

  constructor({ memory, ...exports }) {
    const named = Object.entries(exports).map(([name, it]) => [name.replace(/^(fixedbitset_)?bits_/, ""), it]);
    this.calls = Object.fromEntries(named);
    this.#memory = memory;
    this.#end = memory.buffer.byteLength; // (what the module begins with is its own)
    this.isWide = typeof this.calls.words("0") === "bigint";
    this.most = this.isWide ? Number.MAX_SAFE_INTEGER : 2 ** 32 - 1;
  }
  /** A number as the calls take it. Of those past all lengths one stands for each. */
  word(number) {
    if (!Number.isSafeInteger(number) || number < 0) throw new RangeError(`${number} is no position and no length`);
    return this.isWide ? BigInt(number) : Math.min(number, this.most);
  }
  /** A number to seek from, which may be any: no position lies between that and the whole number which the calls take. */
  sought(number) {
    const least = typeof number === "number" ? Math.max(Math.ceil(number), 0) : number;
    return this.word(least > Number.MAX_SAFE_INTEGER ? Number.MAX_SAFE_INTEGER : least);
  }
  /** So many pointers, lengths or positions in the memory. */
  words(start, count) {
    return new (this.isWide ? BigUint64Array : Uint32Array)(this.#memory.buffer, start, count);
  }
  bytes(start, count) { return new Uint8Array(this.#memory.buffer, start, count); }
  /** So many words as Numbers. */
  numbers(start, count) {
    const words = this.words(start, count), numbers = new Array(count);
    for (let at = 0; at < count; at++) numbers[at] = Number(words[at]);
    return numbers;
  }
  /** A block of so many bytes, or up to an eighth more, so that sizes come again. It may hold anything. */
  take(bytes) {
    let step = 64;
    while (step * 16 < bytes) step *= 2;
    const size = Math.ceil(bytes / step) * step;
    return { size, start: this.#free.get(size)?.pop() ?? this.#more(size) };
  }
  give({ size, start }) {
    if (!this.#free.get(size)?.push(start)) this.#free.set(size, [start]);
  }
  /** What is made with a block of so many bytes, which is given back then. */
  lend(bytes, use) {
    const block = this.take(bytes);
    try { return use(block.start); } finally { this.give(block); }
  }
  /** A new block. The memory grows by half, since V8 collects garbage each time, and by less where that is refused. */
  #more(size) {
    const held = this.#memory.buffer.byteLength, pages = Math.ceil((this.#end + size - held) / PAGE);
    if (pages > 0) {
      try { this.#memory.grow(`${Math.max(pages, Math.ceil(held / PAGE / 2))}`); } catch { this.#memory.grow(`${pages}`); }
    }
    this.#end += size;
    return this.#end - size;
  }
}
