// Compares names: `node names.mjs MODULE`, in the folder wasm. The module has no imports, and exports each call of bits.h; the
// classes have each member that bits.d.mts has, and no other; the package has each file that it exports. It prints what is
// lacking or too much, or nothing.
import { readFile } from "node:fs/promises";
import { load } from "./bits.mjs";

const bytes = await readFile(process.argv[2]), module = new WebAssembly.Module(bytes);
const header = await readFile("../c/bits.h", "utf8"), types = await readFile(new URL("bits.d.mts", import.meta.url), "utf8");

const exports = WebAssembly.Module.exports(module).map((it) => it.name.replace(/^fixedbitset_/, ""));
for (const it of WebAssembly.Module.imports(module)) console.log("an import:", it.name);
for (const [, it] of header.matchAll(/BITS_SYMBOL\((bits_\w+)\)/g)) if (!exports.includes(it)) console.log("no export:", it);

/** The members that an interface of bits.d.mts has. */
function typed(name) {
  const [, body] = types.match(new RegExp(`interface ${name}\\b[^{]*\\{\\n(.*?)\\n\\}`, "s"));
  return new Set([...body.matchAll(/^  (?:readonly )?(\w+|\[Symbol\.\w+\])[(:]/gm)].map(([, it]) => it));
}

/** The members that an object has of its own, but for what TypeScript has no name for, and what each class has. */
function found(object) {
  const ofClasses = typeof object === "function" ? ["length", "name", "prototype"] : ["constructor"];
  const keys = Reflect.ownKeys(object).filter((it) => it !== Symbol.for("nodejs.util.inspect.custom") && !ofClasses.includes(it));
  const nameOf = (symbol) => `[Symbol.${Object.getOwnPropertyNames(Symbol).find((it) => Symbol[it] === symbol)}]`;
  return new Set(keys.map((it) => (typeof it === "symbol" ? nameOf(it) : it)));
}

const FixedBitSet = await load(bytes), Ranks = new FixedBitSet().ranks();
const classes = { FixedBitSet: FixedBitSet.prototype, Ranks: Object.getPrototypeOf(Ranks), FixedBitSetClass: FixedBitSet };
for (const [name, object] of Object.entries(classes)) {
  const there = found(object), said = typed(name);
  said.delete("new");
  for (const it of said) if (!there.has(it)) console.log(`${name} lacks ${it}`);
  for (const it of there) if (!said.has(it)) console.log(`bits.d.mts has no ${it} of ${name}`);
}

const { types: main, exports: entries, files } = JSON.parse(await readFile(new URL("package.json", import.meta.url)));
const paths = [main, ...Object.values(entries).flatMap((it) => (typeof it === "string" ? [it] : Object.values(it)))];
for (const it of paths) if (!["package.json", ...files].includes(it.replace("./", ""))) console.log("not packed:", it);
// (The first condition that fits is taken.)
if (`${Object.entries(entries["."])[0]}` !== `types,${main}`) console.log("the types come after the code");
