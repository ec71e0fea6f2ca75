// Parses the texts of helpers that standard input lists, and runs some of those that need no module. helpers.py runs it.
"use strict";

const assert = require("node:assert");
const fs = require("node:fs");
const vm = require("node:vm");

const cases = JSON.parse(fs.readFileSync(0, "utf8"));

// The text of a helper, of its only form or of the one that depends on these parts; a part that isn't there is false.
function text(key, parts = {}) {
  const found = cases.filter((c) => c.key === key && Object.keys(parts).every((part) => (c.parts[part] ?? false) === parts[part]));
  assert.strictEqual(found.length, 1, `one text of ${key} ${JSON.stringify(parts)}`);
  return found[0].text;
}

// What texts bind, with values for the names that they take from outside.
function bound(texts, names, outside = {}) {
  const body = `"use strict";\n${texts.join("")}return { ${names.join(", ")} };`;
  return new Function(...Object.keys(outside), body)(...Object.values(outside));
}

let wrong = 0;

// Runs the cases of a helper, and prints how many there were.
function run(title, rows, check) {
  let failed = 0;
  for (const row of rows) {
    try {
      check(...row);
    } catch (fault) {
      failed += 1;
      console.log(`${title}: WRONG: ${fault.message}`);
    }
  }
  wrong += failed;
  if (failed === 0) console.log(`${title}: ${rows.length} cases`);
}

run("parsed", cases.map((c) => [c]), (c) => new vm.Script(`"use strict";\n${c.text}`, { filename: c.key }));

// ---- tests of values

const { isLikeNone } = bound([text("is_like_none")], ["isLikeNone"]);
run(
  "isLikeNone",
  [[undefined, true], [null, true], [0, false], ["", false], [NaN, false], [false, false], [[], false], [0n, false]],
  (value, want) => assert.strictEqual(isLikeNone(value), want),
);

const asserts = bound(
  ["assert_num", "assert_bigint", "assert_bool", "assert_class"].map((key) => text(key)),
  ["_assertNum", "_assertBigInt", "_assertBoolean", "_assertClass"],
);
const thrown = (call) => {
  try {
    call();
    return null;
  } catch (fault) {
    return fault.message;
  }
};
run(
  "asserts",
  [
    ["_assertNum", [1], null],
    ["_assertNum", [NaN], null],
    ["_assertNum", ["1"], "expected a number argument, found string"],
    ["_assertBigInt", [1n], null],
    ["_assertBigInt", [1], "expected a bigint argument, found number"],
    ["_assertBoolean", [false], null],
    ["_assertBoolean", [0], "expected a boolean argument, found number"],
    ["_assertClass", [new Map(), Map], null],
    ["_assertClass", [new Map(), Set], "expected instance of Set"],
  ],
  (name, args, want) => assert.strictEqual(thrown(() => asserts[name](...args)), want),
);

const { notDefined } = bound([text("not_defined")], ["notDefined"]);
run("notDefined", [["f", "f is not defined"]], (name, want) => assert.strictEqual(thrown(notDefined(name)), want));

// ---- objects

const { debugString } = bound([text("debug_string")], ["debugString"]);
const cycle = {};
cycle.self = cycle;
run(
  "debugString",
  [
    [1.5, "1.5"],
    [-0, "0"],
    [true, "true"],
    [undefined, "undefined"],
    ['a"b', '"a\\"b"'],
    [10n, "10n"],
    [Symbol("x"), "Symbol(x)"],
    [Symbol(), "Symbol"],
    [function f() {}, "Function(f)"],
    [(() => () => {})(), "Function"],
    [null, "null"],
    [[1, "a", [null]], '[1, "a", [null]]'],
    [{ a: 1 }, 'Object({"a":1})'],
    [cycle, "Object"],
    [Object.assign(new RangeError("m"), { stack: "at" }), "RangeError: m\nat"],
    [new Map(), "Map"],
    [new Date(0), "Date"],
    [{ [Symbol.toStringTag]: "A b" }, "A b"],
    [{ [Symbol.toStringTag]: "" }, "[object ]"],
  ],
  (value, want) => assert.strictEqual(debugString(value), want),
);

const inherited = bound([text("get_inherited_descriptor")], ["GetOwnOrInheritedPropertyDescriptor"]);
run(
  "GetOwnOrInheritedPropertyDescriptor",
  [
    [{ x: 1 }, "x", 1],
    [Object.create({ x: 2 }), "x", 2],
    [Object.create(null), "x", undefined],
  ],
  (object, name, want) => {
    assert.strictEqual(inherited.GetOwnOrInheritedPropertyDescriptor(object, name).value, want);
  },
);

const { PanicError } = bound([text("panic_error")], ["PanicError"]);
run("PanicError", [["m"]], (message) => {
  const fault = new PanicError(message);
  assert(fault instanceof Error);
  assert.strictEqual(String(fault), "PanicError: m");
});

// ---- strings: code units, and their bytes in UTF-8, where a lone surrogate is encoded as U+FFFD

const STRINGS = [
  ["", []],
  ["abc", [0x61, 0x62, 0x63]],
  ["\u007f\u0080", [0x7f, 0xc2, 0x80]],
  ["\u00e9", [0xc3, 0xa9]],
  ["\u07ff\u0800", [0xdf, 0xbf, 0xe0, 0xa0, 0x80]],
  ["a\u20acb", [0x61, 0xe2, 0x82, 0xac, 0x62]],
  ["\uffff", [0xef, 0xbf, 0xbf]],
  ["\u{10000}", [0xf0, 0x90, 0x80, 0x80]],
  ["ab\u{1f600}", [0x61, 0x62, 0xf0, 0x9f, 0x98, 0x80]],
  ["\ud800", [0xef, 0xbf, 0xbd]],
  ["a\udc00b", [0x61, 0xef, 0xbf, 0xbd, 0x62]],
  ["\ude00\ud83d", [0xef, 0xbf, 0xbd, 0xef, 0xbf, 0xbd]],
];

// An encoder of the host that has no `encodeInto`.
class BareEncoder {
  encode(string) {
    return new TextEncoder().encode(string);
  }
}

// A memory with a function that hands out its bytes, and one that moves what was handed out.
function memory() {
  const bytes = new Uint8Array(256);
  let end = 8;
  const malloc = (size) => {
    const ptr = end;
    end += size;
    return ptr;
  };
  const realloc = (ptr, old, size) => {
    const moved = malloc(size);
    bytes.copyWithin(moved, ptr, ptr + Math.min(old, size));
    return moved;
  };
  return { bytes, malloc, realloc };
}

// Passes a string, by `encode` where nothing can be moved, and compares the bytes.
function passes(encoder, Encoder, place, moves, string, want) {
  const { bytes, malloc, realloc } = memory();
  const view = `getUint8ArrayMemory${place}`;
  const pass = `passStringToWasm${place}`;
  const outside = { [view]: () => bytes, TextEncoder: Encoder };
  const texts = [text("text_encoder", { encoder }), text("wasm_vector_len"), text(pass)];
  const all = bound([...texts, "const length = () => WASM_VECTOR_LEN;\n"], [pass, "length"], outside);
  const ptr = all[pass](string, malloc, moves ? realloc : undefined);
  assert.strictEqual(all.length(), want.length);
  assert.deepStrictEqual([...bytes.subarray(ptr, ptr + want.length)], want);
}

for (const [encoder, Encoder, title] of [
  ["own", TextEncoder, "encodeInto"],
  ["tested", TextEncoder, "encodeInto, where it is there"],
  ["tested", BareEncoder, "copies, where it isn't there"],
  ["copying", TextEncoder, "copies"],
]) {
  run(`passStringToWasm by ${title}`, STRINGS, (string, want) => {
    for (const moves of [true, false]) {
      passes(encoder, Encoder, 0, moves, string, want);
      passes(encoder, Encoder, 3, moves, string, want);
    }
  });
}

run("passStringToWasm of a number", [["expected a string argument, found number"]], (want) => {
  const all = bound([text("passStringToWasm3")], ["passStringToWasm3"]);
  assert.strictEqual(thrown(() => all.passStringToWasm3(1)), want);
});

for (const [browser, title] of [
  [false, "TextDecoder"],
  [true, "BrowserTextDecoder"],
]) {
  const { decodeText } = bound([text("text_decoder", { browser })], ["decodeText"]);
  const rows = STRINGS.filter(([string]) => string.isWellFormed?.() ?? !/\p{Surrogate}/u.test(string));
  // A byte order mark stays, and a byte that begins no character is U+FFFD.
  rows.push(["\ufeffa", [0xef, 0xbb, 0xbf, 0x61]], ["\ufffda", [0xff, 0x61]]);
  run(`decodeText, ${title}`, rows, (want, bytes) => {
    assert.strictEqual(decodeText(new Uint8Array(bytes)), want);
  });
}

// ---- addresses: one of a 32-bit memory from 2 GiB on arrives as a negative number

const NEGATIVE = -2147483648;
const ADDRESS = 2147483648;
const answers = () => NEGATIVE;

// The places that a helper reaches in the view of this name, and the address that it answers, if it does.
function reached(helper, parts, view, args) {
  const places = [];
  const reach = (place) => {
    places.push(place);
    return 0;
  };
  const stub = {
    getUint32: reach,
    setUint32: reach,
    set: (_, place) => reach(place),
    subarray: (start, end) => {
      places.push(start, end);
      return new Uint8Array(end - start);
    },
  };
  const outside = {
    [view]: () => stub,
    addHeapObject: () => 0,
    addToExternrefTable2: () => 0,
    cachedTextEncoder: new TextEncoder(),
    decodeText: () => "",
    takeObject: () => null,
    wasm: { __wbindgen_externrefs: { get: () => null }, __externref_drop_slice: () => {} },
  };
  const answer = bound([text("wasm_vector_len"), text(helper, parts)], [helper], outside)[helper](...args);
  return typeof answer === "number" ? [...places, answer] : places;
}

run(
  "addresses from 2 GiB on",
  [
    ["getStringFromWasm0", {}, "getUint8ArrayMemory0", [NEGATIVE, 3], [ADDRESS, ADDRESS + 3]],
    ["getArrayU8FromWasm0", {}, "getUint8ArrayMemory0", [NEGATIVE, 3], [ADDRESS, ADDRESS + 3]],
    ["getArrayU64FromWasm0", {}, "getBigUint64ArrayMemory0", [NEGATIVE, 3], [ADDRESS / 8, ADDRESS / 8 + 3]],
    ["getArrayJsValueFromWasm0", { externref: true }, "getDataViewMemory0", [NEGATIVE, 1], [ADDRESS]],
    ["getArrayJsValueFromWasm0", { externref: false }, "getDataViewMemory0", [NEGATIVE, 1], [ADDRESS]],
    ["passArray32ToWasm0", {}, "getUint32ArrayMemory0", [[1], answers], [ADDRESS / 4, ADDRESS]],
    ["passArrayJsValueToWasm0", { externref: true }, "getDataViewMemory0", [[1], answers], [ADDRESS, ADDRESS]],
    ["passArrayJsValueToWasm0", { externref: false }, "getDataViewMemory0", [[1], answers], [ADDRESS, ADDRESS]],
    ...["0", "3"].flatMap((place) => [
      [`passStringToWasm${place}`, {}, `getUint8ArrayMemory${place}`, ["a", answers], [ADDRESS, ADDRESS + 1, ADDRESS]],
      [`passStringToWasm${place}`, {}, `getUint8ArrayMemory${place}`, ["a", answers, answers], [ADDRESS]],
      [`passStringToWasm${place}`, {}, `getUint8ArrayMemory${place}`, ["\u00e9", answers, answers], [ADDRESS, ADDRESS + 3, ADDRESS]],
    ]),
  ],
  (helper, parts, view, args, want) => assert.deepStrictEqual(reached(helper, parts, view, args), want),
);

process.exit(wrong === 0 ? 0 : 1);
