// Calls a glue file and the same written by hand, in turn: node measure.mjs LISTING FOLDER MODULE TOP
//
// run.py makes the listing. Prints a line of a table for each kind of call: calls a second by hand and through the glue file, and
// the time of the second by that of the first. Each is the best of so many rounds.

import { mkdirSync, readFileSync, realpathSync } from "node:fs";
import { join } from "node:path";
import { pathToFileURL } from "node:url";

const [, , listing, given, bare, top] = process.argv;
const { unpackListing } = await import(pathToFileURL(join(top, "examples/load.mjs")).href);

const ROUNDS = 7;
const CALLS = 2_000_000;
const LONG_CALLS = 200_000;
let seen;
globalThis.look = (value) => {
    seen = value;
};

mkdirSync(given, { recursive: true });
const folder = realpathSync(given);
unpackListing(readFileSync(listing), folder);
const glue = await import(pathToFileURL(join(folder, "out.js")).href);

// By hand: a list of what is lent, and a list of what is given with one of its free places.
const lent = [];
const slots = [];
const free = [];
const look = (handle) => {
    seen = lent[handle];
};
const { instance } = await WebAssembly.instantiate(readFileSync(bare), { __wbindgen_placeholder__: { look } });
const wasm = instance.exports;
const bytes = new Uint8Array(wasm.memory.buffer);
const words = new Int32Array(wasm.memory.buffer);
const encoder = new TextEncoder();
const decoder = new TextDecoder();
const hand = {
    sum: (a, b) => wasm.sum(a, b) >>> 0,
    wide: (a) => BigInt.asUintN(64, wasm.wide(a)),
    lent(value) {
        try {
            wasm.lent(lent.push(value) - 1);
        } finally {
            lent.pop();
        }
    },
    given(value) {
        const place = free.length > 0 ? free.pop() : slots.length;
        slots[place] = value;
        const handle = wasm.given(place);
        const taken = slots[handle];
        slots[handle] = undefined;
        free.push(handle);
        return taken;
    },
    text(value) {
        const at = wasm.malloc(value.length * 3, 1);
        const { written } = encoder.encodeInto(value, bytes.subarray(at, at + value.length * 3));
        wasm.touch();
        const again = decoder.decode(bytes.subarray(at, at + written));
        wasm.free(at, written, 1);
        return again;
    },
    numbers(values) {
        const at = wasm.malloc(values.length * 4, 4);
        words.set(values, at / 4);
        return wasm.total(at, values.length);
    },
};

const object = {};
const text = "the quick brown fox jumps over it";
const values = Int32Array.from({ length: 100 }, (_, k) => k - 7);
const calls = {
    sum: (f) => {
        let sum = 0;
        for (let k = 0; k < CALLS; k++) sum = f(sum, k);
        return sum;
    },
    wide: (f) => {
        let sum = 0n;
        for (let k = 0; k < CALLS; k++) sum = f(sum + 1n);
        return sum;
    },
    lent: (f) => {
        for (let k = 0; k < CALLS; k++) f(object);
        return seen === object;
    },
    given: (f) => {
        let same = true;
        for (let k = 0; k < CALLS; k++) same = f(object) === object && same;
        return same;
    },
    text: (f) => {
        let same = true;
        for (let k = 0; k < LONG_CALLS; k++) same = f(text) === text && same;
        return same;
    },
    numbers: (f) => {
        let sum = 0;
        for (let k = 0; k < LONG_CALLS; k++) sum += f(values);
        return sum;
    },
};
const LONG = new Set(["text", "numbers"]);

/** The least time of a round, in seconds, and what the calls come to. */
function timed(loop, f) {
    const begin = process.hrtime.bigint();
    const came = loop(f);
    return [Number(process.hrtime.bigint() - begin) / 1e9, came];
}

console.log("| call | by hand, calls a second | through the glue file | time of glue by that of hand |");
console.log("|---|---:|---:|---:|");
for (const [title, loop] of Object.entries(calls)) {
    const best = { hand: Infinity, glue: Infinity };
    for (let round = 0; round < ROUNDS; round++) {
        const [byHand, one] = timed(loop, hand[title]);
        const [byGlue, other] = timed(loop, glue[title]);
        if (one !== other) throw new Error(`${title}: ${one} by hand, ${other} through the glue file`);
        best.hand = Math.min(best.hand, byHand);
        best.glue = Math.min(best.glue, byGlue);
    }
    const count = LONG.has(title) ? LONG_CALLS : CALLS;
    const rate = (seconds) => Math.round(count / seconds).toLocaleString("en");
    console.log(`| ${title} | ${rate(best.hand)} | ${rate(best.glue)} | ${(best.glue / best.hand).toFixed(2)} |`);
}
