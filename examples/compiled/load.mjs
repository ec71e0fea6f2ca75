// Loads the glue file of a listing and calls it: node load.mjs [LISTING|-] [FOLDER]
//
// The listing is read from the file LISTING, or from standard input. Its files are written into FOLDER, or into a
// temporary folder that is removed at the end. Then `out.js` is imported from there, and each exported function is
// called; what comes of texts is also worked out in JavaScript.

import { load } from "../load.mjs";

const print = console.log;
console.log = (...values) => print(`console.log got ${values.join(", ")}`);

const TEXTS = ["", "süße Kekse und 🍎🍎🍎", "  one\ntwo\tthree "];

// Longer than the memory of the module is at first.
const LONG = "word ".repeat(100000);

// The same in plain JavaScript.
const sizeOf = (word) => [...word].length;
const wordsOf = (text) => text.split(/[\0- ]+/).filter((word) => word !== "");
const lengthsOf = (text) => wordsOf(text).map(sizeOf);
const longestOf = (text) => wordsOf(text).reduce((best, word) => (sizeOf(word) > sizeOf(best) ? word : best), "");

/** Prints what a call gives, and what plain JavaScript gives. */
function compare(call, given, plain) {
    print(`${call} gives ${JSON.stringify(given)}, plain JavaScript ${JSON.stringify(plain)}`);
}

/** Calls what takes and gives texts and numbers. */
function callWithTexts({ countWords, lengths, longest, sum }) {
    for (const text of TEXTS) {
        const told = JSON.stringify(text);
        compare(`countWords(${told})`, countWords(text), wordsOf(text).length);
        compare(`longest(${told})`, longest(text), longestOf(text));
        compare(`lengths(${told})`, [...lengths(text)], lengthsOf(text));
    }
    compare("countWords(LONG)", countWords(LONG), wordsOf(LONG).length);
    compare("sum(lengths(LONG))", sum(lengths(LONG)), lengthsOf(LONG).reduce((total, length) => total + length));
    print(`sum([4000000000, 5]) gives ${sum(new Uint32Array([4000000000, 5]))}`);
}

/** Makes two counters, and gives one of them back. */
function callCounters({ blocks, counter }) {
    print(`blocks() gives ${blocks()}`);
    const down = counter(10, -3);
    const up = counter(0, 5);
    print(`blocks() gives ${blocks()}`);
    print(`down(1) gives ${down(1)}`);
    print(`up(3) gives ${up(3)}`);
    print(`down(2) gives ${down(2)}`);
    print(`down(1) gives ${down(1)}`);
    down._wbg_cb_unref();
    print(`blocks() gives ${blocks()}`);
    try {
        down(1);
    } catch (error) {
        print(`down(1) throws a ${error.name}`);
    }
    print(`up(1) gives ${up(1)}`);
    up._wbg_cb_unref();
    print(`blocks() gives ${blocks()}`);
}

/** Calls each function, and prints what it returns. */
function callAll(published) {
    callWithTexts(published);
    callCounters(published);
}

await load(callAll);
