// Loads the glue file of a listing and calls it: node load.mjs [LISTING|-] [FOLDER]
//
// The listing is read from the file LISTING, or from standard input. Its files are written into FOLDER, or into a
// temporary folder that is removed at the end. Then `out.js` is imported from there, which runs the start function, and
// each exported function is called.

import { load } from "../load.mjs";

const print = console.log;
console.log = (...values) => print(`console.log got ${values.join(", ")}`);

globalThis["my-lib"] = {
    twice(count) {
        print(`my-lib got ${count}`);
        return 2 * count;
    },
};

/** Calls each function, and prints what it returns. */
function callAll({ add, count, countUnsigned, divide, doubleCount, report }) {
    print(`add(-9) gives ${add(-9)}`);
    print(`count() gives ${count()}`);
    print(`countUnsigned() gives ${countUnsigned()}`);
    print(`divide(countUnsigned(), 2) gives ${divide(countUnsigned(), 2)}`);
    doubleCount();
    report();
}

await load(callAll);
