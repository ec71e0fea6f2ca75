// Loads the glue file of a listing and calls it: node load.mjs [LISTING|-] [FOLDER]
//
// The listing is read from the file LISTING, or from standard input. Its files are written into FOLDER, or into a
// temporary folder that is removed at the end. Then `out.js` is imported from there, and the exported function is called.

import { load } from "../load.mjs";

const print = console.log;
console.log = (...values) => print(`console.log got ${values.join(", ")}`);

globalThis["my-limit"] = 5;
globalThis.slots = [];
globalThis.Tick = class {
    constructor(count) {
        print(`a Tick of ${count} is made`);
    }
};

/** Calls the function with numbers below and above the limit, and prints what it returns. */
function callAll({ keep }) {
    print(`keep(3) gives ${keep(3)}`);
    print(`keep(9) gives ${keep(9)}`);
    print(`slots holds ${globalThis.slots.join(", ")}`);
}

await load(callAll);
