// Loads the glue file of a listing and calls it: node load.mjs [LISTING|-] [FOLDER]
//
// The listing is read from the file LISTING, or from standard input. Its files are written into FOLDER, or into a
// temporary folder that is removed at the end. Then `out.js` is imported from there, and `add(2, 3)` is called.

import { load } from "../load.mjs";

/** Prints what `add(2, 3)` returns, and what the module passed to `console.log`. */
function callAdd(glue) {
    const print = console.log;
    const logged = [];
    console.log = (...values) => void logged.push(values);
    let sum;
    try {
        sum = glue.add(2, 3);
    } finally {
        console.log = print;
    }
    print(`add(2, 3) gives ${sum}`);
    for (const values of logged) print(`console.log got ${values.join(", ")}`);
}

await load(callAdd);
