// Loads the glue file of a listing and calls it: node loaded.mjs LISTING FOLDER CASE STRINGS
//
// loaded.py makes the listings. The files are written into FOLDER. The status is 1 where the exports of the glue file do
// something else than they have to, and then standard error says what.

import assert from "node:assert/strict";

import { load } from "../examples/load.mjs";

const [, , , , title, strings] = process.argv;

globalThis.taken = [];

const checks = {
    /** A property that is there is called as it was when the file was loaded, one that isn't there throws when it is called. */
    properties({ twice, next, count, bare, gone, lost }) {
        assert.equal(twice(21), 42);
        assert.equal(next(7), 8);
        assert.equal(count(1, 2), 2);
        assert.equal(bare(), 1);
        assert.throws(gone, { name: "Error", message: "tools.gone is not defined" });
        assert.throws(lost, { name: "Error", message: 'tools.deep["e-f"] is not defined' });
        globalThis.tools.twice = () => 0;
        globalThis.tools.gone = () => 0;
        assert.equal(twice(21), 42);
        assert.throws(gone, { message: "tools.gone is not defined" });
    },

    /** The memory has one page, and grows. */
    memory({ size, grow }) {
        assert.equal(size(), 1);
        assert.equal(grow(3), 1);
        assert.equal(size(), 4);
    },

    /** It has at most three. */
    limited({ size, grow }) {
        assert.equal(size(), 1);
        assert.equal(grow(3), -1);
        assert.equal(grow(2), 1);
        assert.equal(size(), 3);
    },

    /** Each constant is its own name. */
    strings({ show }) {
        show();
        assert.deepEqual(globalThis.taken, JSON.parse(strings));
    },

    /** Its file can't be loaded. */
    nowhere() {
        assert.fail("it was loaded");
    },
};

// What the error says where a file can't be loaded.
const refused = { nowhere: /^load: Cannot read properties of undefined/ };

const said = [];
const tell = console.error;
console.error = (text) => said.push(text);
await load(checks[title]);
console.error = tell;
if (title in refused && said.length === 1 && refused[title].test(said[0])) process.exitCode = 0;
else said.forEach((text) => tell(text));
