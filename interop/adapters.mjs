// Loads the glue file of a listing and calls it: node adapters.mjs LISTING FOLDER CASE APPENDED
//
// adapters.py makes the listings. The files are written into FOLDER, and the text APPENDED is put behind the glue file. The
// status is 1 where the exports of the glue file do something else than they have to, and then standard error says what.

import assert from "node:assert/strict";
import { appendFileSync, mkdirSync, readFileSync, realpathSync } from "node:fs";
import { join } from "node:path";
import { pathToFileURL } from "node:url";

import { unpackListing } from "../examples/load.mjs";

const [, , listing, given, title, appended] = process.argv;

// What the imports do, and with which values they were called.
const calls = [];

const checks = {
    numbers({ signed, unsigned, signedWide, unsignedWide, less, not, after, flipped, shown }) {
        // ToInt32 (ECMAScript 7.1.6) at the boundary, and the 32 bits read as signed or as unsigned.
        for (const [given, low, high] of [
            [0, 0, 0],
            [-1, -1, 4294967295],
            [2147483647, 2147483647, 2147483647],
            [2147483648, -2147483648, 2147483648],
            [4294967296, 0, 0],
            [1.9, 1, 1],
        ]) {
            assert.equal(signed(given), low);
            assert.equal(unsigned(given), high);
        }
        // ToBigInt64 (7.1.15), and the 64 bits read as signed or as unsigned.
        for (const [given, low, high] of [
            [0n, 0n, 0n],
            [-1n, -1n, 18446744073709551615n],
            [9223372036854775807n, 9223372036854775807n, 9223372036854775807n],
            [9223372036854775808n, -9223372036854775808n, 9223372036854775808n],
            [18446744073709551616n, 0n, 0n],
        ]) {
            assert.equal(signedWide(given), low);
            assert.equal(unsignedWide(given), high);
        }
        // No number is a big integer.
        assert.throws(() => signedWide(1), TypeError);
        assert.equal(less(1n, 2n), true);
        assert.equal(less(-1n, 2n), false);
        assert.equal(less(2n, 2n), false);
        assert.equal(not(true), false);
        assert.equal(not(false), true);
        assert.equal(not(), true);
        // The import is given an unsigned number, and its answer is read as unsigned again.
        globalThis.next = (value) => (calls.push(value), value + 1n);
        assert.equal(after(-2n), 18446744073709551615n);
        assert.equal(after(-1n), 0n);
        globalThis.next = () => -5n;
        assert.equal(after(0n), 18446744073709551611n);
        assert.deepEqual(calls.splice(0), [18446744073709551614n, 18446744073709551615n]);
        globalThis.flip = (value) => (calls.push(value), !value);
        assert.equal(flipped(true), false);
        assert.equal(flipped(false), true);
        assert.deepEqual(calls.splice(0), [true, false]);
        // `(x !== 0) >>> 0`
        globalThis.show = (value) => calls.push(value);
        shown(0);
        shown(5);
        shown(-1);
        assert.deepEqual(calls.splice(0), [0, 1, 1]);
    },

    objects({ looked, both, made, keep, seen, taken, used, settled, state }) {
        // 1,024 slots for lent objects, four constants, and the first free slot behind them, which is the length.
        const first = [1028, 1028, 1024];
        assert.deepEqual(state(), first);
        const lent = { lent: true };
        const error = new Error("thrown");
        // A lent object is seen by the import, and given back.
        globalThis.look = (value) => (calls.push([value, state()]), 5);
        assert.equal(looked(lent), 5);
        assert.deepEqual(calls.splice(0), [[lent, [1028, 1028, 1023]]]);
        assert.deepEqual(state(), first);
        assert.equal(both(lent, undefined), 10);
        assert.deepEqual(calls.splice(0), [[lent, [1028, 1028, 1022]], [undefined, [1028, 1028, 1022]]]);
        assert.deepEqual(state(), first);
        // It is given back where an import throws, at its first call and at its second one.
        globalThis.look = () => {
            throw error;
        };
        assert.throws(() => looked(lent), (thrown) => thrown === error);
        assert.deepEqual(state(), first);
        let left = 1;
        globalThis.look = () => {
            if (left-- > 0) return 1;
            throw error;
        };
        assert.throws(() => both(lent, null), (thrown) => thrown === error);
        assert.deepEqual(state(), first);
        // A call within a call lends below what is lent already.
        globalThis.look = (value) => (value === lent ? looked(null) + 1 : (calls.push(state()[2]), 1));
        assert.equal(looked(lent), 2);
        assert.deepEqual(calls.splice(0), [1022]);
        assert.deepEqual(state(), first);
        // 1,023 objects are lent at once, and no more.
        let depth = 0;
        globalThis.look = () => (++depth, looked(depth));
        assert.throws(() => looked(0), { name: "Error", message: "out of js stack" });
        assert.equal(depth, 1023);
        assert.deepEqual(state(), first);
        // What an import makes is taken out of the table again, whatever it is.
        for (const value of [lent, "text", 1.5, 3n, Symbol.iterator, null, undefined, NaN, false]) {
            globalThis.make = () => value;
            assert.equal(made(lent), value);
            assert.deepEqual(state().slice(1), first.slice(1));
        }
        // The slot that the first of them had is the free one, and no other was made.
        assert.deepEqual(state(), [1029, 1028, 1024]);
        // A given object stays, is seen as often as is asked, and is taken once.
        const given = { given: true };
        keep(given);
        assert.deepEqual(state(), [1029, 1029, 1024]);
        assert.equal(seen(), given);
        assert.equal(seen(), given);
        assert.deepEqual(state(), [1029, 1029, 1024]);
        assert.equal(taken(), given);
        assert.deepEqual(state(), [1029, 1028, 1024]);
        // An import takes what it is given, and may throw then.
        globalThis.use = (value) => calls.push(value);
        used(given);
        assert.deepEqual(calls.splice(0), [given]);
        assert.deepEqual(state(), [1029, 1028, 1024]);
        globalThis.use = () => {
            throw error;
        };
        assert.throws(() => used(given), (thrown) => thrown === error);
        assert.deepEqual(state(), [1029, 1028, 1024]);
        // A value that is thrown is taken out of the table before.
        assert.throws(() => settled(error, true), (thrown) => thrown === error);
        assert.throws(() => settled("a", true), (thrown) => thrown === "a");
        assert.deepEqual(state(), [1029, 1028, 1024]);
        // One that isn't thrown stays.
        assert.equal(settled(error, false), 7);
        assert.deepEqual(state(), [1029, 1029, 1024]);
    },
};

/** Texts, what arrives where they went in, and their bytes in UTF-8 (Encoding, 8.2.2; a lone surrogate is U+FFFD). */
const TEXTS = [
    ["", "", []],
    ["a", "a", [0x61]],
    ["\0\x7f", "\0\x7f", [0x00, 0x7f]],
    ["\x80\u07ff", "\x80\u07ff", [0xc2, 0x80, 0xdf, 0xbf]],
    ["\u0800\uffff", "\u0800\uffff", [0xe0, 0xa0, 0x80, 0xef, 0xbf, 0xbf]],
    ["\ud7ff\ue000", "\ud7ff\ue000", [0xed, 0x9f, 0xbf, 0xee, 0x80, 0x80]],
    ["\u{10000}\u{10ffff}", "\u{10000}\u{10ffff}", [0xf0, 0x90, 0x80, 0x80, 0xf4, 0x8f, 0xbf, 0xbf]],
    ["a\u{e9}\u{1f600}z", "a\u{e9}\u{1f600}z", [0x61, 0xc3, 0xa9, 0xf0, 0x9f, 0x98, 0x80, 0x7a]],
    ["\u{20ac}a", "\u{20ac}a", [0xe2, 0x82, 0xac, 0x61]],
    // A byte order mark is a character as any other.
    ["\ufeffa\ufeff", "\ufeffa\ufeff", [0xef, 0xbb, 0xbf, 0x61, 0xef, 0xbb, 0xbf]],
    ["\ud800", "\ufffd", [0xef, 0xbf, 0xbd]],
    ["a\udc00b", "a\ufffdb", [0x61, 0xef, 0xbf, 0xbd, 0x62]],
    ["\ude00\ud83d", "\ufffd\ufffd", [0xef, 0xbf, 0xbd, 0xef, 0xbf, 0xbd]],
    ["\ud83d\ud83d\ude00", "\ufffd\u{1f600}", [0xef, 0xbf, 0xbd, 0xf0, 0x9f, 0x98, 0x80]],
];

/** Texts of 100,000 units of UTF-16, and how many bytes they have. */
const LONG = [
    ["x".repeat(100000), 100000],
    ["\u{e9}".repeat(100000), 200000],
    ["\u{20ac}".repeat(100000), 300000],
    ["\u{1f600}".repeat(50000), 200000],
    ["x".repeat(99999) + "\u{e9}", 100001],
    ["\u{e9}" + "x".repeat(99999), 100001],
];

/** Of each kind of integers its arrays, how many bytes one takes, some of them, and the one whose bytes are all 255. */
const KINDS = {
    I8: [Int8Array, 1, [-128, -1, 0, 1, 127], -1],
    U8: [Uint8Array, 1, [0, 1, 127, 128, 255], 255],
    I16: [Int16Array, 2, [-32768, -1, 0, 258, 32767], -1],
    U16: [Uint16Array, 2, [0, 1, 258, 65535], 65535],
    I32: [Int32Array, 4, [-2147483648, -1, 0, 16909060, 2147483647], -1],
    U32: [Uint32Array, 4, [0, 1, 16909060, 4294967295], 4294967295],
    I64: [BigInt64Array, 8, [-9223372036854775808n, -1n, 0n, 72623859790382856n, 9223372036854775807n], -1n],
    U64: [BigUint64Array, 8, [0n, 1n, 72623859790382856n, 18446744073709551615n], 18446744073709551615n],
};

/** Values of every kind. */
const VALUES = [{ a: 1 }, "text", 1.5, -0, 3n, true, undefined, null, NaN, Symbol.iterator, () => 1, [1, 2]];

const error = new Error("thrown");

const throwing = () => {
    throw error;
};

const isError = (thrown) => thrown === error;

/** Nothing is in use. */
function assertFreed(state, ...more) {
    assert.deepEqual(state(), [0, 0, ...more]);
}

/** Vectors of any values, which leave no memory and no value in use. */
function checkValues(pass, same, state, last) {
    let seen;
    globalThis.see = (all) => (seen = all);
    const many = Array.from({ length: 5000 }, (_, place) => ({ place }));
    for (const given of [[], [undefined], VALUES, [VALUES[0], VALUES[0]], many]) {
        pass(given);
        assert.ok(Array.isArray(seen));
        assert.equal(seen.length, given.length);
        assert.ok(seen.every((value, place) => Object.is(value, given[place])));
        assertFreed(state, 0);
        assert.deepEqual(last(), [given.length, 4]);
        // It comes out as it went in.
        const back = same(given, given.length);
        assert.ok(Array.isArray(back));
        assert.equal(back.length, given.length);
        assert.ok(back.every((value, place) => Object.is(value, given[place])));
        assertFreed(state, 0);
        assert.deepEqual(last(), [given.length, 4]);
    }
    // The import takes what it is given, and may throw then.
    globalThis.see = throwing;
    assert.throws(() => pass(VALUES), isError);
    assertFreed(state, 0);
}

/** Values in a table of references. The last of the three counts is that of its places in use. */
function checkReferences({ pass, same, keep, seen, taken, used, looked, made, settled, state, last }) {
    assertFreed(state, 0);
    checkValues(pass, same, state, last);
    // A given value stays, is seen as often as is asked, and is taken once; the table has a place more where none is free.
    for (const value of VALUES) {
        keep(value);
        assertFreed(state, 1);
        assert.ok(Object.is(seen(), value));
        assert.ok(Object.is(seen(), value));
        assertFreed(state, 1);
        assert.ok(Object.is(taken(), value));
        assertFreed(state, 0);
    }
    // An import takes what it is given, and may throw then.
    const given = { given: true };
    globalThis.use = (value) => calls.push([value, state()]);
    used(given);
    assert.deepEqual(calls.splice(0), [[given, [0, 0, 0]]]);
    globalThis.use = throwing;
    assert.throws(() => used(given), isError);
    assertFreed(state, 0);
    // Another one looks at it, and the module frees its place.
    globalThis.look = (value) => (calls.push([value, state()]), 5);
    assert.equal(looked(given), 5);
    assert.deepEqual(calls.splice(0), [[given, [0, 0, 1]]]);
    assertFreed(state, 0);
    // A value goes in by itself, and what an import makes of it comes out of the table.
    globalThis.make = (value) => [value];
    assert.deepEqual(made(given), [given]);
    for (const value of VALUES) {
        globalThis.make = () => value;
        assert.ok(Object.is(made(given), value));
    }
    globalThis.make = throwing;
    assert.throws(() => made(given), isError);
    assertFreed(state, 0);
    // A value that is thrown is taken out of the table before.
    assert.throws(() => settled(error, true), isError);
    assert.throws(() => settled("a", true), (thrown) => thrown === "a");
    assertFreed(state, 0);
    // One that isn't thrown stays.
    assert.equal(settled(error, false), 7);
    assertFreed(state, 1);
}

/** The exports of the module, which stand before those that are added. */
const OWN = [
    ...["pass", "same", "keep", "kept", "used", "looked", "made", "settled"],
    ...["bytes", "blocks", "length", "align", "placed", "memory", "free", "__wbindgen_export2"],
];

checks.strings = ({ size, say, short, show, both, option, made, state, last }) => {
    const heard = [];
    let bytes;
    globalThis.hear = (text) => heard.push(text);
    globalThis.see = (seen) => (bytes = seen);
    assertFreed(state);
    for (const [text, arrives, units] of TEXTS) {
        say(text);
        assertFreed(state);
        assert.deepEqual(last(), [units.length, 1]);
        short(text);
        assertFreed(state);
        assert.deepEqual(last(), [units.length, 1]);
        assert.deepEqual(heard.splice(0), [arrives, arrives]);
        show(text);
        // A copy: the memory has other bytes now.
        assert.deepEqual(bytes, Uint8Array.from(units));
        assert.equal(size(text), units.length);
        assertFreed(state);
    }
    for (const [text, count] of LONG) {
        assert.equal(size(text), count);
        say(text);
        short(text);
        assert.ok(heard.splice(0).every((other) => other === text));
        assertFreed(state);
        assert.deepEqual(last(), [count, 1]);
    }
    // Of what is absent the address is 0, whatever was passed before.
    assert.equal(size("abc"), 3);
    for (const [given, count] of [[undefined, -1], [null, -1], ["", 0], ["\u{e9}", 2], ["abc", 3], [undefined, -1]]) {
        assert.equal(option(given), count);
        assertFreed(state);
    }
    assert.equal(option(), -1);
    // What is made in memory is read before it is freed. Bytes that are no UTF-8 are U+FFFD, each of them.
    for (const [count, byte, text] of [[3, 0x61, "aaa"], [0, 0x61, ""], [2, 0xff, "\ufffd\ufffd"], [1, 0, "\0"]]) {
        assert.equal(made(count, byte), text);
        assertFreed(state);
        assert.deepEqual(last(), [count, 1]);
    }
    assert.equal(made(300000, 0x78), "x".repeat(300000));
    assertFreed(state);
    // What was passed is freed where an import throws, at its first call and at its second one.
    globalThis.hear = throwing;
    assert.throws(() => say("a\u{e9}"), isError);
    assertFreed(state);
    assert.deepEqual(last(), [3, 1]);
    assert.throws(() => both("a", "bc"), isError);
    assertFreed(state);
    // The one that was passed first is freed last.
    assert.deepEqual(last(), [1, 1]);
    let left = 1;
    globalThis.hear = (text) => (left-- > 0 ? heard.push(text) : throwing());
    assert.throws(() => both("a", "bc"), isError);
    assert.deepEqual(heard.splice(0), ["a"]);
    assertFreed(state);
    // And where there is no memory for the second one: more than a mebibyte is refused.
    globalThis.hear = (text) => heard.push(text);
    assert.throws(() => both("a", "x".repeat(1048577)), WebAssembly.RuntimeError);
    assert.deepEqual(heard, []);
    assertFreed(state);
    assert.deepEqual(last(), [1, 1]);
    both("\u{e9}", "");
    assert.deepEqual(heard.splice(0), ["\u{e9}", ""]);
    assertFreed(state);
};

checks.vectors = (glue) => {
    const { state, last } = glue;
    assertFreed(state);
    for (const [kind, [Elements, size, some, full]] of Object.entries(KINDS)) {
        const [pass, made] = [glue[`pass${kind}`], glue[`made${kind}`]];
        let seen;
        globalThis[`see${kind}`] = (all) => (seen = all);
        const many = Elements.from({ length: 100000 }, (_, place) => some[place % some.length]);
        // A plain array goes in as well.
        for (const given of [Elements.of(), Elements.from(some), some, many]) {
            pass(given);
            assert.equal(seen.constructor, Elements);
            // A copy: the memory has other bytes now.
            assert.deepEqual(seen, Elements.from(given));
            assert.equal(seen.buffer.byteLength, given.length * size);
            assertFreed(state);
            // So many elements, as many as there are, and not so many bytes.
            assert.deepEqual(last(), [given.length, size]);
        }
        for (const count of [0, 1, 5, 100000]) {
            assert.deepEqual(made(count, 255), new Elements(count).fill(full));
            assertFreed(state);
            assert.deepEqual(last(), [count, size]);
        }
        globalThis[`see${kind}`] = throwing;
        assert.throws(() => pass(some), isError);
        assertFreed(state);
    }
    // Elements are converted as those of the array that they go into: modulo 256 (ECMAScript 7.1.10).
    let seen;
    globalThis.seeI8 = (all) => (seen = all);
    glue.passI8([255, -129, 256, 1.9]);
    assert.deepEqual(seen, Int8Array.of(-1, 127, 0, 1));
    // No number is a big integer. The memory that was asked for before stays in use.
    assert.throws(() => glue.passI64([1]), TypeError);
    assert.deepEqual(state(), [8, 1]);
};

checks.values = ({ pass, same, state, last }) => {
    assertFreed(state, 0);
    checkValues(pass, same, state, last);
};

checks.closures = ({ give, share, deepen, destroyed, functions }) => {
    // Those that are made have their functions, also where only another closure makes them, and the others don't.
    assert.deepEqual(functions, ["function", "function", "undefined"]);
    const kept = [];
    for (const title of ["hold", "lend", "nest"]) globalThis[title] = (made) => void kept.push(made);
    globalThis.again = (more) => void calls.push(more);
    // Kept and called: the number at its address, with what it is called with added, times the number that it holds.
    give(64, 3);
    const [growing] = kept.splice(0);
    assert.equal(growing(2), 6);
    assert.equal(growing(5), 21);
    assert.equal(growing(-1), 18);
    assert.deepEqual(calls.splice(0), [2, 5, -1]);
    // While one that may change what it holds is called, it has no address; after that it has it again.
    globalThis.again = (more) => void (more > 1 && growing(more - 1));
    assert.throws(() => growing(2), WebAssembly.RuntimeError);
    assert.equal(growing(1), 21);
    // One that changes nothing is called from within itself: 1, and 2 more, and 3 more.
    share(128, 10);
    const [shared] = kept.splice(0);
    globalThis.again = (more) => void (more > 1 && shared(more - 1));
    assert.equal(shared(3), 60);
    // What is thrown within comes out, and the closure stays.
    globalThis.again = () => {
        throw new Error("not again");
    };
    assert.throws(() => shared(1), /^Error: not again$/);
    assert.throws(() => growing(1), /^Error: not again$/);
    globalThis.again = () => {};
    assert.equal(shared(1), 70);
    assert.equal(growing(1), 24);
    assert.equal(destroyed(), 0);
    // Given back, it is destroyed, and has no address any more.
    growing._wbg_cb_unref();
    assert.equal(destroyed(), 1);
    assert.throws(() => growing(1), WebAssembly.RuntimeError);
    assert.equal(destroyed(), 1);
    // Given back while it is called, it is destroyed when the call ends.
    globalThis.again = () => shared._wbg_cb_unref();
    assert.equal(shared(2), 90);
    assert.equal(destroyed(), 2);
    // A closure that makes closures.
    globalThis.again = () => {};
    deepen(192, 7);
    const [making] = kept.splice(0);
    const inner = making();
    assert.equal(inner(4), 28);
    assert.equal(making()(1), 35);
};
// What imports throw is taken by the module, where so much of the table is in use first, while it is held, and after that.
function checkCaught({ risked, widened, told, failed, thrown, count, state }, first, held, after) {
    assert.deepEqual(state(), first);
    globalThis.risk = (value) => value + 1;
    assert.equal(risked(41), 42);
    assert.equal(count(), 0);
    // The module takes what is thrown, and goes on with 0.
    globalThis.risk = throwing;
    assert.equal(risked(41), 0);
    assert.equal(count(), 1);
    assert.deepEqual(state(), held);
    assert.equal(thrown(), error);
    assert.deepEqual(state(), after);
    // Any value can be thrown.
    for (const value of VALUES) {
        globalThis.tell = () => {
            throw value;
        };
        assert.equal(told(0), undefined);
        assert.deepEqual(state(), held);
        assert.ok(Object.is(thrown(), value));
        assert.deepEqual(state(), after);
    }
    // An integer of 64 bits is given, and is 0 where one isn't.
    globalThis.wide = (value) => BigInt(value) * 2n;
    assert.equal(widened(21), 42n);
    globalThis.wide = throwing;
    assert.equal(widened(21), 0n);
    assert.equal(thrown(), error);
    // What an import throws that isn't listed comes out of the export.
    const taken = count();
    assert.equal(taken, VALUES.length + 2);
    globalThis.fail = throwing;
    assert.throws(() => failed(1), isError);
    assert.equal(count(), taken);
    assert.deepEqual(state(), after);
}

checks.caught = (glue, names) => {
    // One slot more, which is the first free one when it is given back.
    checkCaught(glue, [1028, 1028], [1029, 1029], [1029, 1028]);
    // The function that takes what is thrown has an export behind those of the module.
    assert.equal(names.at(-1), "__wbindgen_export");
};

checks.caughtReferences = (glue) => checkCaught(glue, [0], [1], [0]);

checks.forms = ({ own, rest, both }) => {
    // The numbers of parameters (ECMAScript 15.1.5): `this` is none, and a rest parameter doesn't count.
    assert.deepEqual([own, rest, both].map((form) => form.length), [1, 1, 0]);
    assert.equal(own.call(5, 7), 12);
    globalThis.see = (first, others) => void calls.push([first, others]);
    rest("a");
    rest("a", "b", "c");
    both.call("self");
    both.call("self", 1, 2);
    assert.deepEqual(calls.splice(0), [["a", []], ["a", ["b", "c"]], ["self", []], ["self", [1, 2]]]);
};

checks.enums = ({ same, place, text, odd, after, lists }) => {
    const colors = ["red", "green", "blue"];
    const odds = ['a "quote"', "a\nline", "\u2028", "", "\\"];
    // Each enum that a function names has its list, and no other.
    assert.deepEqual(lists, [colors, odds, "undefined"]);
    colors.forEach((color, at) => {
        assert.equal(same(color), color);
        assert.equal(place(color), at);
        assert.equal(text(at), color);
    });
    odds.forEach((other, at) => assert.equal(odd(at), other));
    // A text that the enum doesn't have is -1, and a place that it doesn't have is undefined.
    for (const other of ["yellow", "", "Red", undefined, null, 0]) {
        assert.equal(place(other), -1);
        assert.equal(same(other), undefined);
    }
    for (const other of [-1, 3, 2147483647]) assert.equal(text(other), undefined);
    // The import is given a text, and gives one.
    globalThis.next = (color) => (calls.push(color), colors[(colors.indexOf(color) + 1) % 3]);
    assert.deepEqual(colors.map(after), ["green", "blue", "red"]);
    assert.deepEqual(calls.splice(0), colors);
    globalThis.next = () => "yellow";
    assert.equal(after("red"), undefined);
};

checks.results = ({ made, wide, low, checked, told, ended, state, last }, names) => {
    const first = [1024, 0, 0, 0];
    assert.deepEqual(state(), first);
    // What moves the stack is exported behind all that the module exports.
    assert.equal(names.at(-1), "__wbindgen_add_to_stack_pointer");
    // Room of 16 bytes is taken while the export runs, also within another call, and given back.
    globalThis.look = () => calls.push(state()[0]);
    for (const [count, byte, text] of [[3, 0x61, "aaa"], [0, 0x61, ""], [2, 0xff, "\ufffd\ufffd"], [300000, 0x78, "x".repeat(300000)]]) {
        assert.equal(made(count, byte), text);
        assert.deepEqual(calls.splice(0), [1008]);
        assert.deepEqual(state(), first);
        assert.deepEqual(last(), [count, 1]);
    }
    let inner;
    globalThis.look = () => {
        calls.push(state()[0]);
        globalThis.look = () => calls.push(state()[0]);
        inner = made(2, 0x62);
    };
    assert.equal(made(1, 0x63), "c");
    assert.equal(inner, "bb");
    assert.deepEqual(calls.splice(0), [1008, 992]);
    assert.deepEqual(state(), first);
    // It is given back where an import throws, and where there is no memory for what is made.
    globalThis.look = throwing;
    assert.throws(() => made(1, 0x61), isError);
    assert.deepEqual(state(), first);
    globalThis.look = () => {};
    assert.throws(() => made(1048577, 0x61), WebAssembly.RuntimeError);
    assert.deepEqual(state(), first);
    // Integers of 64 bits at their ends, and the 32 low ones.
    for (const value of [0n, 1n, -1n, 9223372036854775807n, -9223372036854775808n, 4294967296n]) {
        assert.equal(wide(value), value);
        assert.equal(low(value), Number(BigInt.asUintN(32, value)));
        assert.deepEqual(state(), first);
    }
    // A result, or a value that is thrown and taken out of the table before.
    for (const value of [1, -1, 2147483647, -2147483648]) assert.equal(checked(value), value);
    for (const value of [error, "text", undefined]) {
        globalThis.fail = () => value;
        assert.throws(() => checked(0), (thrown) => thrown === value);
        assert.deepEqual(state(), first);
    }
    globalThis.fail = throwing;
    assert.throws(() => checked(0), isError);
    assert.deepEqual(state(), first);
    // An import writes its results into room that the module took.
    const heard = [];
    globalThis.hear = (text) => heard.push(text);
    for (const [text, arrives, units] of TEXTS) {
        globalThis.tell = () => text;
        told();
        assert.deepEqual(heard.splice(0), [arrives]);
        assert.deepEqual(state(), first);
        assert.deepEqual(last(), [units.length, 1]);
    }
    for (const value of [0n, -1n, 9223372036854775807n, -9223372036854775808n]) {
        globalThis.end = () => value;
        assert.equal(ended(), value);
        assert.deepEqual(state(), first);
    }
};

checks.references = checkReferences;

checks.named = (glue, names) => {
    checkReferences(glue);
    // A function has its own name, made an identifier and fresh; functions come before tables, and these before memories.
    const added = ["malloc", "free2", "alloc", "drop", "drop_slice", "__wbindgen_export", "memory2"];
    assert.deepEqual(names, [...OWN, ...added]);
};

checks.unnamed = (glue, names) => {
    checkReferences(glue);
    const added = [3, 4, 5, 6, 7].map((number) => `__wbindgen_export${number}`);
    assert.deepEqual(names, [...OWN, "__wbindgen_export", ...added, "memory2"]);
};

/** The names of the exports of the module that was written. */
function exportNames(folder) {
    const module = new WebAssembly.Module(readFileSync(join(folder, "out_bg.wasm")));
    return WebAssembly.Module.exports(module).map(({ name }) => name);
}

try {
    mkdirSync(given, { recursive: true });
    const folder = realpathSync(given);
    unpackListing(readFileSync(listing), folder);
    appendFileSync(join(folder, "out.js"), appended);
    checks[title](await import(pathToFileURL(join(folder, "out.js")).href), exportNames(folder));
} catch (error) {
    console.error(error.message);
    process.exitCode = 1;
}
