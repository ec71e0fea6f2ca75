// Loads glue files and compares what they publish with the trees that were described: node trees.mjs FOLDER
//
// trees.py makes the folder. Each folder in it that has a `listing` has the modules that the glue file takes, and `tree.json`:
// the paths of these modules, the globals that have to be there, and the tree. For each a line is printed, a list of the folder's
// name and what differs.

import assert from "node:assert/strict";
import { existsSync, readFileSync, readdirSync, realpathSync, writeFileSync } from "node:fs";
import { join } from "node:path";
import { pathToFileURL } from "node:url";

import { unpackListing } from "../examples/load.mjs";

const isObject = (value) => typeof value === "object" && value !== null;

/** What a value holds, level by level, before the glue file is loaded. */
function held(value) {
    const entries = isObject(value) ? Object.entries(value) : [];
    return { value, below: new Map(entries.map(([name, inner]) => [name, held(inner)])) };
}

/** Nothing is held. */
const NOTHING = held(undefined);

/** An enum holds each number by its name, and each name by its number. */
function enumOf(variants) {
    const made = {};
    for (const [name, number] of variants) {
        made[name] = Number(number);
        made[number] = name;
    }
    return made;
}

/** A level has the names of the tree and those that it held before, and holds under the latter what it held. */
function compareLevel(path, below, value, before) {
    const names = below.map(([name]) => name);
    const others = [...before.below.keys()].filter((name) => !names.includes(name));
    assert.deepEqual(Object.keys(value).sort(), [...names, ...others].sort(), `the names of ${JSON.stringify(path)}`);
    for (const name of others) assert.equal(value[name], before.below.get(name).value, JSON.stringify([...path, name]));
    for (const [name, node] of below) compare([...path, name], node, value[name], before.below.get(name) ?? NOTHING);
}

/** What stands at a path is what the tree has there. `before` is what the path had before the glue file was loaded. */
function compare(path, node, value, before) {
    const where = JSON.stringify(path);
    if ("function" in node) {
        assert.equal(typeof value, "function", where);
        assert.equal(value(), node.function, where);
    } else if ("enum" in node) {
        assert.ok(Object.isFrozen(value), where);
        assert.deepEqual(value, enumOf(node.enum), where);
    } else if ("reexport" in node) {
        assert.equal(value, before.value, where);
        compareLevel(path, node.below, value, before);
    } else if (before.value) {
        assert.equal(value, before.value, where);
        compareLevel(path, node.below, value, before);
    } else {
        compareLevel(path, node.below, value, NOTHING);
    }
}

/** Imports by a module of its own: a module that exports a function `then` can't be imported by a call. */
async function importAll(folder, file, paths) {
    const lines = paths.map((path, place) => `import * as m${place} from ${JSON.stringify(path)};\n`);
    const list = paths.map((_, place) => `m${place}`).join(", ");
    writeFileSync(join(folder, file), `${lines.join("")}export default [${list}];\n`);
    return (await import(pathToFileURL(join(folder, file)).href)).default;
}

/** Loads the glue file of a folder, and compares. */
async function check(folder) {
    const { modules, globals, tree } = JSON.parse(readFileSync(join(folder, "tree.json")));
    Object.assign(globalThis, globals);
    unpackListing(readFileSync(join(folder, "listing")), folder);
    const imported = await importAll(folder, "imported.mjs", modules);
    const values = new Map(modules.map((path, place) => [path, imported[place]]));
    const top = new Map();
    for (const [name, node] of tree) {
        if (!("reexport" in node)) continue;
        const [path, key] = node.reexport;
        top.set(name, held(path === "" ? globals[key] : values.get(path)[key]));
    }
    const [published] = await importAll(folder, "published.mjs", ["./out.js"]);
    assert.deepEqual(Object.keys(published).sort(), tree.map(([name]) => name).sort(), "the names of the top level");
    for (const [name, node] of tree) compare([name], node, published[name], top.get(name) ?? NOTHING);
    for (const name of Object.keys(globals)) delete globalThis[name];
}

const folder = realpathSync(process.argv[2]);
for (const name of readdirSync(folder)) {
    if (!existsSync(join(folder, name, "listing"))) continue;
    let told = "";
    try {
        await check(join(folder, name));
    } catch (error) {
        told = `${error.name}: ${error.message}`.replace(/\s+/g, " ").slice(0, 400);
    }
    console.log(JSON.stringify([name, told]));
}
