// Loads the glue file of a listing and prints what it publishes: node load.mjs [LISTING|-] [FOLDER]
//
// The listing is read from the file LISTING, or from standard input. Its files are written into FOLDER, or into a
// temporary folder that is removed at the end. Then `out.js` is imported from there, and what it publishes is printed, one
// line for each path, and used.

import { load } from "../load.mjs";

/** What stands at a path, and below it. */
function* told(path, value) {
    const entries = Object.entries(value);
    const numbers = entries.filter(([, number]) => typeof number === "number");
    if (typeof value === "function") yield `${path}: a function`;
    else if (Object.isFrozen(value)) yield `${path}: ${numbers.map((entry) => entry.join(" is ")).join(", ")}`;
    else for (const [name, below] of entries.sort()) yield* told(`${path}.${name}`, below);
}

/** Prints each path, and what the functions return. */
function showAll(published) {
    for (const name of Object.keys(published).sort()) {
        for (const line of told(name, published[name])) console.log(line);
    }
    const { default: answer, Error, Unit, heap, kit, shapes, sum } = published;
    console.log(`default() gives ${answer()}`);
    console.log(`Error(3) gives ${Error(3)}`);
    console.log(`Unit[25] is ${Unit[25]}`);
    console.log(`heap(65535) gives ${heap(65535)}`);
    console.log(`kit.deep.half(9) gives ${kit.deep.half(9)}`);
    console.log(`kit.deep.thrice(9) gives ${kit.deep.thrice(9)}`);
    console.log(`kit.twice(9) gives ${kit.twice(9)}`);
    console.log(`shapes.area(3, 4) gives ${shapes.area(3, 4)}`);
    console.log(`shapes.perimeter(3, 4) gives ${shapes.perimeter(3, 4)}`);
    console.log(`shapes.solid.volume(3) gives ${shapes.solid.volume(3)}`);
    console.log(`sum(40, 2) gives ${sum(40, 2)}`);
}

await load(showAll);
