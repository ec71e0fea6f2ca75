// Unpacks a listing of the glue generator and loads its glue file as Deno would. The examples' `load.mjs` use it.

import { existsSync, mkdirSync, mkdtempSync, readFileSync, realpathSync, rmSync, writeFileSync } from "node:fs";
import { tmpdir } from "node:os";
import { dirname, join, resolve, sep } from "node:path";
import { fileURLToPath, pathToFileURL } from "node:url";

const LINE_FEED = 10;

/** The files of a listing, each `{ path, bytes }`. Throws where it is none, as where the generator printed a fault. */
function readListing(listing) {
    const files = [];
    let at = 0;
    while (at < listing.length) {
        const end = listing.indexOf(LINE_FEED, at);
        const header = listing.toString("utf8", at, end < 0 ? listing.length : end);
        const parts = /^file (.+) (text|hex) (\d+)$/.exec(header);
        if (end < 0 || parts === null) throw new Error(`not a listing: ${header}`);
        const [, path, form, count] = parts;
        const begin = end + 1;
        at = begin + Number(count) * (form === "hex" ? 2 : 1);
        if (listing[at] !== LINE_FEED) throw new Error(`${path}: not ${count} bytes and a line feed`);
        const bytes = form === "hex"
            ? Buffer.from(listing.toString("latin1", begin, at), "hex")
            : listing.subarray(begin, at);
        if (bytes.length !== Number(count)) throw new Error(`${path}: not ${count} bytes in hexadecimal digits`);
        files.push({ path, bytes });
        at += 1;
    }
    if (files.length === 0) throw new Error("the listing is empty");
    return files;
}

/** Writes the files into the folder. Throws where a path leads out of it. */
function unpack(files, folder) {
    for (const { path, bytes } of files) {
        const place = resolve(folder, path);
        if (!place.startsWith(folder + sep)) throw new Error(`${path} is not below the folder`);
        mkdirSync(dirname(place), { recursive: true });
        writeFileSync(place, bytes);
    }
    // The glue file is an ECMAScript module, which node takes a file `.js` for only where a package says so.
    const manifest = join(folder, "package.json");
    if (!existsSync(manifest)) writeFileSync(manifest, '{"type":"module"}\n');
}

/** Node's own `fetch` takes no `file:` URL. This one answers the files of a folder, as Deno's does. */
function fetchFrom(folder) {
    return async (url) => {
        const path = fileURLToPath(url);
        if (!path.startsWith(folder + sep)) throw new TypeError(`${url} is not below the folder`);
        const type = path.endsWith(".wasm") ? "application/wasm" : "text/plain";
        return new Response(readFileSync(path), { headers: { "content-type": type } });
    };
}

/** The folder's path without symbolic links, as `import.meta.url` has it. The folder is made where it is missing. */
function folderAt(given) {
    if (given === undefined) return realpathSync(mkdtempSync(join(tmpdir(), "glue-")));
    mkdirSync(given, { recursive: true });
    return realpathSync(given);
}

/** Writes the files of a listing into a folder, and has `fetch` answer them from there. */
export function unpackListing(listing, folder) {
    unpack(readListing(listing), folder);
    globalThis.fetch = fetchFrom(folder);
}

/**
 * Reads the listing that the command line names, or that of standard input, writes its files into the folder that the
 * command line names, or into a temporary one that is removed at the end, imports `out.js` from there and calls `use`
 * with what it exports.
 */
export async function load(use) {
    const [listing = "-", given] = process.argv.slice(2);
    const folder = folderAt(given);
    try {
        unpackListing(readFileSync(listing === "-" ? 0 : listing), folder);
        use(await import(pathToFileURL(join(folder, "out.js")).href));
    } catch (error) {
        console.error(`load: ${error.message}`);
        process.exitCode = 1;
    } finally {
        if (given === undefined) rmSync(folder, { recursive: true });
    }
}
