// Writes web/out/index.html: page.html with the code and the module inside, so that it opens from disk and fetches nothing. The module is
// the one with a 32-bit memory, which every engine runs, cut to what the page calls.
//
//     node web/page.mjs [MODULE PAGE]    or with that module of web/out, whole, to that file
import { readFileSync, writeFileSync } from "node:fs";
import { gzipSync } from "node:zlib";
import { bundled, cut, minified, shaken } from "./shrink.mjs";

const file = (name) => new URL(name, import.meta.url);
const [name, to = file("out/index.html")] = process.argv.slice(2);

/** Returns the result of a step, or ends the command with what it needs. */
function needing(what, step) {
    try {
        return step();
    } catch (error) {
        if (error.code !== "ENOENT") throw error;
        console.error(`web/page.mjs: ${what}`);
        process.exit(1);
    }
}

const made = file(`out/${name ?? "hull32.wasm"}`);
const whole = needing("the module is missing in web/out: run web/build.py first, with Binaryen's wasm-opt", () => readFileSync(made));
const code = needing("there is no esbuild", () => minified(shaken(bundled(readFileSync(file("start.js"), "utf8")))));
const module = name ? whole : needing("there is no wasm-metadce of Binaryen", () => cut(whole, code));
const carried = code.replace('"WASM"', () => `"${gzipSync(module, { level: 9 }).toString("base64")}"`);
writeFileSync(to, readFileSync(file("page.html"), "utf8").replace("CODE", () => carried));
