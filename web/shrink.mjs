// Makes the page small: of the library only the classes and methods that the page names, of the script only what is called, with short names, and
// of the module only the exports that the script names. These steps are not proved: esbuild and Binaryen's wasm-metadce are trusted,
// and tests/web runs the resulting page.
import { execFileSync } from "node:child_process";
import { mkdtempSync, readFileSync, rmSync, writeFileSync } from "node:fs";
import { tmpdir } from "node:os";
import { fileURLToPath } from "node:url";

const HERE = fileURLToPath(new URL(".", import.meta.url));
const COMMON = ["--bundle", "--format=esm", "--target=es2022", "--charset=utf8", "--log-level=warning"];
// a line that begins a class, one that begins a method, and one that returns variables by their names, in the layout that esbuild writes
const CLASS = /^( *)(?:var (\w+) = )?class\b ?(\w*).*\{$/;
const METHOD = /^( *)(?:static )?(?:async )?(get )?(#?\w+)\(.*\) \{$/;
const RETURNED = /^ *return \{ \w+(?:, \w+)* \};$/;

const esbuild = (text, ...words) => execFileSync("esbuild", [...COMMON, ...words], { input: text, cwd: HERE, encoding: "utf8" });

/** Returns a script with all that it imports from this folder, in one. */
export const bundled = (text) => esbuild(text);

/** Returns the same script, as short as esbuild makes it. */
export const minified = (text) => esbuild(text, "--minify").trim();

/** Returns the methods of all classes: their names, and the lines from the first to the one after the last. */
function methodsOf(lines) {
    const found = [], classes = [];
    lines.forEach((line, i) => {
        while (classes.length && line.startsWith(`${classes.at(-1)}}`)) classes.pop();
        const [, indent, get, name] = METHOD.exec(line) ?? [];
        if (name && classes.length && indent === `${classes.at(-1)}  `) {
            found.push({ name, isRead: get !== undefined, from: i, to: lines.indexOf(`${indent}}`, i) + 1 });
        }
        const begun = CLASS.exec(line);
        if (begun) classes.push(begun[1]);
    });
    return found;
}

/** Returns what a script calls of an object: after a point, or by its name as the first word of a call that passes it on; what it
 * reads of one. */
function calledIn(text) {
    const found = [...text.matchAll(/\.(#?\w+)(?=\()|\("(\w+)",/g)].map((it) => it[1] ?? it[2]);
    const read = [...text.matchAll(/\.(#?\w+)|[{,] (\w+)(?=,| \})/g)].map((it) => it[1] ?? it[2]);
    return { called: new Set(found), read: new Set(read) };
}

/** Returns the lines without the first class that nothing names but itself and a line that returns it, or null if each is named. */
function withoutUnusedClass(lines) {
    for (const [from, line] of lines.entries()) {
        const [, indent, variable, own] = CLASS.exec(line) ?? [], name = variable ?? own;
        if (!name) continue;
        const to = lines.findIndex((it, i) => i > from && (it === `${indent}}` || it === `${indent}};`)) + 1, word = new RegExp(`\\b${name}\\b`);
        const rest = [...lines.slice(0, from), ...lines.slice(to)];
        if (rest.some((it) => word.test(it) && !RETURNED.test(it))) continue;
        return rest.map((it) => RETURNED.test(it) ? it.replace(new RegExp(`\\b${name}, |, ${name}\\b`), "") : it);
    }
    return null;
}

/** Returns a bundle without the classes and methods that nothing left in it names. */
export function shaken(text) {
    let lines = text.split("\n");
    for (let fewer = lines; fewer; fewer = withoutUnusedClass(lines)) lines = fewer;
    for (;;) {
        const { called, read } = calledIn(lines.join("\n"));
        const gone = methodsOf(lines).filter(({ name, isRead }) => name !== "constructor" && !(isRead ? read : called).has(name));
        if (gone.length === 0) return lines.join("\n");
        lines = lines.filter((_, i) => !gone.some(({ from, to }) => from <= i && i < to));
    }
}

/** Returns the part of a bundle that comes from some files. */
export function part(text, files) {
    const [, ...parts] = text.split(/^\/\/ (\S+\.js)\n/m);
    return parts.filter((_, i) => i % 2 && files.includes(parts[i - 1])).join("");
}

/** Returns a module without the exports that a script does not name, and what only they need. */
export function cut(module, script) {
    const words = new Set(script.match(/\w+/g)), folder = mkdtempSync(`${tmpdir()}/shrink-`);
    const named = WebAssembly.Module.exports(new WebAssembly.Module(module)).map((it) => it.name).filter((it) => words.has(it));
    const graph = [{ name: "page", root: true, reaches: named }, ...named.map((name) => ({ name, export: name }))];
    const [from, to, reached] = ["whole.wasm", "cut.wasm", "graph.json"].map((it) => `${folder}/${it}`);
    try {
        writeFileSync(from, module);
        writeFileSync(reached, JSON.stringify(graph));
        execFileSync("wasm-metadce", ["--enable-bulk-memory", "--enable-sign-ext", "--graph-file", reached, from, "-o", to]);
        return readFileSync(to);
    } finally {
        rmSync(folder, { recursive: true });
    }
}
