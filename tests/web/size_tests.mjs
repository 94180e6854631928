// The size of the page as it ships, and whether a part that was left out of it is missed: size_tests.mjs PAGE
import { strict as assert } from "node:assert";
import { readFileSync } from "node:fs";
import { gunzipSync, gzipSync } from "node:zlib";
import { bundled, minified, part, shaken } from "../../web/shrink.mjs";

const MOST = 47300; // bytes of the page's module and of the library in its script, each as gzip packs it
const WHOLE = 66100; // bytes of the page, all in one file, as gzip packs it
const page = readFileSync(process.argv[2], "utf8"), packed = (text) => gzipSync(text, { level: 9 }).length;
const script = /<script type="module">([^]*?)<\/script>/.exec(page)[1], module = Buffer.from(/"(H4sI[^"]*)"/.exec(script)[1], "base64");

let passed = 0, failed = 0;
function tried(name, run) {
    try {
        const said = run();
        passed++;
        console.log(`${name}: ok${said ? `, ${said}` : ""}`);
    } catch (error) {
        failed++;
        console.log(`${name}: FAILED, ${String(error.stack).split("\n").slice(0, 10).join(" ")}`);
    }
}

tried(`the page's module, and of its script the library, take at most ${MOST} bytes`, () => {
    const start = readFileSync(new URL("../../web/start.js", import.meta.url), "utf8");
    const library = packed(minified(`${part(shaken(bundled(start)), ["heap.js", "hull.js"])}export { load };`));
    assert.ok(module.length + library <= MOST, `${module.length} and ${library}`);
    return `module ${module.length}, library ${library}`;
});
tried(`the page with all that is in it takes at most ${WHOLE} bytes`, () => {
    assert.ok(packed(page) <= WHOLE, `${packed(page)}`);
    return `${packed(page)}, and unpacked ${Buffer.byteLength(page)}`;
});
tried("the page's module exports what its script calls, and nothing else", () => {
    const there = WebAssembly.Module.exports(new WebAssembly.Module(gunzipSync(module))).map((it) => it.name);
    const called = new Set(script.match(/\bhull_\w+/g));
    assert.deepEqual(there.filter((it) => it.startsWith("hull_")).sort(), [...called].sort());
    assert.deepEqual(there.filter((it) => !it.startsWith("hull_")).sort(), ["__heap_base", "memory"]);
    assert.ok(called.has("hull_calls") && called.size > 5);
    return `${called.size} calls`;
});
tried("a method stays where it is called, read, or named in a call that passes it on, and only there", () => {
    const text = bundled(`
        class Base {
            #at = 0;
            get seen() { return this.#look(); }
            get unseen() { return this.lost(); }
            #look() { return this.#at; }
            lost() { return "lost"; }
            passed() { return "passed"; }
            stored() { return "stored"; }
        }
        class Both extends Base {
            static made() { return new Both(); }
            async ends() { return this.on("passed", 1); }
            on(name, word) { return this[name](word); }
            stored() { return "kept"; }
        }
        const both = Both.made(), { seen } = both, stored = { stored: 1 };
        console.log(seen, stored.stored, await both.ends());`);
    const left = [...shaken(text).matchAll(/^ +(?:static |async |get )*(#?\w+)\(.*\) \{$/gm)].map((it) => it[1]);
    assert.deepEqual(left, ["seen", "#look", "passed", "made", "ends", "on"]);
    minified(shaken(text));
});
tried("a class stays where it is named, and not only where it is returned", () => {
    const text = bundled(`
        class Base { seen() { return 1; } }
        class Alone extends Base {}
        function all() {
            class Used extends Base {}
            class Unused extends Alone { seen() { return new Unused(); } }
            return { Used, Unused };
        }
        console.log(new (all().Used)().seen());`);
    const left = [...shaken(text).matchAll(/^ *(?:var (\w+) = )?class ?(\w*)/gm)].map((it) => it[1] ?? it[2]);
    assert.deepEqual(left, ["Base", "Used"]);
    assert.match(shaken(text), /return \{ Used \};/);
    minified(shaken(text));
});
console.log(`${passed} passed, ${failed} failed`);
process.exit(failed ? 1 : 0);
