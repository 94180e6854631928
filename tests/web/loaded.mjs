// The module that is tested, hull.wasm or the one that MODULE names, and libraries of it whose memory a test can see and refuse.
import { readFileSync } from "node:fs";
import { load } from "../../web/hull.js";

export const bytes = readFileSync(new URL(`../../web/out/${process.env.MODULE ?? "hull.wasm"}`, import.meta.url));

/** Loads the module anew, with its memory: whose blocks follow one another, each after its head, the number of its size. */
export async function loadedWithMemory() {
    const { instantiate } = WebAssembly;
    let made, imports;
    WebAssembly.instantiate = async (...words) => {
        imports = words[1].heap;
        return (made = await instantiate(...words));
    };
    const library = await load(bytes).finally(() => (WebAssembly.instantiate = instantiate));
    return { library, imports, ...made.instance.exports };
}

/** Loads the module anew with a memory that grows by no page more than it has to, and by so many as `allow` was passed last; `take` takes a
 * block, or returns 0, and `fill` takes all that it has. */
export async function loadedWithScantMemory() {
    const { library, imports, memory } = await loadedWithMemory(), { grow } = memory;
    let left = Infinity, grown = 0;
    memory.grow = (pages) => {
        if (pages > left || pages >= 64) throw new RangeError("no more pages");
        const before = grow.call(memory, pages); // (which throws if it takes a Number, and not a BigInt)
        left -= Number(pages);
        grown += Number(pages);
        return before;
    };
    const allow = (pages) => (left = pages), give = (at) => imports.web_dealloc(at);
    // (the answer is written where other things are, which come back)
    const take = (size) => {
        const before = new Uint8Array(memory.buffer, 64, 16).slice();
        imports.web_alloc(64n, BigInt(size));
        const view = new DataView(memory.buffer), at = view.getUint32(64, true) === 1 ? view.getUint32(72, true) : 0;
        new Uint8Array(memory.buffer, 64, 16).set(before);
        return at;
    };
    const fill = () => {
        allow(0);
        for (let size = 2 ** 22; size > 512; size /= 2) while (take(size) !== 0);
        for (let size = 512; size > 0; size -= 16) while (take(size) !== 0);
    };
    return { library, allow, take, give, fill, grown: () => grown };
}
