// The beginning of the page: it loads the module, which is in the page packed by gzip.
import { load } from "./hull.js";
import { Page } from "./page.js";

try {
    const packed = Uint8Array.from(atob("WASM"), (it) => it.charCodeAt(0));
    const module = new Response(new Blob([packed]).stream().pipeThrough(new DecompressionStream("gzip")));
    globalThis.page = await Page.start(await load(module));
} catch (error) {
    globalThis.dead(error.message);
    throw error;
}
