// The heap of hull.wasm, in place of malloc, realloc and free. It is not proved.
//
// A block has a multiple of sixteen bytes up to 512, or else a power of two of them; the 16 bytes before it contain which. A freed
// block becomes the first of the list of its size, and is the next one taken.

const HEAD = 16;
const SMALL = 512;
const HALF = 2 ** 32;
const PAGE = 65536;
const PAGES_AT_ONCE = 64;
// no block is greater: greater sizes are treated as faults
const GREATEST = 2 ** 40;

/** Returns the size class of a block of so many bytes: 1 to 32 for the multiples of sixteen, and then one for each power of two. */
function class_of(bytes) {
    return bytes <= SMALL ? Math.max(1, Math.ceil(bytes / 16)) : 23 + Math.ceil(Math.log2(bytes));
}

function size_of(its) {
    return its <= SMALL / 16 ? 16 * its : 2 ** (its - 23);
}

/** Blocks of a module's memory, of which at most `limit` bytes are used. An address is a Number; 0 is no block. */
export class Heap {
    #memory;
    #top;
    #limit;
    #freed = new Float64Array(64);
    #view;
    #bytes;

    constructor(limit = Infinity) {
        this.#limit = limit;
    }

    /** Begins after the module's own data and stack. */
    begin(memory, base) {
        this.#memory = memory;
        this.#top = Math.ceil(base / 16) * 16;
        this.#look();
    }

    /** The memory at present: its buffer is another one after it has grown, and the old one has no bytes. */
    get view() {
        if (this.#bytes.length === 0) this.#look();
        return this.#view;
    }

    #look() {
        this.#view = new DataView(this.#memory.buffer);
        this.#bytes = new Uint8Array(this.#memory.buffer);
    }

    /** Returns a block of so many bytes at a multiple of 16, or 0. */
    take(bytes) {
        if (bytes > GREATEST) return 0;
        const its = class_of(bytes), kept = this.#freed[its];
        if (kept) {
            this.#freed[its] = this.view.getFloat64(kept, true);
            return kept;
        }
        const end = this.#top + HEAD + size_of(its);
        if (end > this.#limit || !this.#reaches(end)) return 0;
        const at = this.#top + HEAD;
        this.view.setUint32(this.#top, its, true);
        this.#top = end;
        return at;
    }

    /** Frees a block. */
    give(at) {
        const its = this.view.getUint32(at - HEAD, true);
        this.view.setFloat64(at, this.#freed[its], true);
        this.#freed[its] = at;
    }

    /** Returns a block of another size with the first `kept` bytes of the one passed, which is freed; or 0, and that one is
     * unchanged. */
    resize(at, kept, bytes) {
        if (class_of(bytes) === this.view.getUint32(at - HEAD, true)) return at;
        const to = this.take(bytes);
        if (to) {
            this.#bytes.copyWithin(to, at, at + Math.min(kept, bytes));
            this.give(at);
        }
        return to;
    }

    /** The three imports of the module. */
    imports() {
        return {
            web_alloc: (answer, bytes) => this.#writeBlock(answer, this.take(Number(bytes))),
            web_realloc: (answer, at, kept, bytes) =>
                this.#writeBlock(answer, this.resize(Number(at), Number(kept), Number(bytes))),
            web_dealloc: (at) => this.give(Number(at)),
        };
    }

    /** Writes whether there is a block, and its address: one that is not null if there is none. */
    #writeBlock(answer, at) {
        const to = Number(answer), { view } = this;
        view.setUint32(to, at ? 1 : 0, true);
        view.setUint32(to + 8, at || 16, true);
        view.setUint32(to + 12, at / HALF, true);
    }

    #reaches(end) {
        const missing = Math.ceil((end - this.#memory.buffer.byteLength) / PAGE);
        return missing <= 0 || this.#grows(Math.max(missing, PAGES_AT_ONCE)) || this.#grows(missing);
    }

    #grows(pages) {
        // (engines took a Number until 2024, and take a BigInt since)
        for (const more of [BigInt(pages), pages]) {
            try {
                this.#memory.grow(more);
                return true;
            } catch (error) {
                if (!(error instanceof TypeError)) return false;
            }
        }
        return false;
    }
}
