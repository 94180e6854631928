// The data that the browser stores, so that a reload loses nothing: the journal, the position in it, and how to undo its deeds.
//
// Short journals are in the tab's own store and in that of all tabs, at once. Of a long one the browser's database has the first lines,
// which do not change any more, and the store has the rest.
import { journalText, readJournal } from "./journal.js";

const NAME = "hullbook", TABLE = "journals";
const LONG = 20000; // lines
const BASES = 4; // so many long journals stay in the database

const done = (request) => new Promise((good, bad) => {
    request.onsuccess = () => good(request.result);
    request.onerror = () => bad(request.error);
});

async function table(mode) {
    const opening = indexedDB.open(NAME, 1);
    opening.onupgradeneeded = () => opening.result.createObjectStore(TABLE);
    return (await done(opening)).transaction(TABLE, mode).objectStore(TABLE);
}

function packed({ journal, at, power }, from = 0) {
    return { text: journalText({ ...journal, lines: journal.lines.slice(from) }), parts: journal.segments, at, power };
}

function unpacked({ text, parts: segments, at, power }, base = null) {
    const journal = readJournal(base ?? text);
    if (base !== null) for (const line of readJournal(text).lines) journal.lines.push(line);
    return { journal: segments ? { ...journal, segments } : journal, at, power };
}

const deedsBy = (change, { done, undone }) => {
    const all = (deeds) => deeds.map((deed) => (deed.was ? { was: change(deed.was) } : deed));
    return { done: all(done), undone: all(undone) };
};

export class Keeper {
    #base = null; // { journal, id, lines }: the lines that are in the database

    /** Stores the state of a work, with `more`; the first lines of a long journal when there is time for it. */
    keep(work, more, isEnding = false) {
        const { here } = work, { length } = here.journal.lines, before = this.#base?.journal === here.journal ? this.#base.lines : 0;
        if (length - before > LONG && !isEnding) {
            const keepRest = () => this.keep(work, more, true);
            return this.#store(here.journal).then(keepRest, keepRest);
        }
        const kept = { ...more, ...packed(here, before), base: before > 0 ? this.#base.id : null };
        try {
            this.#write({ ...kept, deeds: deedsBy(packed, work.deeds) });
        } catch {
            // (the journals from before it was opened or cut are too long)
            this.#tried(() => this.#write({ ...kept, deeds: { done: [], undone: [] } }));
        }
        return Promise.resolve();
    }

    #write(kept) {
        const text = JSON.stringify(kept);
        sessionStorage.setItem(NAME, text);
        this.#tried(() => localStorage.setItem(NAME, text));
    }

    /** Does what a browser that stores nothing refuses: in such a browser the user saves files. */
    #tried(run) {
        try {
            run();
        } catch (error) {
            console.warn(`the browser does not keep the journal: ${error.message}`);
        }
    }

    async #store(journal) {
        const { length } = journal.lines, id = Date.now() + Math.random(), store = await table("readwrite");
        await done(store.put(journalText({ ...journal, lines: journal.lines.slice(0, length) }), id));
        for (const old of (await done(store.getAllKeys())).slice(0, -BASES)) store.delete(old);
        this.#base = { journal, id, lines: length };
    }

    /** Returns what was stored, or null. */
    async read() {
        try {
            const text = sessionStorage.getItem(NAME) ?? localStorage.getItem(NAME);
            if (text === null) return null;
            const kept = JSON.parse(text), base = kept.base === null ? null : await done((await table("readonly")).get(kept.base));
            if (kept.base !== null && base === undefined) return null;
            const was = unpacked(kept, base);
            if (base !== null) this.#base = { journal: was.journal, id: kept.base, lines: readJournal(base).lines.length };
            return { ...kept, was, deeds: deedsBy((it) => unpacked(it), kept.deeds) };
        } catch {
            return null;
        }
    }
}
