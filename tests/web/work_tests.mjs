// What the page is made of, in Node: texts of points, doubles, deeds and their undoing, segments of journals, and colors.
import { strict as assert } from "node:assert";
import { readFileSync } from "node:fs";
import { OutOfRange, ZeroDirection, load } from "../../web/hull.js";
import { directionOf, fromFloat, fromFloats, toFloat, wkt } from "../../web/exchange.js";
import { firstMeeting, indices, intersectsSegments, nearestHeld, pairsWithinDistance, relations, rotate, translate } from "../../web/many.js";
import { Replay, TextError, emptyJournal, joinJournals, journalText, lineText, readJournal } from "../../web/journal.js";
import { addressOf, callsOf, kindOf, powerFor, readAddress, readRows, writeRows } from "../../web/texts.js";
import { Heap } from "../../web/heap.js";
import { Keeper } from "../../web/keep.js";
import { Work } from "../../web/work.js";
import { random_of } from "./plain.mjs";
import { end, tried } from "./tried.mjs";

const web = (name) => new URL(`../../web/${name}`, import.meta.url);
const { Hull, Polygon } = await load(web(`out/${process.env.MODULE ?? "hull.wasm"}`));


await tried("many polygons, and polygons that move", () => {
    const chance = random_of(5), whole = (most) => chance(2 * most + 1) - most;
    let hits = 0, near = 0;
    for (let trial = 0; trial < 30; trial++) {
        const points = (count, size) => {
            const x = whole(20), y = whole(20);
            return Array.from({ length: count }, () => [x + whole(size), y + whole(size)]);
        };
        const inputs = Array.from({ length: 12 }, (_, k) => points(k % 6, 1 + (k % 3) * 3)), all = inputs.map((input) => Polygon.of(input));
        for (const [numerator, denominator] of [[0, 1], [5, 2], [9, 1], [2 ** 53 - 1, 1]]) {
            const pairs = [];
            for (let i = 0; i < 12; i++) for (let j = i + 1; j < 12; j++) if (all[i].withinDistance(all[j], numerator, denominator)) pairs.push([i, j]);
            assert.deepEqual(pairsWithinDistance(all, numerator, denominator), pairs);
            near += pairs.length;
        }
        assert.deepEqual(relations(all[1], all), all.map((other) => all[1].relation(other)));
        const ways = Array.from({ length: 20 }, () => [whole(40), whole(40), whole(40), whole(40)]);
        assert.deepEqual(intersectsSegments(all[5], ways), ways.map((way) => all[5].intersectsSegment(...way)));
        assert.deepEqual(indices(all[5], inputs[5]).map((at) => inputs[5][at]), all[5].vertices());
        const [dx, dy] = [whole(60), whole(60)], met = firstMeeting(all[5], all[4], dx, dy);
        const intersects = (part, parts) => {
            const large = (polygon, x, y) => new Polygon(polygon.vertices().map(([a, b]) => [a * parts + part * x, b * parts + part * y]));
            return large(all[5], 0, 0).intersects(large(all[4], dx, dy));
        };
        const [part, parts] = met ? [Number(met.part.numerator), Number(met.part.denominator)] : [61, 60];
        for (let k = 0; k <= 60; k++) if (k * parts < part * 60) assert.ok(!intersects(k, 60), `${k} of 60`);
        if (met) assert.ok(intersects(part, parts));
        hits += met && met.vertex ? 1 : 0;
        assert.deepEqual(new Polygon(translate(all[5], 7, -3)).vertices(), all[5].vertices().map(([x, y]) => [x + 7, y - 3]));
        assert.equal(new Polygon(rotate(all[5], 3, -4)).doubledArea(), 25n * all[5].doubledArea());
        const hull = new Hull();
        hull.addAll(inputs[5]);
        const least = Math.min(...inputs[5].map(([x, y]) => (x - 1) ** 2 + (y - 2) ** 2));
        assert.equal(nearestHeld(hull, 1, 2).squared, BigInt(least));
        hull.free();
        all.forEach((polygon) => polygon.free());
    }
    assert.ok(hits > 3 && near > 100);
    const far = Polygon.of([[2 ** 40, 0]]);
    assert.throws(() => translate(far, 1, 0), OutOfRange);
    assert.throws(() => rotate(far, 3, 4), OutOfRange);
    assert.throws(() => rotate(far, 0, 0), ZeroDirection);
    assert.deepEqual([nearestHeld(new Hull(), 0, 0), firstMeeting(far, Polygon.of([]), 1, 1), pairsWithinDistance([])], [null, null, []]);
    return `${near} pairs, ${hits} meetings`;
});

await tried("numbers of many polygons, judged as those of add", () => {
    const far = 2 ** 40, one = new Polygon([[0, 0], [4, 0], [0, 4]]), other = new Polygon([[9, 0], [12, 0], [9, 4]]), none = new Polygon([]), hull = new Hull();
    hull.add(1, 1);
    for (const wrong of [NaN, Infinity, -Infinity, 0.5, "1", "", null, undefined, 1n, [1], {}, true]) {
        assert.throws(() => hull.add(wrong, 0), OutOfRange);
        for (const polygon of [one, none]) {
            assert.throws(() => translate(polygon, wrong, 0), OutOfRange, `translated by ${String(wrong)}`);
            assert.throws(() => translate(polygon, 0, wrong), OutOfRange);
            assert.throws(() => rotate(polygon, wrong, 1), OutOfRange, `rotated by ${String(wrong)}`);
            assert.throws(() => rotate(polygon, 0, wrong), OutOfRange);
            assert.throws(() => firstMeeting(one, polygon, wrong, 0), OutOfRange, `meeting by ${String(wrong)}`);
            assert.throws(() => firstMeeting(polygon, other, 0, wrong), OutOfRange);
        }
        assert.throws(() => firstMeeting(one, one, wrong, 0), OutOfRange);
        assert.throws(() => nearestHeld(hull, wrong, 0), OutOfRange, `nearest to ${String(wrong)}`);
        assert.throws(() => nearestHeld(hull, 0, wrong), OutOfRange);
        assert.throws(() => nearestHeld(new Hull(), 0, wrong), OutOfRange);
        assert.throws(() => indices(one, [[0, wrong]]), OutOfRange);
        assert.throws(() => intersectsSegments(one, [[0, 0, 1, wrong]]), OutOfRange);
        if (wrong !== undefined) {
            assert.throws(() => pairsWithinDistance([one, other], wrong), OutOfRange, `within ${String(wrong)}`);
            assert.throws(() => pairsWithinDistance([], 1, wrong), OutOfRange);
        }
    }
    for (const [numerator, denominator] of [[-1, 1], [1.5, 1], [1, 0], [1, -1], [1, 2 ** 32], [2 ** 53, 1]]) {
        assert.throws(() => pairsWithinDistance([one, other], numerator, denominator), OutOfRange);
    }
    for (const row of [[0, 0, 1], [0, 0, 1, 1, 1], [], null]) assert.throws(() => intersectsSegments(one, [row]), OutOfRange);
    for (const [x, y] of [[2 ** 45, 0], [far + 1, 0], [0, -far - 1]]) {
        assert.throws(() => nearestHeld(hull, x, y), OutOfRange);
        assert.throws(() => firstMeeting(one, other, x, y), OutOfRange);
        assert.throws(() => rotate(one, x, y), OutOfRange);
    }
    for (const [x, y] of [[2 * far + 1, 0], [0, -2 * far - 1], [far, 0]]) assert.throws(() => translate(one, x, y), OutOfRange);
    assert.deepEqual(translate(Polygon.of([[-far, 0]]), 2 * far, -0), [[far, 0]]);
    assert.deepEqual([pairsWithinDistance([one, other], 5), pairsWithinDistance([one, other], 49, 10)], [[[0, 1]], []]);
    assert.deepEqual(nearestHeld(hull, far, -far).point, [1, 1]);
    hull.free();
});
await tried("equal points, and a contact at the very end of the way", () => {
    const one = new Polygon([[0, 0], [4, 0], [4, 4], [0, 4]]), other = new Polygon([[9, 0], [12, 0], [12, 4], [9, 4]]);
    assert.deepEqual(indices(one, [[4, 4], [0, 0], [4, 4], [9, 9], [0, 0], [0, 4]]), [1, -1, 0, 5]);
    for (const [standing, moving, dx] of [[one, other, -5], [other, one, 5]]) {
        const met = firstMeeting(standing, moving, dx, 0);
        assert.equal(met?.part.numerator, met?.part.denominator);
        assert.ok(met !== null && met.part.numerator > 0n);
        assert.equal(firstMeeting(standing, moving, dx - Math.sign(dx), 0), null);
    }
});
await tried("blocks that are freed are taken again, all of them", () => {
    const heap = new Heap(), memory = { buffer: new ArrayBuffer(2 ** 20), grow: () => assert.fail("it grows") };
    heap.begin(memory, 4096);
    for (const bytes of [1, 16, 100, 512, 513, 5000]) {
        const blocks = [1, 2, 3].map(() => heap.take(bytes)), spread = [...blocks].sort((a, b) => a - b);
        assert.ok(spread.every((at, i) => at % 16 === 0 && (i === 0 || at - spread[i - 1] >= bytes + 16)), `${bytes} bytes`);
        for (let again = 0; again < 1000; again++) {
            for (const at of blocks) heap.give(at);
            assert.deepEqual([1, 2, 3].map(() => heap.take(bytes)).sort((a, b) => a - b), spread);
        }
    }
});
await tried("the hull of a journal is freed when another is opened", () => {
    const alive = new Set();
    const Counted = class extends Hull {
        constructor(limit) {
            super(limit);
            alive.add(this);
        }

        free() {
            alive.delete(this);
            super.free();
        }
    };
    const work = new Work(Counted);
    for (let i = 0; i < 20; i++) {
        work.open(emptyJournal(5));
        work.openCalls(["add 1 1"], 0);
        work.undo();
    }
    assert.deepEqual([...alive], [work.hull]);
});
/** Returns an empty storage of a tab, or of all tabs. */
function storage() {
    const kept = new Map();
    return { setItem: (name, text) => kept.set(name, text), getItem: (name) => kept.get(name) ?? null };
}

/** Gives this thread the stores of a browser, all of them empty; returns the texts in its database by their ids, and the length of each
 * that was put there. */
function beginStores() {
    const puts = [], bases = new Map(), later = (result) => {
        const request = { result };
        queueMicrotask(() => request.onsuccess());
        return request;
    };
    const store = {
        put: (text, id) => later(puts.push(text.length) && bases.set(id, text)),
        getAllKeys: () => later([...bases.keys()]),
        get: (id) => later(bases.get(id)),
        delete: (id) => bases.delete(id),
    };
    const indexedDB = { open: () => later({ transaction: () => ({ objectStore: () => store }) }) };
    Object.assign(globalThis, { indexedDB, sessionStorage: storage(), localStorage: storage() });
    return { puts, bases };
}

/** Returns a work of so many calls. */
function workOf(calls) {
    const work = new Work(Hull);
    work.do(Array.from({ length: calls }, (_, k) => `add ${k % 100} ${Math.floor(k / 100)}`));
    return work;
}

await tried("the first lines of a long journal are stored in the database once", async () => {
    const { puts, bases } = beginStores(), keeper = new Keeper(), work = workOf(20001);
    await keeper.keep(work, {});
    for (let k = 0; k < 10; k++) {
        work.do([`add ${k} -1`]);
        await keeper.keep(work, {});
    }
    assert.equal(puts.length, 1);
    // a short journal beside it is stored whole, without the lines of the other
    const short = new Work(Hull);
    short.do(["add 5 5", "add 6 6"]);
    await keeper.keep(short, { more: "words" });
    const other = await new Keeper().read();
    assert.deepEqual([other.was.journal.lines.map((it) => it.call), other.base, other.more, other.was.at],
        [["add 5 5", "add 6 6"], null, "words", 2]);
    await keeper.keep(work, {});
    const again = await new Keeper().read();
    assert.deepEqual(again.was.journal.lines.map((it) => it.call), work.replay.journal.lines.map((it) => it.call));
    // after a reload, and a call after it, those lines that are not in the database are there, too
    const reloaded = new Keeper(), continued = new Work(Hull, (await reloaded.read()).was);
    const ends = ({ lines }) => lines.slice(20001).map(lineText);
    continued.do(["add 7 -2"]);
    await reloaded.keep(continued, {});
    assert.deepEqual(ends((await new Keeper().read()).was.journal), [...ends(work.replay.journal), "20011 0 add 7 -2 = added"]);
    assert.equal(puts.length, 1);
    await keeper.keep(work, {});
    // another tab has what all tabs share; of long journals the last four stay
    const tabs = [sessionStorage, storage()];
    globalThis.sessionStorage = tabs[1];
    assert.deepEqual((await new Keeper().read()).was.journal.lines.length, 20011);
    globalThis.sessionStorage = tabs[0];
    const { lines } = work.replay.journal;
    for (let k = 0; k < 6; k++) {
        const journal = { ...work.replay.journal, lines: lines.slice(0, 20002 + k) };
        await keeper.keep({ here: { journal, at: 0, power: 0 }, deeds: { done: [], undone: [] } }, {});
        assert.deepEqual([bases.size, (await new Keeper().read()).was.journal.lines.length], [Math.min(k + 2, 4), 20002 + k]);
    }
});
await tried("a long journal of a page that ends, beside a database that refuses, and without the lines that were there", async () => {
    const { bases } = beginStores(), work = workOf(20001), kept = async () => (await new Keeper().read())?.was.journal;
    new Keeper().keep(work, {}, true); // at once: the page does not wait
    assert.equal(bases.size, 0);
    assert.deepEqual(await kept(), work.replay.journal);
    await new Keeper().keep(work, {});
    assert.deepEqual([bases.size, await kept()], [1, work.replay.journal]);
    bases.clear();
    assert.equal(await kept(), undefined);
    const refused = () => {
        const request = { error: new Error("no database") };
        queueMicrotask(() => request.onerror());
        return request;
    };
    globalThis.indexedDB = { open: refused };
    await new Keeper().keep(work, {});
    assert.deepEqual(await kept(), work.replay.journal);
});
await tried("a tab continues its own work, with its segments and the deeds that can be undone", async () => {
    beginStores();
    const work = new Work(Hull), segments = [{ name: "one", from: 0 }, { name: "two", from: 1 }];
    work.openCalls(["add 0 0"], 3), work.do(["add 1 1", "count"]), work.open({ ...emptyJournal(7), segments });
    work.do(["add 2 2"]), work.undo(), work.openCalls(["add 3 3"], -2), work.undo();
    await new Keeper().keep(work, { more: "words" });
    const own = globalThis.sessionStorage;
    globalThis.sessionStorage = storage(); // that of another tab
    await new Keeper().keep(workOf(2), {});
    globalThis.sessionStorage = own;
    const { was, deeds, more } = await new Keeper().read();
    assert.deepEqual([was, deeds, more], [work.here, work.deeds, "words"]);
    assert.deepEqual([was.journal.segments, deeds.done.length, deeds.undone.length], [segments, 3, 1]);
});
await tried("a browser that stores nothing, or not so much, is no fault", async () => {
    const kept = new Map(), warned = [], before = { ...console };
    const limited = (most) => ({
        setItem: (name, text) => { if (text.length > most) throw new RangeError("no space"); kept.set(name, text); },
        getItem: (name) => kept.get(name) ?? null,
    });
    const work = new Work(Hull);
    work.do(["add 1 1"]), work.open(emptyJournal(5)), work.do(["add 2 2"]);
    console.warn = (text) => warned.push(text);
    try {
        const found = [];
        let whole = 0; // the length of all that is stored
        for (const limits of [() => [1e6, 1e6], () => [1e6, 0], () => [whole - 1, whole - 1], () => [0, 0]]) {
            const [here, all] = limits();
            kept.clear();
            Object.assign(globalThis, { sessionStorage: limited(here), localStorage: limited(all) });
            await new Keeper().keep(work, {});
            const read = await new Keeper().read();
            whole = Math.max(whole, ...[...kept.values()].map((it) => it.length));
            found.push([read && read.was.journal.lines.length, read && read.deeds.done.length, warned.splice(0).length]);
        }
        assert.deepEqual(found, [[1, 3, 0], [1, 3, 1], [1, 0, 0], [null, null, 1]]);
    } finally {
        console.warn = before.warn;
    }
});
await tried("a deed that a full journal has no space for stays to be undone", () => {
    const work = new Work(Hull, { journal: { ...emptyJournal(9), capacity: 3 }, power: 0 });
    work.do(["add 1 1", "add 2 2"]);
    const states = [work.replay.at, work.deeds.done.length];
    work.undo();
    assert.match(work.message, /the journal is full/);
    assert.deepEqual([[work.replay.at, work.deeds.done.length], work.deeds.undone, work.hull.count()], [states, [], 2]);
    work.do(["add 3 3"]);
    work.undo();
    assert.deepEqual([work.replay.at, work.hull.count()], [3, 3]);
    assert.deepEqual([3, 0].map((at) => (work.go(at), [work.hasSpace(3 - at), work.hasSpace(4 - at)])), [[true, false], [true, false]]);
});
await tried("a new deed ends what could be done again", () => {
    const work = new Work(Hull);
    work.do(["add 1 1"]), work.do(["add 2 2"]), work.undo();
    assert.equal(work.deeds.undone.length, 1);
    work.do(["add 3 3"]), work.redo();
    assert.deepEqual([work.deeds.undone.length, [...work.replay.held.keys()]], [0, ["1 1", "3 3"]]);
    for (const deed of [() => work.go(1), () => work.open(emptyJournal(5)), () => work.openCalls(["add 4 4"], 0), () => work.do(["add 5 5"])]) {
        work.do(["add 9 9"]), work.undo();
        assert.equal(work.deeds.undone.length, 1);
        deed();
        const after = [...work.replay.held.keys()];
        work.redo();
        assert.deepEqual([work.deeds.undone.length, [...work.replay.held.keys()]], [0, after], String(deed));
    }
});

await tried("doubles to the lattice, as the table of all languages has them", () => {
    let rows = 0;
    for (const line of readFileSync(new URL("../embed/lattice.txt", import.meta.url), "utf8").split("\n")) {
        if (line === "" || line.startsWith("#")) continue;
        const [bits, power, coordinate, how] = line.split(" "), view = new DataView(new ArrayBuffer(8));
        view.setBigUint64(0, BigInt(`0x${bits}`));
        const value = view.getFloat64(0);
        rows++;
        if (how === "none") assert.throws(() => fromFloat(value, Number(power)), OutOfRange, line);
        else assert.deepEqual(fromFloat(value, Number(power)), { coordinate: Number(coordinate), isRounded: how === "rounded" }, line);
    }
    assert.ok(rows > 50);
    assert.deepEqual(fromFloats([[0.5, 0.3], [1, -0.25]], 1), { coordinates: Float64Array.of(1, 1, 2, 0), rounded: 2 });
    assert.deepEqual(fromFloats(new Set([[0.5, 1, 9], Float64Array.of(2, 3)]), 1).coordinates, Float64Array.of(1, 2, 4, 6));
    assert.equal(toFloat(3, 2), 0.75);
    return `${rows} rows`;
});
await tried("directions in doubles and well-known text", () => {
    assert.deepEqual(directionOf(3, -4), [3 * 2 ** 37, -(2 ** 39)]);
    assert.deepEqual([directionOf(0, 0), directionOf(5e-324, 0), directionOf(-1e308, 1e-308)], [[0, 0], [2 ** 39, 0], [-(2 ** 39) * (1e308 / 2 ** 1023), 0].map(Math.round)]);
    for (const bad of [NaN, Infinity]) assert.throws(() => directionOf(bad, 1), OutOfRange);
    const hull = new Hull();
    hull.addAll([[0, 0], [80, 0], [100, 30], [0, 60]]);
    assert.deepEqual([hull.extreme(...directionOf(0.1, 0.2)), hull.extreme(...directionOf(-0.1, 0.2))], [[100, 30], [0, 60]]);
    assert.equal(wkt(hull.vertices()), "POLYGON ((0 0, 80 0, 100 30, 0 60, 0 0))");
    assert.deepEqual([wkt([]), wkt([[1, 2]], 1), wkt([[1, 2], [3, 4]])], ["POLYGON EMPTY", "POINT (0.5 1)", "LINESTRING (1 2, 3 4)"]);
    assert.equal(wkt(new Set([Float64Array.of(1, 2), [3, 4]]), 1), "LINESTRING (0.5 1, 1.5 2)");
    hull.free();
});
await tried("points as texts", () => {
    assert.deepEqual(["hullbook journal 3", " {}", "[]", "<svg>", "1,2"].map(kindOf), ["journal", "geojson", "geojson", "svg", "csv"]);
    assert.deepEqual(readRows("\ufeff1,2\n3,4"), [[1, 2, 1], [3, 4, 1]]);
    assert.deepEqual(readRows("\ufeffx,y\r\n1,2\r\n# a word\n3 4 5\n-6;7e1\n\n"), [[1, 2, 1], [3, 4, 5], [-6, 70, 1]]);
    for (const [text, line] of [["", 1], ["x,y\n", 1], ["1,2\n3\n", 2], ["1,2\n3,4,0\n", 2], ["1,2\n3,4,1.5", 2], ["\n1,2\n\n# \n3\n", 5],
        ["x\ny\n", 2], ["{", 1], ['{"type":"Point"}', 1], ['{"coordinates":["a",1]}', 1]]) {
        assert.throws(() => readRows(text), (error) => error instanceof TextError && error.line === line, text);
    }
    // a decimal comma, more columns, and a first row that is no point, and no names
    for (const text of ["0,5;1,25", "0,5;1", "1;0,5", "0,5\t1,25", "-0,5;-1", "0,5 1,25", "1,2,3,4", "1 2 3 4", "1,2,0", "1;2\n0,5;1"]) {
        for (const all of [text, `x;y\n${text}`, `1;2\n${text}`]) assert.throws(() => readRows(all), /^Error: line \d: it is no point$/, all);
    }
    assert.deepEqual(readRows("4\n1,2;\n1;2;\n1,\t2\n1;\t2;3\n1, 2 , 3"), [[1, 2, 1], [1, 2, 1], [1, 2, 1], [1, 2, 3], [1, 2, 3]]);
    const faults = [["{ 1", "line 1: it is no JSON: ", "{ 1", "a GeoJSON object"], ["", "line 1: there are no points", "", "X,Y"],
        ["{}", "line 1: it has no positions", "{}", "a GeoJSON object with coordinates"],
        ["1,2\n3", "line 2: it is no point", "3", "X,Y or X,Y,TIMES, with 1 to 65535 times"]];
    for (const [text, why, found, expected] of faults) {
        const isTold = (error) => error.message.startsWith(why) && error.found === found && error.expected === expected;
        assert.throws(() => readRows(text), isTold, text);
    }
    const geometry = { type: "GeometryCollection", geometries: [{ type: "Point", coordinates: [1, 2, 9] }, { type: "MultiPolygon", coordinates: [[[[0, 0], [5, 0], [0, 5], [0, 0]]]] }] };
    assert.deepEqual(readRows(JSON.stringify(geometry)), [[1, 2, 1], [0, 0, 1], [5, 0, 1], [0, 5, 1]]);
    const point = { type: "Point", coordinates: [7, 8] }, feature = { type: "Feature", properties: null, geometry: point };
    for (const it of [[7, 8], [[7, 8]], [[[[7, 8]]]], point, feature, { features: [feature] }, { geometries: [point, point] },
        { features: [{ geometry: { geometries: [point] } }] }]) {
        assert.deepEqual(readRows(` ${JSON.stringify(it)}`), [[7, 8, 1]], JSON.stringify(it));
    }
    for (const none of ["[]", "{}", "[[]]", '{"features":[]}', '{"coordinates":[1]}',
        '{"coordinates":[1,null]}']) assert.throws(() => readRows(none), TextError, none);
    const held = new Map([["4 6", 1], ["0 0", 3], ["8 0", 1]]);
    assert.equal(writeRows("csv", held, [], 1), "x,y,times\n0,0,3\n2,3,1\n4,0,1\n");
    assert.equal(writeRows("csv", new Map([["1 9", 1], ["1 -9", 2], ["0 5", 1]]), [], 0), "x,y,times\n0,5,1\n1,-9,2\n1,9,1\n");
    assert.deepEqual(readRows(writeRows("geojson", held, [[0, 0], [8, 0], [4, 6]], 0)), [[0, 0, 3], [4, 6, 1], [8, 0, 1]]);
    const [a, b, c] = [[0, 0], [8, 0], [4, 6]], geometries = [[], [a], [a, b],
        [a, b, c]].map((it) => JSON.parse(writeRows("geojson", held, it, 1)).features[1].geometry);
    assert.deepEqual(geometries, [{ type: "GeometryCollection", geometries: [] }, { type: "Point", coordinates: [0, 0] },
        { type: "LineString", coordinates: [[0, 0], [4, 0]] },
        { type: "Polygon", coordinates: [[[0, 0], [4, 0], [2, 3], [0, 0]]] }]);
    // (y goes down in a drawing)
    const drawn = writeRows("svg", held, [a, b, c], 1);
    const circles = [...drawn.matchAll(/<circle cx="(.*?)" cy="(.*?)" r="(.*?)"( data-times="\d+")?\/>\n/g)];
    assert.deepEqual(circles.map((it) => [it[1], it[2], it[4]]), [["0", "0", ' data-times="3"'], ["2", "-3", undefined], ["4", "0", undefined]]);
    assert.deepEqual([/<polygon points="(.*?)"/.exec(drawn)[1],
        /viewBox="(.*?)"/.exec(drawn)[1].split(" ").map((it) => Number(Number(it).toFixed(9)))],
        ["0,0 4,0 2,-3", [-0.2, -3.2, 4.4, 4.4]]);
    assert.ok(circles.every((it) => Math.abs(Number(it[3]) - 4 / 150) < 1e-12));
    assert.ok(drawn.startsWith('<svg xmlns="http://www.w3.org/2000/svg" ') && drawn.endsWith("</svg>\n"));
    assert.deepEqual([/viewBox="(.*?)"/.exec(writeRows("svg", new Map(), [], 0))[1], writeRows("svg", new Map(), [], 0).includes("circle")],
        ["0 0 1 1", false]);
    assert.deepEqual(readRows("1,2,65535\n3,4,1"), [[1, 2, 65535], [3, 4, 1]]);
    for (const times of [0, 65536, -1, 1.5]) assert.throws(() => readRows(`1,2\n3,4,${times}`), TextError);
    const timed = (times) => JSON.stringify({ type: "Feature", properties: { times },
        geometry: { type: "MultiPoint", coordinates: [[1, 2], [3, 4], [1, 2]] } });
    const features = [[7, 8], [5, 6]].map((at, i) => ({ properties: { times: [i + 2] }, geometry: { type: "Point", coordinates: at } }));
    assert.deepEqual(readRows(JSON.stringify({ features })), [[7, 8, 2], [5, 6, 3]]);
    assert.deepEqual([[65535, 1, 9], [65536, 0, 1], [2], undefined].map((it) => readRows(timed(it))),
        [[[1, 2, 65535], [3, 4, 1]], [[1, 2, 1], [3, 4, 1]], [[1, 2, 2], [3, 4, 1]],
        [[1, 2, 1], [3, 4, 1]]]);
});
await tried("the power by which numbers are whole", () => {
    assert.deepEqual([[], [1, 2 ** 40], [0.5, 3], [0.1, 100], [2 ** 40 + 1], [5e-324], [-(2 ** 50)], [0.75, -(2 ** -5)]].map(powerFor), [0, 0, 1, 33, -1, 1000, -10, 5]);
    const { calls, power, rounded } = callsOf([[0.5, 1, 2], [0, -0.25, 1]]);
    assert.deepEqual([calls, power, rounded], [["add 2 4", "add 2 4", "add 0 -1"], 2, 0]);
    const scaledTo33 = ["add 858993459 858993459200", ...Array(2).fill("add 25769803776 2576980378")];
    assert.deepEqual(callsOf([[0.1, 100, 1], [3, 0.3, 2]]), { calls: scaledTo33, power: 33, rounded: 2 });
    assert.throws(() => callsOf(Array(100).fill([1, 1, 65535])), RangeError);
    const most = Array(64).fill([1, 1, 65535]);
    assert.equal(callsOf([...most, [2, 2, 64]]).calls.length, 2 ** 22);
    assert.throws(() => callsOf([...most, [2, 2, 65]]), RangeError);
});
await tried("an address contains the points, and a wrong or a long one none", () => {
    const held = new Map([["0 0", 1], ["-7 8", 12]]), address = addressOf(held, 3);
    assert.equal(address, "#points=-7,8*12;0,0&power=3");
    assert.deepEqual(readAddress(address), { calls: [...Array(12).fill("add -7 8"), "add 0 0"], power: 3 });
    assert.deepEqual([addressOf(new Map(), 0), addressOf(new Map(Array.from({ length: 9000 }, (_, i) => [`${i} 0`, 1])), 0), readAddress("#proved"), readAddress("")], ["", "", null, null]);
    assert.deepEqual([-12, 0].map((power) => addressOf(new Map([["4 4", 1]]), power)), ["#points=4,4&power=-12", "#points=4,4"]);
    const longest = Array.from({ length: 1600 }, (_, i) => [`${1000000 + i} 0`, 1]); // (10 characters for each)
    assert.equal(addressOf(new Map(longest), 0).length, "#points=".length + 15999);
    assert.equal(addressOf(new Map([...longest, ["0 0", 1]]), 0), "");
    assert.deepEqual(["#points=-7%2C8*12%3B0%2C0&power=3", "#points=4,4&power=-12", "#points=-0,-0"].map(readAddress),
        [readAddress(address), { calls: ["add 4 4"], power: -12 },
        { calls: ["add 0 0"], power: 0 }]);
    // (no link makes more calls than a file)
    for (const bad of [`#points=${Array(65).fill("1,2*65535").join(";")}`, "#points=1", "#points=1,2*0", "#points=1,1099511627777", "#points=1,2;;3,4", "#points=1,2*70000"]) assert.throws(() => readAddress(bad), TextError, bad);
});
await tried("what is left out has its default", () => {
    const empty = { version: 3, first: 0n, limit: 2 ** 20, capacity: 2 ** 24,
        lines: [] }, square = new Polygon([[0, 0], [4, 0], [4, 4], [0, 4]]), at = [7, 8];
    assert.deepEqual([emptyJournal(), emptyJournal(7), new Work(Hull).here], [empty, { ...empty, limit: 7 }, { journal: empty, at: 0, power: 0 }]);
    const replay = new Replay(new Hull(), emptyJournal());
    assert.deepEqual([replay.call("count"), replay.call("count", 5).seat], [{ number: 0n, seat: 0, call: "count", reply: "count 0" }, 5]);
    assert.deepEqual([new Hull().limit(), wkt([at]), pairsWithinDistance([square, new Polygon([[4, 4]]), new Polygon([[5, 4]])])],
        [2 ** 20, "POINT (7 8)", [[0, 1]]]);
    assert.deepEqual([4, 5].map((it) => [square.withinDistance(new Polygon([at]), it), square.withinDistanceOfPoint(...at, it),
        square.withinDistanceOfSegment(...at, ...at, it)]),
        [[false, false, false], [true, true, true]]);
    const error = new TextError(3, "why");
    assert.deepEqual([error.line, error.message, error.found, error.expected, error instanceof Error], [3, "line 3: why", "", "", true]);
});
await tried("a deed of several moves from an earlier position, taken back as one", () => {
    const work = new Work(Hull), calls = () => work.replay.journal.lines.map((it) => it.call);
    const state = () => [calls(), work.replay.at, [...work.replay.held.keys()].sort()];
    work.do(["add 1 1", "add 2 2", "add 3 3"]), work.go(1);
    const before = state(), deed = work.begin();
    work.make(deed, ["add 7 7"]), work.make(deed, ["remove 7 7", "add 8 8"]), work.make(deed, ["remove 8 8", "add 9 9"]), work.end(deed);
    const after = [["add 1 1", "add 7 7", "remove 7 7", "add 8 8", "remove 8 8", "add 9 9"], 6, ["1 1", "9 9"]];
    assert.deepEqual(state(), after);
    assert.deepEqual([(work.undo(), state()), (work.redo(), state()), work.deeds.done.length], [before, after, 3]);
});
await tried("a call before a wrong line cuts it off, and one that is refused leaves it", () => {
    const text = (version) => `hullbook journal ${version} first 0 limit 9 capacity 9\n0 0 add 1 1 = added\n1 0 count = count 5\nend 2\n`;
    const opened = (version) => {
        const work = new Work(Hull);
        work.open(readJournal(text(version)));
        assert.deepEqual([work.replay.wrong.index, work.replay.at, work.message], [1, 1, "0 0 add 1 1 = added"]);
        return work;
    };
    const cut = opened(3), refused = opened(2), { wrong } = refused.replay;
    cut.do(["add 2 2"]);
    assert.deepEqual([cut.replay.wrong, cut.replay.journal.lines.map((it) => it.reply)], [null, ["added", "added"]]);
    refused.do(["add 2 2"]);
    assert.deepEqual([refused.replay.wrong, refused.replay.journal.lines.length, refused.hull.count()], [wrong, 2, 1]);
});
await tried("questions are no deed, a step to where it is ends no redoing, and at the first position nothing was called", () => {
    const work = new Work(Hull);
    work.do(["count", "vertices"]);
    assert.deepEqual([work.deeds.done.length, work.message], [0, "1 0 vertices = list 0"]);
    work.do(["add 1 1", "count"]), work.undo(), work.go(work.replay.at);
    assert.deepEqual([work.deeds.done.length, work.deeds.undone.length], [0, 1]);
    assert.deepEqual([0, 3, 0].map((at) => (work.go(at), work.message)), ["", "2 0 add 1 1 = added", ""]);
    work.open(emptyJournal(1)), work.openCalls(["add 1 1", "add 2 2"], 0);
    assert.deepEqual([work.hull.limit(), work.hull.count(), work.message], [2 ** 20, 2, "1 0 add 2 2 = added"]);
});
await tried("steps in a row are one deed, and none if they end where they began", () => {
    const work = new Work(Hull), count = () => work.deeds.done.length;
    work.do(["add 1 1", "add 2 2", "add 3 3"]);
    assert.deepEqual([[2, 0, 1], [3], [3], [0, 3], [1, 2]].map((steps) => (steps.forEach((it) => work.go(it)), count())), [2, 1, 1, 1, 2]);
    work.undo();
    assert.deepEqual([work.replay.at, count(), work.deeds.undone.length], [3, 1, 1]);
});
await tried("a work that was stored is continued where it was, with its deeds", () => {
    const work = new Work(Hull), keys = (it) => [...it.replay.held.keys()].sort();
    work.openCalls(["add 0 0"], 3), work.do(["add 1 1"]), work.do(["add 2 2"]), work.do(["add 3 3"]), work.undo(), work.undo(), work.go(4);
    const again = new Work(Hull, structuredClone(work.here));
    again.takeUp(structuredClone(work.deeds));
    assert.deepEqual([keys(again), again.power, again.replay.at, again.deeds], [keys(work), 3, 4, work.deeds]);
    for (const turn of ["undo", "undo", "redo", "undo", "undo", "redo", "redo", "redo", "redo", "redo"]) {
        work[turn](), again[turn]();
        assert.deepEqual([keys(again), again.power, again.message], [keys(work), work.power, work.message], turn);
    }
    work.undo(), again.undo(), work.do(["add 9 9"]), again.do(["add 9 9"]);
    assert.deepEqual([keys(again), again.replay.journal], [keys(work), work.replay.journal]);
});
await tried("the state changes with the hull or the journal, and only then; questions are written after all calls only", () => {
    const work = new Work(Hull, { journal: { ...emptyJournal(9), capacity: 6 }, power: 0 });
    const isChanged = (run) => { const before = work.state; run(); return work.state !== before; };
    const changes = [() => work.do(["add 1 1", "add 2 2"]), () => work.go(1), () => work.go(2), () => work.ask(["count", "area"]), () => work.go(3)];
    assert.deepEqual(changes.map(isChanged), Array(5).fill(true));
    const lines = () => work.replay.journal.lines.map((it) => it.call);
    assert.deepEqual([isChanged(() => work.ask(["vertices"])), lines()], [false, ["add 1 1", "add 2 2", "count", "area"]]);
    work.go(4);
    assert.deepEqual([isChanged(() => work.ask(["count", "count", "count"])), work.message.includes("is full"), lines().length], [false, true, 4]);
    assert.deepEqual([isChanged(() => work.ask(["count", "place 1 1"])), work.message, lines().length], [true, "5 0 place 1 1 = on", 6]);
    assert.deepEqual([isChanged(() => work.do(["add 3 3"])), isChanged(() => work.do([])), work.hull.count(), lines().length], [false, false, 2, 6]);
    assert.deepEqual([() => work.open(emptyJournal(5)), () => work.undo(), () => work.redo()].map(isChanged), [true, true, true]);
});
await tried("deeds at random, all undone and all redone", () => {
    const random = random_of(11);
    let deeds = 0;
    for (let round = 0; round < 60; round++) {
        const work = new Work(Hull), states = [], state = () => [[...work.replay.held].sort(), work.replay.wrong];
        const any = () => `${random(9)} ${random(9)}`;
        for (let i = 0; i < 30; i++) {
            const before = JSON.stringify(state());
            const run = [
                () => work.do(Array.from({ length: 1 + random(4) }, () => `${random(3) ? "add" : "remove"} ${any()}`)),
                () => work.go(random(work.replay.journal.lines.length + 1)),
                () => work.open(emptyJournal(5)),
                () => work.openCalls([`add ${any()}`, `add ${any()}`], random(3)),
            ][[0, 0, 0, 0, 1, 1, 2, 3][random(8)]];
            run();
            if (JSON.stringify(state()) !== before) states.push(JSON.stringify(state()));
        }
        // (steps in a row are one deed, so that not each state is met again)
        const end = JSON.stringify(state()), met = [];
        const all = (turn) => {
            for (let before = null; work.deeds[turn === "undo" ? "done" : "undone"].length && before !== work.deeds[turn === "undo" ? "done" : "undone"].length; deeds++) {
                before = work.deeds[turn === "undo" ? "done" : "undone"].length;
                work[turn]();
                met.push(JSON.stringify(state()));
            }
        };
        all("undo");
        assert.equal(JSON.stringify(state()), JSON.stringify([[], null]), `round ${round}`);
        assert.ok(met.every((it) => it === JSON.stringify([[], null]) || states.includes(it)));
        all("redo");
        assert.equal(JSON.stringify(state()), end, `round ${round}`);
        const replay = new Replay(new Hull(work.replay.journal.limit), work.replay.journal);
        replay.go(work.replay.journal.lines.length);
        assert.equal(replay.wrong, null);
    }
    return `${deeds} turns`;
});
await tried("a call that a journal refuses leaves its later lines", () => {
    const journal = readJournal("hullbook journal 2 first 0 limit 9 capacity 9\n0 0 add 0 0 = added\n1 0 add 1 1 = added\nend 2\n");
    const work = new Work(Hull, { journal, power: 0 });
    work.go(1);
    work.do(["add 5 5"]);
    assert.match(work.message, /takes no more lines/);
    assert.equal(work.replay.journal.lines.length, 2);
    work.undo();
    assert.equal(work.replay.at, 2);
});
await tried("the coordinates of the points, beside a map", () => {
    const work = new Work(Hull), random = random_of(3);
    for (let i = 0; i < 3000; i++) work.do([`${random(5) > 1 ? "add" : "remove"} ${random(12)} ${random(12)}`]);
    const { coordinates, size } = work.replay.held, keys = Array.from({ length: size }, (_, i) => `${coordinates[2 * i]} ${coordinates[2 * i + 1]}`);
    assert.deepEqual(keys.sort(), [...work.replay.held.keys()].sort());
    assert.deepEqual(keys, work.hull.held().map((it) => it.point.join(" ")).sort());
});
await tried("segments of a journal, in any order and round the last number", () => {
    const first = 2n ** 64n - 2n, lines = ["add 0 0 = added", "add 9 0 = added", "add 0 9 = added", "count = count 3"];
    const segment = (from, to) => readJournal(`hullbook journal 3 first ${(first + BigInt(from)) % 2n ** 64n} limit 9 capacity 9\n${lines.slice(from, to).map((it, i) => `${(first + BigInt(from + i)) % 2n ** 64n} 0 ${it}\n`).join("")}end ${to - from}\n`);
    const segments = [segment(3, 4), segment(0, 1), segment(1, 3)].map((journal, i) => ({ name: `segment ${i}`, journal }));
    for (const order of [[0, 1, 2], [2, 0, 1], [1, 2, 0]]) {
        const joined = joinJournals(order.map((it) => segments[it]));
        assert.deepEqual(joined.lines.map((it) => `${it.call} = ${it.reply}`), lines);
        assert.deepEqual(joined.segments, [{ name: "segment 1", from: 0 }, { name: "segment 2", from: 1 }, { name: "segment 0", from: 3 }]);
        assert.equal(readJournal(journalText(joined)).lines.length, 4);
        assert.deepEqual({ ...joined, lines: [], segments: [] }, { version: 3, first, limit: 9, capacity: 2 ** 24, lines: [], segments: [] });
    }
    // (more lines than the capacity of any segment, and segments with none)
    const full = segments.map(({ name, journal }) => ({ name,
        journal: { ...journal, capacity: 2 } })), all = joinJournals(full), replay = new Replay(new Hull(9), all);
    assert.deepEqual([replay.go(4), replay.wrong, replay.call("count").reply], [4, null, "count 3"]);
    const bare = (name) => ({ name, journal: segment(0, 0) });
    assert.deepEqual([joinJournals([bare("a")]), joinJournals([bare("a"), bare("b")])].map((it) => [it.first, it.lines, it.segments[0]]),
        Array(2).fill([first, [],
        { name: "a", from: 0 }]));
    assert.throws(() => joinJournals([segments[0], segments[1]]), RangeError);
    assert.throws(() => joinJournals([segments[1], { ...segments[2], journal: { ...segments[2].journal, limit: 8 } }]), /another version or limit/);
    assert.throws(() => joinJournals([segments[1], { ...segments[2], journal: { ...segments[2].journal, capacity: 1 } }]), /more lines than its capacity/);
});

/** The colors of the page by their names, light and dark. */
function colorsOf(html) {
    return [...html.matchAll(/:root \{([^}]*)\}/g)].map(([, text]) => {
        const pairs = [...text.matchAll(/--(\w+): #([0-9a-f]+);/g)];
        return Object.fromEntries(pairs.map(([, name, hex]) => [name, (hex.length === 3 ? [...hex].map((it) => it + it) : hex.match(/../g)).map((it) => parseInt(it, 16) / 255)]));
    });
}
const linear = (color) => color.map((it) => (it <= 0.04045 ? it / 12.92 : ((it + 0.055) / 1.055) ** 2.4));
const times = (rows, vector) => rows.map((row) => row.reduce((sum, it, i) => sum + it * vector[i], 0));
const luminance = (color) => times([[0.2126, 0.7152, 0.0722]], linear(color))[0];
function contrast(one, other) {
    const [low, high] = [luminance(one), luminance(other)].sort((a, b) => a - b);
    return (high + 0.05) / (low + 0.05);
}
// how eyes that lack one of the three receptors see (Machado, Oliveira and Fernandes, 2009), on linear light
const EYES = {
    all: [[1, 0, 0], [0, 1, 0], [0, 0, 1]],
    protan: [[0.152286, 1.052583, -0.204868], [0.114503, 0.786281, 0.099216], [-0.003882, -0.048116, 1.051998]],
    deutan: [[0.367322, 0.860646, -0.227968], [0.280085, 0.672501, 0.047413], [-0.01182, 0.04294, 0.968881]],
};
/** CIE L*a*b* of a color as such eyes see it. */
function labOf(color, eyes) {
    const seen = times(EYES[eyes], linear(color)).map((it) => Math.min(1, Math.max(0, it)));
    const [x, y, z] = times([[0.4124, 0.3576, 0.1805], [0.2126, 0.7152, 0.0722], [0.0193, 0.1192, 0.9505]], seen).map((it, i) => it / [0.9505, 1, 1.089][i]);
    const root = (it) => (it > 216 / 24389 ? Math.cbrt(it) : (24389 / 27 * it + 16) / 116);
    return [116 * root(y) - 16, 500 * (root(x) - root(y)), 200 * (root(y) - root(z))];
}
await tried("colors that red-green blind people can distinguish, and contrast of borders, lines and words", () => {
    const schemes = colorsOf(readFileSync(web("page.html"), "utf8")), distances = [];
    assert.equal(schemes.length, 2);
    for (const colors of schemes) {
        for (const [one, other] of [["left", "right"], ["left", "hull"], ["right", "hull"], ["hull", "other"], ["upper", "lower"], ["point", "hull"], ["inside", "within"]]) {
            for (const eyes of Object.keys(EYES)) {
                const distance = Math.hypot(...labOf(colors[one], eyes).map((it, i) => it - labOf(colors[other], eyes)[i]));
                assert.ok(distance >= (one === "inside" ? 10 : 20), `${one} and ${other} for ${eyes}: ${distance.toFixed(1)}`);
                distances.push(distance);
            }
        }
        for (const name of ["line", "hull", "left", "right", "upper", "lower", "other", "point"]) {
            for (const ground of name === "line" ? ["plane", "ground"] : ["plane", "inside"]) assert.ok(contrast(colors[name], colors[ground]) >= 3, `${name} on ${ground}: ${contrast(colors[name], colors[ground]).toFixed(2)}`);
        }
        for (const name of ["text", "soft", "wrong", "left", "right", "hull"]) {
            for (const ground of ["plane", "ground"]) assert.ok(contrast(colors[name], colors[ground]) >= 4.5, `${name} on ${ground}: ${contrast(colors[name], colors[ground]).toFixed(2)}`);
        }
    }
    return `${distances.length} pairs`;
});
end();
