// The library in JavaScript at its limits, in Node: each operand at both ends of its range and beyond, numbers of more than 64 bits, memory
// that is given back, on each way out, objects that are freed twice or forgotten, blocks of the heap, journals and lattices at their ends.
import { strict as assert } from "node:assert";
import { setFlagsFromString } from "node:v8";
import { runInNewContext } from "node:vm";
import * as faults from "../../web/hull.js";
import { directionOf, exponentOf, fromFloat, fromFloats, scaled, toFloat, wkt } from "../../web/exchange.js";
import { Heap } from "../../web/heap.js";
import { Replay, TextError, joinJournals, journalText, judge, numberOf, readJournal } from "../../web/journal.js";
import { firstMeeting, indices, intersectsSegments, nearestHeld, pairsWithinDistance, relations, rotate, translate } from "../../web/many.js";
import { bytes, loadedWithMemory } from "./loaded.mjs";
import { random_of } from "./plain.mjs";
import { end, tried } from "./tried.mjs";

const { load } = faults, FAR = 2 ** 40;
const { Hull, Polygon } = await load(bytes);
const square = [[0, 0], [10, 0], [10, 10], [0, 10]], random = random_of(17), whole = (most) => random(2 * most + 1) - most;

await tried("each operand at both ends of its range, and one beyond", () => {
    const hull = new Hull(), polygon = new Polygon(square), calls = {
        place: 2, tangents: 2, extreme: 2, nearest: 2, widthAlong: 2, squaredDistanceToPoint: 2, intersectsSegment: 4, separationFromSegment: 4,
            relationToSegment: 4,
        raycast: 4, raycastExit: 4, raycastSegment: 4, distanceBoundsToSegment: 4, squaredDistanceToSegment: 4, withinDistanceOfSegment: 4,
    };
    for (const it of [hull, polygon]) {
        for (const [name, count] of Object.entries({ ...calls, add: 2, remove: 2, multiplicity: 2 }).filter(([name]) => it[name])) {
            for (let at = 0; at < count; at++) {
                const operands = (value) => [...Array(count).fill(1).map((one, i) => (i === at ? value : one)),
                    ...(name === "withinDistanceOfSegment" ? [3] : [])];
                for (const end of [FAR, -FAR]) it[name](...operands(end));
                for (const beyond of [FAR + 1, -FAR - 1, 0.5]) assert.throws(() => it[name](...operands(beyond)), faults.OutOfRange,
                    `${name} ${at} ${beyond}`);
            }
        }
    }
    for (const rows of [[[1, FAR + 1]], [[-FAR - 1, 1]], Float64Array.of(1, FAR + 1), BigUint64Array.of(1n, 2n ** 40n + 1n)]) {
        for (const call of [() => hull.addAll(rows), () => hull.load(rows), () => new Polygon(rows), () => Polygon.of(rows),
            () => polygon.placeAll(rows), () => polygon.extremeAll(rows), () => polygon.tangentsAll(rows)]) assert.throws(call, faults.OutOfRange);
    }
    assert.equal(hull.load(BigUint64Array.of(2n ** 40n, 1n)), 1);
    assert.deepEqual([...hull.addAll(new Uint8Array([7, 8]))], [1]);
    assert.deepEqual([new Hull(2 ** 20).limit(), new Hull(1).limit(), hull.bridges(2 ** 32 - 1)], [2 ** 20, 1, []]);
    assert.deepEqual([new Hull(7).copy().limit(), new Hull().copy().limit()], [7, 2 ** 20]);
    assert.throws(() => new Polygon(new Float64Array(2 * (2 ** 20 + 1))), faults.TooMany);
    for (const multiplicity of [65536, 2 ** 32 + 1, 1.5, -1, NaN]) assert.throws(() => hull.loadHeld([{ point: [0, 0], multiplicity }]), faults.OutOfRange);
    assert.equal(hull.loadHeld([{ point: [0, 0], multiplicity: 65535 }, { point: [0, 1], multiplicity: 1 }]), 2);
    assert.deepEqual([hull.multiplicity(0, 0), hull.removeAll([[0, 0], [0, 0], [0, 1], [0, 1]])], [65535, 3]);
    assert.deepEqual([polygon.withinDistance(new Polygon([[12, 0]]), 2 ** 33, 2 ** 32 - 1), polygon.withinDistance(new Polygon([[12, 0]]), 2, 1)],
        [true, true]);
});
await tried("each fault has its class and its name", () => {
    const polygon = new Polygon(square), freed = new Hull();
    freed.free();
    for (const [name, call] of Object.entries({
        OutOfRange: () => new Hull(0), ZeroDirection: () => polygon.extreme(0, 0), TooMany: () => new Hull(1).load([[0, 0], [1, 1]]),
            Ended: () => freed.count(),
        NoPoints: () => Polygon.of(5), NoPolygon: () => new Polygon([...square].reverse()),
    })) assert.throws(call,
        (error) => error instanceof faults.HullError && error instanceof faults[name] && error.name === name && error.message.length > 10, name);
    for (const [dx, dy] of [[0, 0]]) for (const name of ["widthAlong"]) assert.throws(() => polygon[name](dx, dy), faults.ZeroDirection);
    assert.throws(() => polygon.raycastExit(1, 1, 0, 0), faults.ZeroDirection);
});
await tried("numbers of more than 64 bits", () => {
    const big = new Polygon([[-FAR, -FAR], [FAR, -FAR], [FAR, FAR], [-FAR, FAR]]), rows = Polygon.of(Array.from({ length: 9 }, () => [whole(FAR),
        whole(FAR)]));
    assert.deepEqual([big.doubledArea(), big.widthAlong(FAR, -FAR), big.widthAlong(3, -FAR)], [2n ** 83n, 2n ** 82n, 2n ** 41n * (2n ** 40n + 3n)]);
    const vertices = rows.vertices().map((it) => it.map(BigInt)), area = vertices.reduce((sum, [x, y],
        i) => sum + x * vertices[(i + 1) % vertices.length][1] - y * vertices[(i + 1) % vertices.length][0], 0n);
    assert.equal(rows.doubledArea(), area);
    for (let round = 0; round < 40; round++) {
        const [x, y, dx, dy] = [whole(FAR), whole(FAR), whole(FAR), whole(FAR)], met = rows.raycast(x, y, dx, dy), left = rows.raycastExit(x, y, dx,
            dy);
        for (const { part: { numerator, denominator }, points } of [met, left].filter((it) => it?.points.length === 2)) {
            const [[ax, ay], [bx, by]] = points.map((it) => it.map(BigInt)), [px, py] = [BigInt(x) * denominator + numerator * BigInt(dx),
                BigInt(y) * denominator + numerator * BigInt(dy)];
            assert.equal((bx - ax) * (py - ay * denominator) - (by - ay) * (px - ax * denominator), 0n);
        }
        const { numerator, denominator } = rows.squaredDistanceToSegment(x, y, x, y), [lower, upper] = rows.distanceBoundsToSegment(x, y, x, y),
            plain = rows.squaredDistanceToPoint(x, y);
        assert.equal(numerator * plain.denominator, plain.numerator * denominator);
        assert.ok(lower <= upper && Math.abs(lower ** 2 - Number(numerator) / Number(denominator)) <= 1e-9 * lower ** 2 + 1e-9);
    }
    const hull = new Hull();
    hull.addAll([[-FAR, -FAR], [FAR, 3]]);
    assert.deepEqual(nearestHeld(hull, FAR, FAR), { point: [FAR, 3], squared: (2n ** 40n - 3n) ** 2n });
});
await tried("what features and witnesses have as many points as belong to them", () => {
    const seen = new Set(), side = ([x, y], [u, v]) => BigInt(x) * BigInt(u) + BigInt(y) * BigInt(v);
    for (let round = 0; round < 400; round++) {
        const [ours, theirs] = [0, 1].map((shift) => Polygon.of(Array.from({ length: 1 + random(5) }, () => [whole(6) + 5 * shift, whole(6)])));
        const { shows, points } = ours.witness(theirs), features = ours.distance(theirs), near = ours.nearest(whole(9), whole(9)),
            strip = ours.leastWidth();
        assert.equal(points.length, { disjoint: 2, covered: 1, within: 1, crossing: 4 }[shows]);
        assert.ok(shows === "disjoint" ? ours.vertices().every((it) => side(it, points[1]) <= side(points[0],
            points[1])) : shows !== "covered" || ours.place(...points[0]) !== "outside");
        assert.ok(shows !== "within" || theirs.place(...points[0]) !== "outside");
        assert.ok(features.every((them, k) => them.every((it) => [ours, theirs][k].vertices().some((vertex) => vertex.join() === it.join()))));
        const kind = features.map((it) => it.length).join();
        assert.ok(["0,0", "1,1", "1,2", "2,1"].includes(kind) && near.length <= 2 && (strip === null ? ours.count() < 2 : strip.length === 3));
        assert.equal(kind === "0,0", ours.intersects(theirs));
        seen.add(kind).add(shows);
    }
    assert.equal(seen.size, 8);
    const other = new Polygon([[0, 0], [4, 4]]), none = new Polygon([]);
    assert.deepEqual([none.witness(other), none.distance(other), none.nearest(1, 1), none.boundingBox(), none.diameter(), none.widthAlong(1, 1),
        none.squaredDistance(other), none.separationFromSegment(0, 0, 1, 1), none.leastWidth()], Array(9).fill(null));
    assert.deepEqual([none.place(0, 0), none.tangents(1, 1), none.extreme(1, 1), none.doubledArea(), none.count()], ["outside", null, null, 0n, 0]);
});
await tried("polygons of two modules, and memory that is a number", async () => {
    const another = await load(bytes), stranger = new another.Polygon(square), polygon = new Polygon(square);
    const calls = ["relation", "intersects", "contains", "containsInside", "distance", "witness", "distanceBounds", "squaredDistance",
        "withinDistance"];
    for (const call of calls) {
        assert.throws(() => polygon[call](stranger, 1), faults.NoPolygon, call);
        assert.throws(() => polygon[call](new Hull(), 1), faults.NoPolygon, call);
    }
    for (const call of [() => relations(polygon, [polygon, stranger]), () => pairsWithinDistance([polygon, stranger]),
        () => firstMeeting(polygon, stranger, 1, 0)]) assert.throws(call, faults.NoPolygon);
    for (const wrong of [new Hull(), undefined, null, 5, [[0, 0]]]) {
        for (const call of [() => relations(wrong, [polygon]), () => intersectsSegments(wrong, []), () => pairsWithinDistance([wrong]),
            () => indices(wrong, []), () => firstMeeting(wrong, polygon, 1, 0), () => translate(wrong, 1, 1), () => rotate(wrong, 1, 1)]) {
            assert.throws(call, /^TypeError: a polygon was wanted$/);
        }
    }
    for (const wrong of [polygon, undefined, null, 5]) assert.throws(() => nearestHeld(wrong, 1, 1), /^TypeError: a Hull was wanted$/);
    for (const memory of [0, -1, true, "5000000", null, 5000000n]) await assert.rejects(load(bytes, { memory }), faults.OutOfRange, String(memory));
    const before = globalThis.fetch;
    for (const [status, right] of [[200, true], [404, false], [500, false]]) {
        globalThis.fetch = async () => new Response(bytes, { status });
        await (right ? load("https://a.example/hull.wasm") : assert.rejects(load("https://a.example/hull.wasm"), faults.Unsupported));
    }
    globalThis.fetch = before;
    await load(new Response(bytes)), await load(Promise.resolve(bytes)), await load(new Uint8Array(bytes).buffer);
});
await tried("without a limit all memory of the engine may be used", async () => {
    const { imports, memory } = await loadedWithMemory();
    imports.web_alloc(64n, BigInt(2 ** 29)); // (its pages are not touched)
    const view = new DataView(memory.buffer);
    assert.equal(view.getUint32(64, true), 1);
    assert.ok(Number(view.getBigUint64(72, true)) + 2 ** 29 <= memory.buffer.byteLength);
});
await tried("memory is given back, on each way out", async () => {
    const { Hull: Small, GrowingHull: Growing, Polygon: Poly } = await load(bytes, { memory: 5 * 2 ** 20 });
    const points = Array.from({ length: 3000 }, (_, i) => [i, i * i]), many = new Float64Array(points.flat());
    const kept = new Small();
    kept.load(points.slice(0, 500));
    const held = kept.held(), ways = {
        "a hull": () => new Small().free(), "a filled one": () => { const it = new Small(); it.addAll(many.subarray(0, 600)); it.free(); },
        "a growing hull": () => new Growing().free(), "a grown one": () => { const it = new Growing(); it.addAll(many); it.free(); },
        "a load": () => kept.load(many),
            "a refused load": () => assert.throws(() => { const it = new Small(5); try { it.load(many); } finally { it.free(); } }, faults.TooMany),
        "points with multiplicities": () => kept.loadHeld(held), "those in no order": () => assert.throws(() => kept.loadHeld([...held].reverse()),
            faults.NoPoints),
        "a polygon": () => new Poly(points).free(), "no polygon": () => assert.throws(() => new Poly([...points].reverse()), faults.NoPolygon),
        "a polygon of points": () => Poly.of(many).free(), "vertices": () => { kept.load(many); kept.vertices(); kept.bridges(3); kept.held(); },
        "a copy": () => kept.copy().free(), "a polygon of a hull": () => kept.polygon().free(),
    };
    for (const [name, run] of Object.entries(ways)) {
        for (let again = 0; again < (["a hull", "a growing hull"].includes(name) ? 60000 : 120); again++) {
            try {
                run();
            } catch (error) {
                throw new Error(`${name}, ${again} times: ${error.stack}`);
            }
        }
    }
    kept.free();
});
/** Throws unless each block of a memory begins where the one before ends. */
function checkBlocks({ memory, __heap_base: base }) {
    const view = new DataView(memory.buffer), isSize = (it) => it > 0 && it < 64;
    let at = Math.ceil(Number(base.value) / 16) * 16, its = view.getUint32(at, true);
    while (isSize(its)) {
        at += 16 + (its <= 32 ? 16 * its : 2 ** (its - 23));
        its = view.getUint32(at, true);
    }
    assert.equal(its, 0, `the head of a block: ${its}`);
}
await tried("lists of every length, each after shorter ones, of its kind or of all: what is returned is in its block", async () => {
    const points = Array.from({ length: 700 }, (_, i) => [2 ** 30 + i, 2 ** 31 + i * i]);
    const lists = [(it) => it.held(), (it) => it.vertices(), (it) => it.bridges(0), (it) => it.bridges(1), (it) => it.bridges(2),
        (it) => translate(it.polygon(), 5, 7), (it) => indices(it.polygon(), points),
        (it) => relations(it.polygon(), Array(it.count()).fill(it.polygon())),
        (it) => intersectsSegments(it.polygon(), it.vertices().map((point) => [...point, ...point])),
        (it) => pairsWithinDistance(Array(Math.ceil(it.count() / 20)).fill(it.polygon()))];
    for (const drawn of [...lists.map((it) => [it]), ...Array(40).fill(lists)]) {
        const { library, ...exports } = await loadedWithMemory(), [hull, wanted] = [new library.Hull(), new Hull()];
        for (let count = 1; count <= points.length; count += 1 + random(count)) {
            const list = drawn[random(drawn.length)];
            for (const it of [hull, wanted]) it.load(points.slice(0, count));
            assert.deepEqual(list(hull), list(wanted), `${list} of ${count} points`);
            checkBlocks(exports);
        }
        wanted.free();
    }
    // calls of a polygon for whose vertices no list was written before
    for (const list of [(it) => indices(it, points), (it) => translate(it, 5, 7), (it) => relations(it, Array(700).fill(it)),
        (it) => intersectsSegments(it, points.map((point) => [...point, ...point])), (it) => pairsWithinDistance(Array(30).fill(it))]) {
        const { library, ...exports } = await loadedWithMemory();
        assert.deepEqual(list(new library.Polygon(points)), list(new Polygon(points)), String(list));
        checkBlocks(exports);
    }
    // vertices of growing hulls
    for (let count = 1; count <= points.length; count += 1 + random(count)) {
        const { library, ...exports } = await loadedWithMemory(), hull = new library.GrowingHull();
        hull.addAll(points.slice(0, count));
        assert.deepEqual(hull.vertices(), points.slice(0, count));
        checkBlocks(exports);
    }
    // lists of bridges in an array that a list of points made, whose length is no multiple of theirs
    for (let few = 1; few <= 12; few++) {
        const { library, ...exports } = await loadedWithMemory(), hull = new library.Hull();
        hull.load(points.slice(0, few));
        hull.held();
        for (let count = 100; count <= points.length; count += 20) {
            hull.load(points.slice(0, count));
            for (const level of [1, 2, 3]) hull.bridges(level);
            checkBlocks(exports);
        }
    }
});
await tried("where memory is refused to a growing hull, the places say so", async () => {
    const { GrowingHull: Small } = await load(bytes, { memory: 3 * 2 ** 20 }), hull = new Small(), seen = new Set();
    for (let k = 0; k < 100 && !seen.has(null); k++) {
        for (const place of hull.addAll(Array.from({ length: 1000 }, (_, i) => [1000 * k + i, (1000 * k + i) ** 2]))) seen.add(place);
    }
    assert.deepEqual([...seen], ["outside", null]);
    assert.equal(hull.place(0, 0), "on");
});
await tried("where memory is refused in a call on many, or in a copy, all is as before", async () => {
    const { Hull: Small, Polygon: Poly } = await load(bytes, { memory: 3 * 2 ** 20 }), hull = new Small();
    let times;
    for (let k = 0; k < 100; k++) {
        times = hull.addAll(Array.from({ length: 1000 }, (_, i) => [1000 * k + i, i]));
        if (times.includes(0)) break;
    }
    assert.ok(times.includes(0) && times.every((it) => it <= 1));
    const count = hull.count();
    for (let again = 0; again < 50; again++) {
        assert.throws(() => hull.copy(), faults.NoMemory);
        assert.throws(() => hull.load(new Float64Array(400000)), faults.NoMemory);
    }
    // (too many vertices take no memory before they are refused)
    assert.throws(() => new Poly(new Float64Array(2 * (2 ** 20 + 1))), faults.TooMany);
    assert.equal(hull.count(), count);
    hull.clear();
    assert.deepEqual([hull.add(5, 5), hull.count()], [1, 1]);
});
await tried("in a full memory what was given back is there: an array that grew, and the hull of a copy that was refused", async () => {
    const { Hull: Small, Polygon: Poly } = await load(bytes, { memory: 3 * 2 ** 20 }), parabola = (count) => Array.from({ length: count },
        (_, i) => [i, i * i]);
    const [few, many] = [512, 4096].map((count) => { const it = new Small(); it.load(parabola(count)); return it; });
    few.vertexArray(), few.held();
    const spare = [new Poly(parabola(8192)), new Small()], kept = [];
    for (let count = 2048; count >= 2; count /= 2) {
        assert.throws(() => { for (;;) kept.push(new Poly(parabola(count))); }, faults.NoMemory);
    }
    spare.pop().free();
    assert.throws(() => few.copy(), faults.NoMemory);
    new Small().free();
    spare.pop().free();
    assert.equal(many.vertexArray().length, 8192);
    new Poly(parabola(1024));
    assert.deepEqual([few.count(), few.vertices().length, kept.length > 9], [512, 512, true]);
});
await tried("objects that are freed twice, or forgotten", async () => {
    const { Hull: Small } = await load(bytes, { memory: 4 * 2 ** 20 });
    setFlagsFromString("--expose-gc");
    const collect = runInNewContext("gc"), later = () => new Promise((done) => setTimeout(done, 20));
    for (let again = 0; again < 5; again++) {
        (() => {
            for (let i = 0; i < 60; i++) {
                const hull = new Small();
                hull.addAll(Array.from({ length: 500 }, (_, k) => [k, i]));
                if (i % 2) hull.free(), hull.free();
            }
        })();
        for (let turn = 0; turn < 3; turn++) collect(), await later();
    }
    const alive = Array.from({ length: 40 }, () => new Small());
    alive.forEach((hull, i) => hull.addAll(Array.from({ length: i + 1 }, (_, k) => [k, i])));
    assert.deepEqual(alive.map((hull) => hull.count()), alive.map((_, i) => i + 1));
});

/** Returns a buffer with more pages, and takes the bytes of the one before, as a memory that grows. */
function grown(buffer, pages) {
    const more = new ArrayBuffer(buffer.byteLength + pages * 65536);
    new Uint8Array(more).set(new Uint8Array(buffer));
    structuredClone(buffer, { transfer: [buffer] });
    return more;
}
await tried("the answer to a request for memory is written over all that was there", () => {
    const memory = { buffer: new ArrayBuffer(2 ** 17), grow: () => assert.fail("it grows") }, heap = new Heap(2 ** 16), { web_alloc } = heap.imports();
    heap.begin(memory, 4096);
    for (const [bytes, wanted] of [[100n, [1, 4112n]], [2n ** 30n, [0, 16n]]]) {
        const view = new DataView(memory.buffer, 64, 16);
        new Uint8Array(memory.buffer, 64, 16).fill(255);
        web_alloc(64n, bytes);
        assert.deepEqual([view.getUint32(0, true), view.getBigUint64(8, true)], wanted);
    }
});
await tried("blocks of the heap, by chance, beside what was written to them", () => {
    const memory = { buffer: new ArrayBuffer(2 ** 17), grow(pages) { this.buffer = grown(this.buffer, Number(pages)); } };
    const heap = new Heap(), base = 4100, blocks = new Map();
    heap.begin(memory, base);
    const bytesAt = (at, count) => new Uint8Array(memory.buffer, at, count), write = (at, count) => blocks.set(at, { count,
        mark: 1 + random(255) }) && bytesAt(at, count).fill(blocks.get(at).mark);
    const check = (at, { count, mark }) => assert.ok(Buffer.alloc(count, mark).equals(bytesAt(at, count)), `${count} bytes at ${at}`);
    for (let step = 0; step < 6000; step++) {
        const bytes = [1 + random(40), 500 + random(30), 1 + random(9000), 16 * (1 + random(40))][random(4)], all = [...blocks.keys()],
            at = all[random(all.length || 1)];
        if (random(3) > 0 || at === undefined) {
            const taken = heap.take(bytes);
            assert.ok(taken % 16 === 0 && taken >= base && !blocks.has(taken));
            write(taken, bytes);
        } else if (random(2)) {
            const before = blocks.get(at), to = heap.resize(at, before.count, bytes);
            blocks.delete(at);
            check(to, { ...before, count: Math.min(before.count, bytes) });
            write(to, bytes);
        } else {
            check(at, blocks.get(at));
            blocks.delete(at);
            heap.give(at);
        }
        if (step % 50 === 0) blocks.forEach((block, place) => check(place, block));
    }
});
await tried("a heap with a limit, one that cannot grow, and one that grows by less", () => {
    const fixed = { buffer: new ArrayBuffer(2 ** 17), grow: () => { throw new RangeError("no more"); } }, asked = [];
    for (const limit of [2 ** 16, Infinity]) {
        const heap = new Heap(limit), blocks = [];
        heap.begin(fixed, 1024);
        for (let at; (at = heap.take(1000)) !== 0;) blocks.push(at);
        const end = Math.min(limit, 2 ** 17);
        const exact = new Heap(1024 + 16 + 1024);
        exact.begin(fixed, 1024);
        assert.deepEqual([exact.take(1000), exact.take(1)], [1040, 0]); // all of its bytes are used, and no more
        assert.ok(blocks.at(-1) + 1024 <= end && blocks.at(-1) + 2 * 1040 + 1024 > end);
        new Uint8Array(fixed.buffer, blocks[3], 1000).fill(7);
        assert.equal(heap.resize(blocks[3], 1000, 50000), 0);
        assert.ok(new Uint8Array(fixed.buffer, blocks[3], 1000).every((it) => it === 7));
        const [one, two] = [heap.take(8) || heap.resize(blocks[5], 1000, 1001), heap.take(1000)];
        assert.ok(one !== blocks[3] && two !== blocks[3]);
    }
    const slow = { buffer: new ArrayBuffer(2 ** 16),
        grow(pages) { asked.push(Number(pages)); if (Number(pages) > 1) throw new RangeError("too many"); this.buffer = grown(this.buffer, 1); } },
        heap = new Heap();
    heap.begin(slow, 65000);
    assert.ok(heap.take(1000) > 0 && asked.at(-1) === 1 && asked.length >= 2);
    asked.length = 0;
    assert.deepEqual([heap.take(2 ** 40 + 1), heap.take(2 ** 42), asked], [0, 0, []]);
    for (const bytes of [2 ** 24, 2 ** 24 + 1, 2 ** 31, 2 ** 32 + 1, 2 ** 39, 2 ** 40]) {
        asked.length = 0;
        assert.equal(heap.take(bytes), 0);
        assert.equal(Math.floor(Math.log2(65536 * asked.at(-1))), Math.ceil(Math.log2(bytes)), `${bytes} bytes are asked for`);
    }
    const answer = new DataView(slow.buffer), { web_alloc: alloc, web_realloc: realloc, web_dealloc: dealloc } = heap.imports(), old = heap.take(100);
    alloc(64n, 32n), assert.deepEqual([answer.getUint32(64, true), answer.getUint32(76, true)], [1, 0]);
    dealloc(BigInt(answer.getUint32(72, true))), alloc(96n, 32n), assert.equal(answer.getUint32(104, true), answer.getUint32(72, true));
    realloc(64n, BigInt(old), 100n, 2n ** 41n), assert.deepEqual([answer.getUint32(64, true), answer.getUint32(72, true)], [0, 16]);
});

await tried("results of more than 65,536 elements", async () => {
    const points = Float64Array.from({ length: 2 * 70001 }, (_, i) => (i % 2 === 0 ? i / 2 : (i >> 1) ** 2)), hull = new Hull();
    const isAll = (coordinates) => Buffer.from(coordinates.buffer).equals(Buffer.from(points.buffer));
    assert.deepEqual([hull.load(points), isAll(hull.vertexArray()), isAll(Polygon.of(points).vertexArray())], [70001, true, true]);
    const held = hull.held();
    assert.deepEqual([held.length, held.at(-1)], [70001, { point: [70000, 70000 ** 2], multiplicity: 1 }]);
    const pairs = pairsWithinDistance(Array.from({ length: 400 }, () => new Polygon(square)));
    assert.deepEqual([pairs.length, pairs[0], pairs.at(-1)], [(400 * 399) / 2, [0, 1], [398, 399]]);
    hull.free();
    const fresh = await load(bytes); // (whose memory grows while points are stored)
    assert.throws(() => new fresh.Polygon(new Float64Array(2 * 2 ** 20)), faults.NoPolygon);
    assert.deepEqual(fresh.Polygon.of(square).vertices(), square);
});
await tried("pairs of a grid, at, within and beyond each distance", () => {
    const cells = [];
    for (let x = 0; x < 5; x++) for (let y = 0; y < 5; y++) cells.push(new Polygon([[5 * x, 7 * y], [5 * x + 2, 7 * y], [5 * x + 2, 7 * y + 3],
        [5 * x, 7 * y + 3]]));
    for (const [numerator, denominator] of [[0, 1], [3, 1], [299, 100], [4, 1], [399, 100], [5, 1], [499, 100], [8, 1]]) {
        const pairs = [];
        cells.forEach((one, i) => cells.slice(i + 1).forEach((other, k) => { if (one.withinDistance(other, numerator, denominator)) pairs.push([i,
            i + 1 + k]); }));
        assert.deepEqual(pairsWithinDistance(cells, numerator, denominator), pairs);
        assert.deepEqual(pairsWithinDistance([...cells].reverse(), numerator, denominator).length, pairs.length);
    }
    const touching = square.map(([x, y]) => new Polygon([[x, y], [x + 10, y], [x + 10, y + 10], [x, y + 10]]));
    assert.deepEqual(pairsWithinDistance(touching).length, 6);
    assert.deepEqual(pairsWithinDistance([new Polygon([[-FAR, 0]]), new Polygon([[FAR, 0]])], 2 ** 41), [[0, 1]]);
    assert.deepEqual(pairsWithinDistance([new Polygon([[-FAR, 0]]), new Polygon([[FAR, 0]])], 2 ** 41 - 1), []);
});
await tried("which of two moves into the other, where, and at which vertex", () => {
    const box = new Polygon(square), tip = new Polygon([[15, 5], [20, 0], [20, 9]]), wide = new Polygon([[15, -20], [16, -20], [16, 40], [15, 40]]);
    const met = firstMeeting(box, tip, -10, 0), other = firstMeeting(box, wide, -10, 0), tie = firstMeeting(box, new Polygon([[20, 0], [25, 0], [25,
        10], [20, 10]]), -40, 0);
    assert.deepEqual([met.points, met.vertex, met.moves, other.vertex, other.moves, tie.moves], [[[10, 0], [10, 10]], [15, 5], true, other.vertex,
        false, true]);
    assert.ok(box.vertices().some((it) => it.join() === other.vertex.join()) && other.vertex[0] === 10 && tie.vertex[0] === 20);
    assert.deepEqual([other.points.map((it) => it[0]), met.part.numerator * 2n === met.part.denominator], [[15, 15], true]);
    for (const [dx, dy] of [[-10, 0], [0, -10], [0, 10], [10, 0]]) {
        const at = new Polygon(square.map(([x, y]) => [x - 3 * dx / 2 + 0, y - 3 * dy / 2 + 0])), part = firstMeeting(box, at, dx, dy)?.part;
        assert.ok(part && part.numerator * 2n === part.denominator, `${dx} ${dy}`);
        assert.equal(firstMeeting(box, at, -dx, -dy), null);
    }
    assert.equal(firstMeeting(box, tip, 0, 0), null);
    assert.deepEqual([firstMeeting(box, box, 0, 0), firstMeeting(box, new Polygon([[5, 5]]), 9, 9)].map((it) => [it.part.numerator, it.vertex,
        it.moves]), [[0n, null, false], [0n, null, false]]);
    assert.deepEqual(rotate(new Polygon([[1, 0], [2, 0], [2, 5]]), 0, 1), [[-5, 2], [0, 1], [0, 2]]);
    assert.deepEqual(rotate(new Polygon([[0, 0], [3, 0], [3, 2], [0, 2]]), 0, -1), [[0, -3], [2, -3], [2, 0], [0,
        0]].map((it) => it.map((value) => value + 0)));
    assert.deepEqual([translate(new Polygon([[-FAR, FAR]]), 2 * FAR, -2 * FAR), rotate(new Polygon([[FAR, 0]]), 0, 1)], [[[FAR, -FAR]], [[0, FAR]]]);
    assert.throws(() => translate(new Polygon([[-FAR, 0]]), 2 * FAR + 1, 0), faults.OutOfRange);
    assert.throws(() => translate(new Polygon([[-FAR, 0]]), 0, 2 * FAR), faults.OutOfRange);
    const hull = new Hull();
    hull.addAll([[5, 0], [-5, 0], [0, 5], [0, -5]]);
    assert.deepEqual([nearestHeld(hull, 0, 0), nearestHeld(hull, 0, 1).point, nearestHeld(hull, FAR, 0).point], [{ point: [-5, 0], squared: 25n }, [0,
        5], [5, 0]]);
    assert.deepEqual(intersectsSegments(box, [[-5, 5, 5, 15], [-5, 6, 5, 16], [10, 10, 11, 11]]), [true, false, true]);
});

await tried("doubles at the ends of what there is", () => {
    const least = 2 ** -1074;
    assert.deepEqual([fromFloat(least, 1100), fromFloat(-least, 1074), fromFloat(least, 1073), fromFloat(3 * least, 1073)].map(({ coordinate,
        isRounded }) => [coordinate, isRounded]),
        [[2 ** 26, false], [-1, false], [0, true], [2, true]]);
    assert.deepEqual([toFloat(2 ** 26, 1100), toFloat(FAR, -900), scaled(1, -2000), scaled(1e300, -4500), fromFloat(1e308, -5000).coordinate], [least,
        2 ** 940, 0, 0, 0]);
    assert.deepEqual([0.5, 1.5, 2.5, -0.5, -1.5, -2.5, -3.5, 0.49999999999999994].map((it) => fromFloat(it, 0).coordinate), [0, 2, 2, 0, -2, -2, -4,
        0]);
    assert.deepEqual([fromFloat(FAR, 0).coordinate, fromFloat(-1, 40).coordinate, fromFloat(FAR + 0.25, 0)], [FAR, -FAR, { coordinate: FAR,
        isRounded: true }]);
    for (const [value, power] of [[FAR + 1, 0], [1, 41], [-1.0000001, 40], [NaN, 0], [Infinity, -5000], ["1", 0], [1e300,
        5000]]) assert.throws(() => fromFloat(value, power), faults.OutOfRange);
    assert.deepEqual([1, 1.99, 2, 0.5, -8, least, 3 * least, 2 ** -1022, Number.MAX_VALUE].map(exponentOf), [0, 0, 1, -1, 3, -1074, -1073, -1022,
        1023]);
    assert.deepEqual([directionOf(least, -2 * least), directionOf(Number.MAX_VALUE, 0)[0], directionOf(1, 1 - 2 ** -50)], [[2 ** 38, -(2 ** 39)], FAR,
        [2 ** 39, 2 ** 39]]);
    assert.deepEqual(fromFloats([[0.1, 1], [2, 0.3], [0.7, 0.9]], 0).rounded, 4);
    assert.equal(wkt([[1, 2], [3, 4], [5, 9]], -1), "POLYGON ((2 4, 6 8, 10 18, 2 4))");
    for (const power of [0.5, NaN, Infinity, null, "1", [2], 1n]) {
        const calls = [() => fromFloat(1, power), () => toFloat(1, power), () => fromFloats([[1, 2]], power), () => wkt([[1, 2]], power)];
        for (const call of [...calls, () => scaled(1, power)]) assert.throws(call, faults.OutOfRange, String(power));
    }
    assert.throws(() => toFloat(3), faults.OutOfRange);
    for (const wrong of [5, {}, null, undefined, "", "12", true]) {
        for (const call of [() => fromFloats(wrong, 0), () => wkt(wrong)]) assert.throws(call, faults.NoPoints);
    }
    for (const wrong of [[1, 2], Float64Array.of(1, 2), [[1]], [[1, 2, 3]], [[1, 2], null], [{ x: 1, y: 2 }], ["12"], [["1", 2]], [[1, NaN]],
        [[1n, 2n]], [[1, -Infinity]], [[undefined, 1]]]) assert.throws(() => wkt(wrong), faults.OutOfRange);
    assert.throws(() => wkt([[1, 2]], -2000), faults.OutOfRange);
});
await tried("journals at the ends of their numbers, and one beyond", () => {
    const text = ({ version = 3, first = 0, limit = 5, capacity = 9, lines = [] }) => {
        const header = `hullbook journal ${version} first ${first} limit ${limit} capacity ${capacity}`;
        return [header, ...lines, `end ${lines.length}`, ""].join("\n");
    };
    const right = [{ first: 2n ** 64n - 1n }, { limit: 2 ** 20 }, { limit: 1 }, { capacity: 2 ** 24 }, { capacity: 1 },
        { lines: ["0 63 count = count 0"] }, { lines: ["0 0 extreme 0 5 = empty", "1 0 extreme -5 0 = empty"] },
        { lines: [`0 0 add ${FAR} ${-FAR} = added`] }, { version: 2, lines: [`0 0 add ${FAR} 0 = added`] }, { version: 1,
            lines: [`0 0 add ${2 ** 20} ${-(2 ** 20)} = added`] }];
    for (const it of right) {
        const journal = readJournal(text(it));
        assert.equal(judge(new Hull(journal.limit), journal).word, "legal", text(it));
        assert.equal(journalText(journal), text(it));
    }
    const wrong = [{ first: 2n ** 64n }, { limit: 2 ** 20 + 1 }, { limit: 0 }, { capacity: 2 ** 24 + 1 }, { capacity: 0 }, { version: 4 },
        { version: 0 }, { first: "01" }];
    for (const it of wrong) assert.throws(() => readJournal(text(it)),
        (error) => error instanceof TextError && error.line === 1 && error.expected.includes("first NUMBER"), text(it));
    for (const line of ["0 64 count = count 0", "0 0 extreme 0 0 = empty", `0 0 add ${FAR + 1} 0 = added`, `${2n ** 64n} 0 count = count 0`,
        "0 0 add 1 = added", "0 0 fold 1 1 = added", "00 0 count = count 0", "0 0 add -0 1 = added"]) {
        assert.throws(() => readJournal(text({ lines: ["0 0 count = count 0", line] })),
            (error) => error instanceof TextError && error.line === 3 && error.found === line, line);
    }
    assert.throws(() => readJournal(text({ version: 1, lines: [`0 0 add ${2 ** 20 + 1} 0 = added`] })), TextError);
    for (const more of ["x", "\n", "end 1\n", "1 0 count = count 0\n"])
        assert.throws(() => readJournal(text({ lines: ["0 0 count = count 0"] }) + more), TextError, more);
    assert.throws(() => readJournal(text({}).trimEnd()), TextError);
    // the number of the wrong line, counted from 1, and what was found and expected there
    const lines = ["0 0 count = count 0", "1 0 count = count 0", "2 0 count = count 0"], all = text({ lines }).split("\n");
    for (const [at, wrong] of [[0, "hullbook"], [1, "no"], [2, "1 0 fold = x"], [3, "2 64 count = count 0"], [4, "end 2"], [4, "end"], [5, "more"]]) {
        const broken = all.map((it, i) => (i === at ? wrong : it)).join("\n");
        const isThere = (error) => error.line === at + 1 && error.found === wrong && error.message.startsWith(`line ${at + 1}: `);
        assert.throws(() => readJournal(broken), isThere, broken);
    }
    assert.deepEqual([numberOf({ first: 2n ** 64n - 1n }, 0), numberOf({ first: 2n ** 64n - 1n }, 1), numberOf({ first: 2n ** 63n }, 5)],
        [2n ** 64n - 1n, 0n, 2n ** 63n + 5n]);
});
await tried("a replay that is full, refused or wrong, and continues", () => {
    const hull = new Hull(2), replay = new Replay(hull, { version: 3, first: 7n, limit: 2, capacity: 6, lines: [] });
    const replies = ["add 1 1", "add 1 1", "add 2 2", "add 3 3", "remove 1 1", "remove 9 9"].map((it) => replay.call(it, 3));
    assert.deepEqual(replies.map((it) => it.reply), ["added", "again 2", "added", "toomany", "left 1", "absent"]);
    assert.deepEqual([replies[5].number, replies[5].seat, [...replay.held], replay.at], [12n, 3, [["1 1", 1], ["2 2", 1]], 6]);
    assert.throws(() => replay.call("count"), RangeError);
    assert.equal(replay.go(2), 2);
    assert.deepEqual([[...replay.held], hull.count()], [[["1 1", 2]], 1]);
    assert.equal(replay.go(99), 6);
    replay.journal.lines[4] = { ...replay.journal.lines[4], reply: "removed" };
    replay.go(0);
    assert.deepEqual([replay.go(6), replay.wrong.index, replay.wrong.expected], [4, 4, "11 3 remove 1 1 = left 1"]);
    assert.equal(hull.multiplicity(1, 1), 2);
    replay.go(3);
    assert.equal(replay.call("remove 2 2").reply, "removed");
    assert.deepEqual([replay.wrong, replay.journal.lines.length, [...replay.held.keys()]], [null, 4, ["1 1"]]);
    const misnumbered = new Replay(new Hull(), { ...replay.journal, lines: [{ number: 8n, seat: 4, call: "count", reply: "count 0" }] });
    assert.deepEqual([misnumbered.go(1), misnumbered.wrong.index, misnumbered.wrong.expected], [0, 0, "7 4 count = count 0"]);
    for (let round = 0; round < 400; round++) {
        replay.held[random(2) ? "set" : "delete"](`${random(6)} 0`, 1);
        const { coordinates, size } = replay.held;
        assert.deepEqual(Array.from({ length: size }, (_, i) => `${coordinates[2 * i]} ${coordinates[2 * i + 1]}`).sort(),
            [...replay.held.keys()].sort());
    }
    const segment = (first, name, more = {}) => ({ name, journal: { version: 3, first, limit: 2, capacity: 4, lines: [{ number: first, seat: 0,
        call: "count", reply: "count 0" }], ...more } });
    assert.deepEqual(joinJournals([segment(6n, "b"), segment(5n, "a")]).segments, [{ name: "a", from: 0 }, { name: "b", from: 1 }]);
    for (const other of [segment(9n, "c"), segment(6n, "c", { limit: 3 }), segment(6n, "c", { version: 2 }), segment(6n, "c",
        { capacity: 0 })]) assert.throws(() => joinJournals([other, segment(5n, "a")]), RangeError);
    for (const order of [[9n, 5n, 6n], [6n, 9n, 5n], [5n, 6n, 9n]]) {
        assert.throws(() => joinJournals(order.map((first) => segment(first, `segment ${first}`))),
            { name: "RangeError", message: "a segment is missing: those before end at 7, and segment 9 begins at 9" });
    }
});
end();
