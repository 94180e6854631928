// Each method of hull.js and many.js in tables, in Node: arrays of every length and kind, values that are no coordinates, code that runs in
// the middle of a call, memory that is refused or grows in the middle, and what nothing refers to any more.
import { strict as assert } from "node:assert";
import { spawnSync } from "node:child_process";
import { setFlagsFromString } from "node:v8";
import { runInNewContext } from "node:vm";
import * as faults from "../../web/hull.js";
import { Replay, TextError, inverse, joinJournals, journalText, judge, readJournal, serve } from "../../web/journal.js";
import { firstMeeting, indices, intersectsSegments, nearestHeld, pairsWithinDistance, relations, rotate, translate } from "../../web/many.js";
import { bytes, loadedWithScantMemory } from "./loaded.mjs";
import { random_of } from "./plain.mjs";
import { end, tried } from "./tried.mjs";

const { load } = faults, FAR = 2 ** 40;
const { GrowingHull, Hull, Polygon } = await load(bytes);
const row = (count, make) => Array.from({ length: count }, (_, i) => make(i));
/** So many points that are all vertices, in the order of `vertices`. */
const parabola = (count) => row(count, (i) => [i, i * i]);
const square = [[0, 0], [10, 0], [10, 10], [0, 10]];
/** Throws unless both are the same to the last number: quicker than deepEqual. */
function assertSame(one, other, message) {
    const [ours, theirs] = [one, other].map((it) => JSON.stringify(ArrayBuffer.isView(it) ? Array.from(it) : it));
    assert.ok(ours === theirs, `${message}: ${ours.slice(0, 200)} and ${theirs.slice(0, 200)}`);
}

await tried("a test that hangs fails", () => {
    const text = `import { end, tried } from ${JSON.stringify(new URL("tried.mjs", import.meta.url))};
        await tried("one", () => {}), await tried("two", () => { for (;;); }), end();`;
    const { stdout, status } = spawnSync(process.execPath, ["--input-type=module", "-e", text], 
        { env: { ...process.env, TEST_MINUTES: "0.005" }, timeout: 120000, killSignal: "SIGKILL" });
    assert.deepEqual([String(stdout).split("\n"), status],
        [["one: ok", "two: FAILED, it did not end in 0.005 minutes", "1 passed, 1 failed", ""], null]);
});

const LENGTHS = [0, 1, 2, 1023, 1024, 1025, 65536, 70000];
await tried("calls on many points, of every length, beside one call for each", () => {
    const hull = new Hull(), growing = new GrowingHull(), all = parabola(3000);
    hull.addAll(all), growing.addAll(all);
    for (const length of LENGTHS) {
        const asked = row(length, (i) => [i % 2999, (i % 2999) ** 2 + (i % 3) - 1]), ways = row(length, (i) => [(i % 90) - 45, (i % 7) || -i - 1]);
        for (const it of [hull, growing, hull.polygon()]) {
            assertSame(it.placeAll(asked), asked.map((point) => it.place(...point)), `places of ${length}`);
            if (length > 2000 && (it !== hull || length < 70000)) continue;
            assertSame(it.tangentsAll(asked), asked.map((point) => it.tangents(...point)), `tangents of ${length}`);
            assertSame(it.extremeAll(ways), ways.map((way) => it.extreme(...way)), `farthest of ${length}`);
        }
        const more = new GrowingHull(), one = new GrowingHull();
        assertSame(more.addAll(asked), asked.map((point) => one.add(...point)), `places of ${length} before they are added`);
        for (const it of [more, one]) it.free();
    }
    for (const it of [hull, growing]) it.free();
});
await tried("sets and polygons of every number of points", () => {
    for (const length of [0, 1, 2, 1024, 65536, 70000]) {
        const points = parabola(length), flat = Float64Array.from(points.flat()), hull = new Hull(), growing = new GrowingHull();
        assertSame([...hull.addAll(points)], Array(length).fill(1), `added ${length}`);
        growing.addAll(flat);
        const polygon = hull.polygon(), copy = hull.copy(), held = hull.held();
        assert.deepEqual([hull.count(), copy.count(), polygon.count(), hull.limit(), copy.limit()], [length, length, length, 2 ** 20, 2 ** 20]);
        for (const it of [hull, copy, growing, polygon, growing.polygon(), Polygon.of([...points].reverse())]) {
            assertSame(it.vertexArray(), flat, `the vertices of ${length}`);
            assertSame(it.vertices(), points, `the vertices of ${length}, one by one`);
        }
        for (let level = 0, bridges; (bridges = hull.bridges(level)).length > 0; level++) {
            // (from left to right, each between points of its own)
            const xs = bridges.flatMap(({ upper, lower }) => [upper[0][0], lower[0][0], lower[1][0], upper[1][0]]);
            assert.ok(xs.every((x, i) => (i === 0 || xs[i - 1] <= x) && (i % 4 || i === 0 || xs[i - 1] < x)), `${length} points, level ${level}`);
            assert.ok(bridges.every(({ upper, lower }) => [...upper, ...lower].every(([x, y]) => y === x * x)));
        }
        assertSame([held, copy.held()], Array(2).fill(points.map((point) => ({ point, multiplicity: 1 }))), `all ${length}`);
        assert.deepEqual([hull.load([...points, ...points]), hull.removeAll(flat), hull.count(), hull.loadHeld(held)], Array(4).fill(length));
        const [last] = points.slice(-1);
        if (last) assert.deepEqual([hull.multiplicity(...last), hull.add(...last), hull.remove(...last), hull.remove(...last)], [1, 2, 1, 0]);
        assert.equal(hull.removeAll([...points, [-1, -1]]), Math.max(0, length - 1));
        for (const it of [hull, growing, polygon, copy]) it.free();
    }
});
await tried("many polygons, segments and indices of every number", () => {
    const one = new Polygon(square), dots = [[5, 5], [99, 99], [0, 0]].map((it) => new Polygon([it])), said = ["covers", "disjoint", "covers"];
    const ways = [[-5, -5, 20, 20], [30, 0, 30, 40], [10, 10, 10, 10]], hits = [true, false, true];
    for (const length of LENGTHS) {
        assertSame(relations(one, row(length, (i) => dots[i % 3])), row(length, (i) => said[i % 3]), `${length} relations`);
        assertSame(intersectsSegments(one, row(length, (i) => ways[i % 3])), row(length, (i) => hits[i % 3]), `${length} segments`);
        const points = parabola(length), large = new Polygon(points), found = indices(large, [...points].reverse());
        assertSame(found, row(length, (i) => length - 1 - i), `${length} indices`);
        assertSame(indices(one, [...points, ...square]), square.map(([x, y]) => (x === y && x === 0 && length > 0 ? 0 : length + square.findIndex(
            (it) => it[0] === x && it[1] === y))), `the indices of 4 among ${length}`);
        assertSame([translate(large, -7, 9), rotate(large, 0, 1)], [points.map(([x, y]) => [x - 7, y + 9]),
            [...points.slice(-1), ...points.slice(0, -1)].map(([x, y]) => [-y, x])],
            `${length} moved`);
        large.free();
    }
    const dot = new Polygon([[0, 0]]), rest = row(69998, (i) => new Polygon([[i * 10 + 100, 0]]));
    assert.deepEqual(pairsWithinDistance([dot, ...rest, dot]), [[0, 69999]]);
    assert.deepEqual(pairsWithinDistance([...rest, dot, dot]), [[69998, 69999]]);
    for (const it of rest) it.free();
});

const KINDS = [Int8Array, Uint8Array, Uint8ClampedArray, Int16Array, Uint16Array, Int32Array, Uint32Array, Float32Array, Float64Array, Buffer,
    BigInt64Array, BigUint64Array];
const numbers = [[3, 1], [0, 0], [9, 4], [3, 1], [120, 7]], flatOf = (kind) => kind.from(numbers.flat(),
    kind.name.startsWith("Big") ? BigInt : Number);
/** Each way to pass points, in which those of `numbers` are passed. */
const WAYS = {
    pairs: () => numbers, "a set": () => new Set(numbers), "a generator": () => numbers.values(),
        "typed pairs": () => numbers.map((it) => Int32Array.of(...it)),
    "objects like pairs": () => numbers.map(([x, y]) => ({ length: 2, 0: x, 1: y })),
    "a part of an array": () => Float64Array.from([8, 8, ...numbers.flat(), 8, 8]).subarray(2, 12),
    "memory that threads share": () => { const it = new Float64Array(new SharedArrayBuffer(80)); it.set(numbers.flat()); return it; },
    "an array whose iterator writes to it": () => {
        class Changing extends Float64Array {
            static get [Symbol.species]() { return Float64Array; }
            *[Symbol.iterator]() { for (let i = 0; i < this.length; i++) { yield this[i]; this[i] = 0.5; } }
        }
        return Changing.from(numbers.flat());
    },
    ...Object.fromEntries(KINDS.map((kind) => [kind.name, () => flatOf(kind)])),
};
await tried("the kind of array that is returned", () => {
    const hull = new Hull(), growing = new GrowingHull(), polygon = new Polygon(square), is = (it) => Object.prototype.toString.call(it).slice(8, -1);
    const numbers = { vertexArray: "Float64Array", addAll: "Uint32Array" }, places = [growing.addAll(square)];
    for (const points of [[], square]) {
        assert.equal(is(hull.addAll(points)), numbers.addAll);
        for (const it of [hull, growing, polygon]) {
            assert.equal(is(it.vertexArray()), numbers.vertexArray);
            places.push(it.placeAll(points), it.tangentsAll(points.slice(1)), it.extremeAll(points.slice(1)), it.vertices(), ...it.vertices());
        }
    }
    const others = [hull.held(), hull.bridges(0), polygon.nearest(30, 4), polygon.boundingBox(), polygon.diameter(), polygon.leastWidth(),
        ...polygon.distance(polygon), polygon.distanceBounds(polygon), hull.extreme(1, 0), relations(polygon, [polygon]), indices(polygon, square),
        intersectsSegments(polygon, [[0, 0, 1, 1]]), pairsWithinDistance([polygon]), translate(polygon, 1, 1), rotate(polygon, 1, 1)];
    assert.ok([...places, ...others].every(Array.isArray));
    assert.deepEqual([hull.free(), growing.free(), hull.free(), polygon.free()], Array(4).fill(undefined));
});
await tried("points passed in every way, to each call that takes many", () => {
    const calls = {
        addAll: (points) => [...new Hull().addAll(points)],
            removeAll: (points) => { const it = new Hull(); it.addAll(numbers); return [it.removeAll(points), it.held()]; },
        load: (points) => { const it = new Hull(); return [it.load(points), it.held()]; }, polygonOf: (points) => Polygon.of(points).vertices(),
        "a growing hull": (points) => { const it = new GrowingHull(); return [it.addAll(points), it.vertices()]; },
        ...Object.fromEntries(["placeAll", "tangentsAll"].map((name) => [name, (points) => Polygon.of(square)[name](points)])),
    };
    for (const [name, call] of Object.entries(calls)) {
        const wanted = call(numbers);
        for (const [kind, points] of Object.entries(WAYS)) assert.deepEqual(call(points()), wanted, `${name} of ${kind}`);
    }
    const ways = [[1, 0], [0, -1], [2, 7]], polygon = new Polygon(square);
    for (const kind of KINDS.filter((it) => /^(Int|Float|Big.*nt64A)/.test(it.name) && it !== BigUint64Array)) {
        const passed = kind.from(ways.flat(), kind === BigInt64Array ? BigInt : Number);
        assert.deepEqual(polygon.extremeAll(passed), ways.map((way) => polygon.extreme(...way)), kind.name);
    }
    for (const way of [[0, -0], [-0, 0], [-0, -0]]) {
        assert.throws(() => polygon.extremeAll([[1, 0], way]), faults.ZeroDirection);
        assert.throws(() => polygon.extreme(...way), faults.ZeroDirection);
    }
    assert.deepEqual([polygon.place(-0, -0), new Polygon([[-0, -0]]).vertices(), translate(polygon, -0, -0)], ["on", [[0, 0]], square]);
    for (const wrong of [new DataView(new ArrayBuffer(16)), new ArrayBuffer(16), () => [], Symbol("points"), true, 7n]) {
        for (const call of Object.values(calls)) assert.throws(() => call(wrong), faults.NoPoints);
    }
});

const NO_COORDINATES = [undefined, null, true, "", "1", 1n, NaN, Infinity, -Infinity, 0.5, -FAR - 1, FAR + 1, 2 ** 53, [1], {}, Symbol("one"),
    new Number(1),
    { valueOf: () => 1 }];
await tried("no value but an integer in the range is a coordinate, of each operand of each call", () => {
    const polygon = new Polygon(square), hull = new Hull(), growing = new GrowingHull(), four = ["intersectsSegment", "separationFromSegment",
        "raycast",
        "relationToSegment", "raycastExit", "raycastSegment", "distanceBoundsToSegment", "squaredDistanceToSegment", "withinDistanceOfSegment"];
    const two = ["place", "tangents", "extreme", "nearest", "widthAlong", "distanceBoundsToPoint", "squaredDistanceToPoint", "withinDistanceOfPoint"];
    const calls = [...four.map((name) => [polygon, name, 4]), ...two.map((name) => [polygon, name, 2]), [growing, "add", 2],
        ...["add", "remove", "place", "tangents", "extreme", "multiplicity"].map((name) => [hull, name, 2])];
    const said = (value) => (error) => error instanceof faults.OutOfRange && error.name === "OutOfRange" && error.message.includes("2^40")
        && error.message.endsWith(`${typeof value} ${String(value)}`);
    for (const [it, name, count] of calls) {
        for (const value of NO_COORDINATES) {
            for (let at = 0; at < count; at++) assert.throws(() => it[name](...row(count, (i) => (i === at ? value : 1)), 1), said(value),
                `${name} of ${String(value)}`);
        }
    }
    const moving = [[(a, b) => firstMeeting(polygon, polygon, a, b)], [(a, b) => rotate(polygon, a, b)], [(a, b) => nearestHeld(hull, a, b)],
        [(a, b) => translate(polygon, a, b), 2 * FAR]];
    for (const [call, most = FAR] of moving) {
        for (const value of [...NO_COORDINATES.filter((it) => Math.abs(typeof it === "number" ? it : 0.5) !== FAR + 1), most + 1, -most - 1]) {
            for (const operands of [[value, 1], [1, value]]) assert.throws(() => call(...operands), (error) => error instanceof faults.OutOfRange
                && error.message === `a coordinate is a whole Number from -${most} to ${most}, and not ${typeof value} ${String(value)}`);
        }
    }
    assert.deepEqual([hull.count(), growing.vertices()], [0, []]);
});
await tried("each length of a distance that is none", () => {
    const polygon = new Polygon(square), no = [-1, 0.5, NaN, Infinity, 2 ** 53, "1", 1n, null, true, [1], Symbol("one")];
    const calls = [(...length) => polygon.withinDistance(polygon, ...length), (...length) => polygon.withinDistanceOfPoint(1, 1, ...length),
        (...length) => polygon.withinDistanceOfSegment(1, 1, 2, 2, ...length), (...length) => pairsWithinDistance([polygon, polygon], ...length)];
    for (const call of calls) {
        for (const numerator of no) assert.throws(() => call(numerator, 1), faults.OutOfRange);
        for (const denominator of [...no, 0, -0, 2 ** 32, 2 ** 40]) assert.throws(() => call(1, denominator), faults.OutOfRange);
        for (const length of [[0, 1], [-0, 1], [2 ** 53 - 1, 1], [0, 2 ** 32 - 1], [2 ** 53 - 1, 2 ** 32 - 1], [5]]) call(...length);
    }
    const apart = (x, y) => [new Polygon([[0, 0]]), new Polygon([[x, y]])], [one, other] = apart(3 * 2 ** 38, 2 ** 40);
    for (const [numerator, denominator, wanted] of [[5 * 2 ** 38, 1, true], [5 * 2 ** 38 - 1, 1, false], [5 * 2 ** 50, 2 ** 12, true],
        [5 * 2 ** 50 - 1, 2 ** 12, false]]) {
        const said = [one.withinDistance(other, numerator, denominator), one.withinDistanceOfPoint(3 * 2 ** 38, 2 ** 40, numerator, denominator),
            one.withinDistanceOfSegment(3 * 2 ** 38, 2 ** 40, 2 ** 40, 2 ** 40, numerator, denominator),
            pairsWithinDistance([one, other], numerator, denominator).length === 1];
        assert.deepEqual(said, Array(4).fill(wanted), `${numerator} / ${denominator}`);
    }
});

const random = random_of(29), whole = (most) => random(2 * most + 1) - most;
/** Whether a double is below a root of a fraction, 0 if they are equal: exactly. */
function beside(double, { numerator, denominator }) {
    let shift = 0n;
    while (!Number.isInteger(double)) [double, shift] = [double * 2, shift + 1n];
    const side = BigInt(double) ** 2n * denominator - (numerator << (2n * shift));
    return side < 0n ? -1 : side > 0n ? 1 : 0;
}
await tried("each question about a segment or a point is that about the polygon of its ends, near and far", () => {
    const seen = {};
    for (let round = 0; round < 600; round++) {
        const size = [4, 9, 1000, FAR][round % 4], about = [0, 5, 300, 0][round % 4], at = () => whole(size), count = 1 + random(6);
        const ours = Polygon.of(row(count, () => [at(), at()])), [ax, ay, bx, by] = [0, 0, 0, 0].map(() => Math.max(-FAR, Math.min(FAR,
            at() + about)));
        const ends = [ax, ay, bx, by], edge = Polygon.of([[ax, ay], [bx, by]]), end = new Polygon([[ax, ay]]), length = [random(2 * size),
            1 + random(3)];
        const squared = ours.squaredDistance(edge), bounds = ours.distanceBounds(edge), relation = ours.relation(edge);
        assert.deepEqual([ours.squaredDistanceToSegment(...ends), ours.squaredDistanceToPoint(ax, ay), ours.distanceBoundsToSegment(...ends),
            ours.distanceBoundsToPoint(ax, ay)], [squared, ours.squaredDistance(end), bounds, ours.distanceBounds(end)]);
        assert.deepEqual([ours.withinDistanceOfSegment(...ends, ...length), ours.withinDistanceOfPoint(ax, ay, ...length),
            ours.intersectsSegment(...ends)],
            [ours.withinDistance(edge, ...length), ours.withinDistance(end, ...length), ours.intersects(edge)]);
        assert.deepEqual(ours.nearest(ax, ay), ours.distance(end)[0]);
        // (a flat polygon within the segment has no inside)
        assert.equal(ours.relationToSegment(...ends), { equal: "covers", within: "touching" }[relation] ?? relation);
        assert.ok(bounds.every((it, i) => beside(it, squared) * (i ? -1 : 1) <= 0), `${bounds} of ${squared.numerator}/${squared.denominator}`);
        const apart = ours.separationFromSegment(...ends);
        assert.equal(apart === null, ours.intersects(edge));
        if (apart) {
            const along = ([x, y]) => BigInt(x) * BigInt(apart.direction[0]) + BigInt(y) * BigInt(apart.direction[1]), most = along(apart.vertex);
            assert.ok(ours.vertices().every((it) => along(it) <= most) && [[ax, ay], [bx, by]].every((it) => along(it) > most));
        }
        seen[relation] = (seen[relation] ?? 0) + 1;
        for (const it of [ours, edge, end]) it.free();
    }
    assert.ok(["disjoint", "touching", "overlapping", "covers"].every((it) => seen[it] > 5), JSON.stringify(seen));
});

/** Each call that takes an iterable, on a hull or a polygon, with what it is passed. */
function iterableCalls({ Hull: Set, GrowingHull: Growing, Polygon: Poly }) {
    const filled = (it) => (it.addAll(square), it), polygon = () => new Poly(square), some = [[1, 2], [30, 4], [5, 50]];
    const ofHull = ["addAll", "removeAll", "load", "placeAll", "tangentsAll", "extremeAll"].map((name) => [name, () => filled(new Set()), some]);
    const others = ["addAll", "placeAll", "tangentsAll", "extremeAll"].map((name) => [name, () => filled(new Growing()), some]);
    const ofPolygon = ["placeAll", "tangentsAll", "extremeAll"].map((name) => [name, polygon, some]);
    const held = [[1, 2], [5, 50], [30, 4]].map((point) => ({ point, multiplicity: 3 })), dots = some.map((it) => new Poly([it]));
    const methods = [...ofHull, ...others, ...ofPolygon, ["loadHeld", () => new Set(), held]];
    return [...methods.map(([name, make, list]) => [name, make, list, (it, passed) => it[name](passed)]),
        ["relations", polygon, dots, relations], ["indices", polygon, some, indices],
        ["intersectsSegments", polygon, some.map((it) => [...it, 9, 9]), intersectsSegments]];
}
await tried("code that runs while a list is read: it throws, frees, or makes calls of the same module", async () => {
    const library = await load(bytes);
    for (const [name, make, list, call] of iterableCalls(library)) {
        const it = make(), before = JSON.stringify([it.vertices(), it.held?.()]), reason = new Error("no more");
        const breaking = function* () { yield list[0]; throw reason; }, ending = function* () { yield* list; it.free(); };
        const busy = function* () {
            for (const one of list) {
                const other = new library.Hull(), many = parabola(2000);
                other.addAll(many), other.held(), other.polygon(), other.placeAll(many);
                yield one;
            }
        };
        assert.throws(() => call(it, breaking()), (error) => error === reason, name);
        assert.equal(JSON.stringify([it.vertices(), it.held?.()]), before, `${name} changed what it is asked of`);
        assert.deepEqual(call(it, busy()), call(make(), list), name);
        assert.throws(() => call(it, ending()), faults.Ended, `${name} of what its list frees`);
    }
});
/** Each call that takes memory, of a library with a large hull in it. */
function takingCalls({ Hull: Set, GrowingHull: Growing, Polygon: Poly }) {
    const points = parabola(3000), hull = new Set(), growing = new Growing(), polygon = new Poly(points), held = points.map((point) => ({ point,
        multiplicity: 2 }));
    hull.addAll(points), growing.addAll(points);
    const dot = new Poly([[3, 9]]), others = Array(3000).fill(dot), ways = points.map((point) => [...point, 0, 0]);
    const value = (it) => { const vertices = it.vertices(); it.free(); return vertices; };
    const ask = { place: () => [hull, growing, polygon].map((it) => it.place(3, 9)), "new Hull": () => value(new Set()),
        "new GrowingHull": () => value(new Growing()),
        "new Polygon": () => value(new Poly(points)), "Polygon.of": () => value(Poly.of(points)),
            load: () => { const it = new Set(); try { return it.load(points); } finally { it.free(); } },
        loadHeld: () => { const it = new Set(); try { return it.loadHeld(held); } finally { it.free(); } }, copy: () => value(hull.copy()),
        "hull.polygon": () => value(hull.polygon()), "growing.polygon": () => value(growing.polygon()), held: () => hull.held(),
        vertexArray: () => Array.from(hull.vertexArray()), "growing.vertexArray": () => Array.from(growing.vertexArray()),
            bridges: () => hull.bridges(6),
        relations: () => relations(polygon, others), intersectsSegments: () => intersectsSegments(polygon, ways), indices: () => indices(polygon,
            points),
        translate: () => translate(polygon, 1, 1), rotate: () => rotate(polygon, 0, 1),
            pairsWithinDistance: () => pairsWithinDistance(others.slice(0, 130)) };
    return ask;
}
await tried("each call that takes memory: refused, it says so, and is made again; or the memory grows in its middle", async () => {
    const wanted = takingCalls(await load(bytes)), texts = Object.fromEntries(Object.entries(wanted).map(([name, ask]) => [name,
        JSON.stringify(ask())]));
    let refused = 0, grew = 0;
    for (const name of Object.keys(wanted)) {
        const { library, allow, fill, grown } = await loadedWithScantMemory(), ask = takingCalls(library);
        fill();
        for (let again = 0; again < 3; again++) {
            try {
                assert.equal(JSON.stringify(ask[name]()), texts[name], `${name} in the memory there is`);
            } catch (error) {
                if (!(error instanceof faults.NoMemory)) throw error;
                refused++;
            }
        }
        assert.equal(JSON.stringify(ask.place()), texts.place, name);
        allow(Infinity);
        for (let again = 0; again < 2; again++) assert.equal(JSON.stringify(ask[name]()), texts[name], `${name} in a memory that grows`);
        grew += grown() > 0 ? 1 : 0;
    }
    assert.ok(refused >= 3 * 9 && grew >= 9, `${refused} refusals, ${grew} memories grew`);
    return `${refused} refusals, ${grew} memories grew`;
});
await tried("a call that is refused in its middle gives back what it took before", async () => {
    const points = parabola(3000), held = points.map((point) => ({ point, multiplicity: 1 }));
    const calls = { "Polygon.of": ({ library }) => library.Polygon.of(points).free(), load: ({ hull }) => hull.load(points),
        loadHeld: ({ hull }) => hull.loadHeld(held) };
    for (const [name, call] of Object.entries(calls)) {
        const { library, allow, take, give, fill, grown } = await loadedWithScantMemory(), hull = new library.Hull();
        const first = 3000 * (name === "loadHeld" ? 24 : 16); // bytes that the call takes at first
        fill();
        let refused = 0;
        for (let pages = 1, isDone = false; !isDone; pages++) {
            const before = grown();
            allow(pages);
            try {
                call({ library, hull });
                isDone = true;
            } catch (error) {
                if (!(error instanceof faults.NoMemory)) throw error;
            }
            allow(0);
            if (isDone || grown() === before) continue;
            refused++;
            for (let again = 0; again < 3; again++) assert.throws(() => call({ library, hull }), faults.NoMemory, name);
            const block = take(first);
            assert.ok(block !== 0, `${name} took a block and did not give it back`);
            give(block);
        }
        assert.ok(refused > 0, `${name} was never refused in its middle`);
    }
});
await tried("what nothing refers to any more is freed, of each kind", async () => {
    setFlagsFromString("--expose-gc");
    const collect = runInNewContext("gc"), later = () => new Promise((done) => setTimeout(done, 5));
    const points = new Float64Array(parabola(2000).flat()), kinds = { hull: ({ Hull: Set }) => new Set().addAll(points),
        growing: ({ GrowingHull: Growing }) => new Growing().addAll(points), polygon: ({ Polygon: Poly }) => new Poly(points) };
    for (const [name, make] of Object.entries(kinds)) {
        const library = await load(bytes, { memory: 5 * 2 ** 20 });
        let made = 0;
        for (let turn = 0; turn < 200 && made < 400; turn++) {
            try {
                for (let i = 0; i < 20; i++, made++) make(library);
            } catch (error) {
                if (!(error instanceof faults.NoMemory)) throw error;
            }
            collect(), await later();
        }
        assert.ok(made >= 400, `${name}: ${made} in 5 MB`);
    }
});
await tried("loading without what an engine or a page has, and modules without an export", async () => {
    const without = async (name, value, run) => {
        const before = Object.getOwnPropertyDescriptor(globalThis, name);
        Object.defineProperty(globalThis, name, { value, configurable: true, writable: true });
        await run().finally(() => Object.defineProperty(globalThis, name, before));
    };
    const isUnsupported = (text) => (error) => error instanceof faults.Unsupported && error.name === "Unsupported" && error.message.includes(text);
    await without("WebAssembly", undefined, () => assert.rejects(load(bytes), isUnsupported("no WebAssembly")));
    await without("URL", class { constructor() { throw new TypeError("no base"); } }, () => assert.rejects(load(), isUnsupported("location")));
    await without("Response", undefined, async () => assert.equal(new (await load(bytes)).Hull().count(), 0));
    const { instantiate } = WebAssembly, file = new URL("none.wasm", import.meta.url);
    // a relative location is one from hull.js on, wherever the page is
    const fetched = [], fetches = async (it) => (fetched.push(String(it)), new Response(bytes));
    await without("process", undefined, () => without("fetch", fetches, async () => {
        for (const given of [file, file.href, "out/none.wasm", "../none.wasm"]) assert.ok((await load(given)).Hull);
    }));
    const beside = (name) => new URL(`../../web/${name}`, import.meta.url).href;
    assert.deepEqual(fetched, [file.href, file.href, beside("out/none.wasm"), beside("../none.wasm")]);
    for (const name of ["memory", "__heap_base", "hull_calls"]) {
        WebAssembly.instantiate = async (...words) => {
            const made = await instantiate(...words); // (Node has a module of its own, which is passed compiled)
            return made.instance ? { instance: { exports: { ...made.instance.exports, [name]: undefined } } } : made;
        };
        await assert.rejects(load(bytes).finally(() => (WebAssembly.instantiate = instantiate)), isUnsupported("another module"), name);
    }
    const padded = new Uint8Array([...Array(8).fill(0), ...bytes, ...Array(8).fill(0)]);
    for (const view of [padded.subarray(8, 8 + bytes.length), padded.slice(8, 8 + bytes.length).buffer]) {
        assert.equal(new (await load(view)).Hull().count(), 0);
    }
});
await tried("what each fault says", () => {
    const hull = new Hull(1), polygon = new Polygon(square), freed = new Hull();
    hull.add(1, 1), freed.free();
    for (const [call, name, words] of [[() => hull.add(2, 2), "TooMany", /no more points/], [() => polygon.extreme(0, 0), "ZeroDirection",
        /direction are 0/],
        [() => hull.add("7", 1), "OutOfRange", /from -2\^40 to 2\^40, and not string 7$/], [() => new Hull(0.5), "OutOfRange",
            /limit .* 1 to 1048576, and not 0.5$/],
        [() => freed.count(), "Ended", /was freed/], [() => hull.load([1, 2]), "OutOfRange", /pair of coordinates/], [() => hull.load(7),
            "NoPoints", /iterable of pairs/],
        [() => hull.load(Float64Array.of(1)), "OutOfRange", /odd number/], [() => new Polygon([...square].reverse()), "NoPolygon",
            /convex polygon in order/],
        [() => polygon.relation(hull), "NoPolygon", /same module/], [() => hull.bridges(-1), "OutOfRange", /level .* 0 to 2\^32 - 1/],
        [() => hull.loadHeld([{ point: [0, 0], multiplicity: 0 }]), "OutOfRange", /multiplicity is from 1 to 65535/],
        [() => polygon.withinDistance(polygon, -1), "OutOfRange", /length is a whole Number/],
        [() => hull.loadHeld([[3, 3], [1, 1]].map((point) => ({ point, multiplicity: 1 }))), "NoPoints", /not in order/]]) {
        assert.throws(call, (error) => error instanceof faults[name] && error.name === name && words.test(error.message), `${name} ${words}`);
    }
});
await tried("journals of more lines than 65,536", () => {
    const count = 70000, lines = row(count, (i) => `${i} ${i % 64} count = count 0\n`), head = "hullbook journal 3 first 0 limit 5 capacity 100000\n";
    const text = `${head}${lines.join("")}end ${count}\n`, journal = readJournal(text), [hull, part] = [new Hull(), (from, to) => ({ name: `${from}`,
        journal: { ...journal, first: BigInt(from), lines: journal.lines.slice(from, to) } })];
    assert.ok(journal.lines.length === count && journalText(journal) === text);
    assert.deepEqual(judge(hull, journal), { word: "legal" });
    const joined = joinJournals([part(66000, count), part(0, 66000)]);
    assert.deepEqual([joined.lines.length, joined.segments, joined.lines[69999]], [count, [{ name: "0", from: 0 }, { name: "66000", from: 66000 }],
        journal.lines[69999]]);
    const broken = { ...journal, lines: [...journal.lines] };
    broken.lines[69990] = { ...broken.lines[69990], reply: "count 1" };
    assert.deepEqual(judge(hull, broken), { word: "illegal", index: 69990 });
    const replay = new Replay(hull, journal);
    assert.deepEqual([replay.go(69000), replay.go(66000), replay.go(Infinity), replay.call("count", 63).number], [69000, 66000, count, 70000n]);
    assert.equal(replay.at, count + 1);
    assert.throws(() => readJournal(text.replace("69999 47", "69999 x")), (error) => error instanceof TextError && error.line === count + 1);
    const often = new Replay(new Hull(), readJournal(`${head}end 0\n`)), times = [];
    for (let i = 0; i < 65537; i++) often.call("add 1 2");
    for (const at of [65537, 65535, 65534, 300, 257, 256, 255, 1, 0, 65535]) times.push([often.go(at), often.held.get("1 2")]);
    assert.deepEqual(times, [[65537, 65535], ...[65535, 65534, 300, 257, 256, 255, 1].map((it) => [it, it]), [0, undefined], [65535, 65535]]);
    assert.deepEqual(often.journal.lines.slice(65534, 65536).map((it) => it.reply), ["again 65535", "toomany"]);
    const freed = new Hull(); // (a fault that no reply stands for)
    freed.free();
    assert.throws(() => serve(freed, "add 1 1"), faults.Ended);
    for (const [call, reply, wanted] of [["add 1 2", "added", "remove 1 2"], ["add 1 2", "again 7", "remove 1 2"], ["remove 1 2", "removed",
        "add 1 2"],
        ["remove 1 2", "left 3", "add 1 2"], ["remove 1 2", "absent", null], ["add 1 2", "toomany", null], ["add 1 2", "nomemory", null],
        ["add 1 2", "already", null], ["count", "count 3", null], ["place 1 2", "on", null]]) assert.equal(inverse({ call, reply }), wanted);
});
end();
