// many.js in Node: each answer beside that of a loop of calls about one or two, lists longer than the module's first array, ties, polygons of
// another module and freed ones, and memory that is refused and given back.
import { strict as assert } from "node:assert";
import * as faults from "../../web/hull.js";
import { firstMeeting, indices, intersectsSegments, nearestHeld, pairsWithinDistance, relations, rotate, translate } from "../../web/many.js";
import { bytes, loadedWithScantMemory } from "./loaded.mjs";
import { random_of } from "./plain.mjs";
import { end, tried } from "./tried.mjs";

const { load } = faults, FAR = 2 ** 40;
const { Hull, Polygon } = await load(bytes);
const random = random_of(23), whole = (most) => random(2 * most + 1) - most;

const row = (count, make) => Array.from({ length: count }, (_, i) => make(i));
const point = (most) => [whole(most), whole(most)];

/** Returns a polygon of few points about a point; of none, one or two, too. */
function anyPolygon(about, size) {
    const [x, y] = point(about);
    return Polygon.of(row(random(6), () => [x + whole(size), y + whole(size)]));
}

/** Returns the pairs by a look at each. */
function pairsByLoops(polygons, ...length) {
    return polygons.flatMap((one, i) => polygons.flatMap((other, j) => (i < j && one.withinDistance(other, ...length) ? [[i, j]] : [])));
}

const isSooner = (one, other) => one.numerator * other.denominator < other.numerator * one.denominator;

/** Returns all arrivals of vertices of one of two polygons at the other, as far as the motion leads. */
function arrivals(standing, moving, dx, dy) {
    const ways = [[standing, moving, dx, dy, true], [moving, standing, -dx, -dy, false]];
    const hits = ways.flatMap(([at, of, x, y, moves]) => of.vertices().map((vertex) => ({ ...at.raycast(...vertex, x, y), vertex, moves })));
    return hits.filter(({ part }) => part && part.numerator <= part.denominator);
}

/** Throws unless the meeting is one of the first arrivals; returns what kind of meeting it is. */
function checkMeeting(met, standing, moving, dx, dy) {
    if (standing.intersects(moving)) {
        assert.deepEqual(met, { part: { numerator: 0n, denominator: 1n }, points: [], vertex: null, moves: false });
        return "before";
    }
    const all = dx === 0 && dy === 0 ? [] : arrivals(standing, moving, dx, dy);
    if (all.length === 0) {
        assert.equal(met, null);
        return "never";
    }
    assert.ok(all.every(({ part }) => !isSooner(part, met.part)));
    assert.ok(all.some((it) => it.vertex.join() === met.vertex.join() && it.moves === met.moves && it.points.join() === met.points.join()
        && !isSooner(met.part, it.part)));
    return `${met.part.numerator === met.part.denominator ? "end" : "way"} ${met.points.length} ${met.moves}`;
}

await tried("each answer is that of a loop of calls about one or two", () => {
    let near = 0, there = 0;
    for (let trial = 0; trial < 200; trial++) {
        const list = row(random(14), () => anyPolygon(9, 3)), one = anyPolygon(4, 6);
        list.push(...list.slice(0, random(3))); // (the same polygon twice)
        for (const length of [[0], [0, 1], [2], [5, 2], [whole(4) + 4, 1 + random(3)], [3, 2 ** 32 - 1], [2 ** 53 - 1]]) {
            const pairs = pairsByLoops(list, ...length);
            assert.deepEqual(pairsWithinDistance(list, ...length), pairs);
            near += pairs.length;
        }
        assert.deepEqual(relations(one, list), list.map((other) => one.relation(other)));
        assert.deepEqual(relations(one, new Set(list)), [...new Set(list)].map((other) => one.relation(other)));
        const ways = row(random(12), () => [...point(9), ...point(9)]), points = row(random(40), () => point(9)).concat(one.vertices().slice(1));
        assert.deepEqual(intersectsSegments(one, ways), ways.map((way) => one.intersectsSegment(...way)));
        assert.deepEqual(intersectsSegments(one, ways.values()), intersectsSegments(one, ways.map((way) => Int32Array.from(way))));
        const found = indices(one, points);
        assert.deepEqual(found, one.vertices().map((vertex) => points.findIndex((it) => it.join() === vertex.join())));
        there += found.filter((index) => index > 0).length;
    }
    assert.ok(near > 1000 && there > 100);
    return `${near} pairs, ${there} indices`;
});
await tried("a motion meets as early as the first vertex arrives, as far as it leads", () => {
    const seen = new Set();
    for (let trial = 0; trial < 3000; trial++) {
        const [one, other] = [anyPolygon(6, 3), anyPolygon(6, 3)], [dx, dy] = trial % 2 ? point(9) : [random(3) * 4 - 4, random(3) * 4 - 4];
        seen.add(checkMeeting(firstMeeting(one, other, dx, dy), one, other, dx, dy));
    }
    // (at a single point, the vertex of either polygon arrives: what moves is named)
    const kinds = ["end", "way"].flatMap((part) => ["1 true", "2 true", "2 false"].map((it) => `${part} ${it}`));
    assert.deepEqual([...seen].sort(), ["before", "never", ...kinds].sort());
});
await tried("a motion with one vertex that can arrive, of the one or of the other", () => {
    const box = [[0, 0], [4, 0], [4, 4], [0, 4]], tip = [[6, 2], [9, 0], [9, 5]], low = tip.map(([x, y]) => [x, y + 2]);
    const share = ({ part, ...others }) => ({ ...others, part: Number(part.numerator) / Number(part.denominator) });
    const meets = (one, other, dx) => share(firstMeeting(new Polygon(one), new Polygon(other), dx, 0));
    const side = [[4, 0], [4, 4]];
    assert.deepEqual(meets(box, tip, -8), { points: side, vertex: [6, 2], moves: true, part: 0.25 });
    assert.deepEqual(meets(tip, box, 8), { points: side, vertex: [6, 2], moves: false, part: 0.25 });
    assert.deepEqual(meets(box, tip, -2), { points: side, vertex: [6, 2], moves: true, part: 1 });
    assert.equal(firstMeeting(new Polygon(box), new Polygon(tip), -1, 0), null);
    // the end of an edge, at which the vertex of either one arrives
    for (const [met, other] of [[meets(box, low, -2), [6, 4]], [meets(low, box, 2), [4, 4]]]) {
        const [corner] = [[4, 4], [6, 4]].filter((it) => it.join() !== met.vertex.join());
        assert.ok(met.points.some((it) => it.join() === corner.join()));
        assert.deepEqual([met.moves, met.part], [met.vertex.join() === other.join(), 1]);
    }
});
await tried("lists longer than the first array, after shorter ones and before them", async () => {
    const { Hull: Other, Polygon: Poly } = await load(bytes), hull = new Other();
    hull.addAll(row(900, (i) => [i, i * i]));
    const dots = row(70, (i) => new Poly([[i % 2, 0], [i % 2 + 5, 0]])), long = hull.polygon(), vertices = long.vertices();
    for (const count of [1, 3, 4, 5, 70, 6, 2, 0]) {
        const some = dots.slice(0, count), pairs = row(count, (i) => row(count - i - 1, (k) => [i, i + 1 + k])).flat();
        assert.deepEqual(pairsWithinDistance(some), pairs);
    }
    for (const count of [1, 9, 8, 4000, 2, 0]) {
        assert.deepEqual(relations(dots[0], row(count, (i) => dots[i % 70])), row(count, (i) => (i % 70 % 2 ? "touching" : "equal")));
        assert.deepEqual(intersectsSegments(long, row(count, (i) => [i, i * i - (i % 3), i, -1])), row(count, (i) => i < 900 && i % 3 === 0));
    }
    const order = row(5000, (i) => [(i * 7) % 5000, ((i * 7) % 5000) ** 2]);
    assert.deepEqual(indices(long, order), vertices.map(([x]) => order.findIndex((it) => it[0] === x)));
    assert.deepEqual(indices(long, []), vertices.map(() => -1));
    assert.deepEqual(translate(long, 3, -4), vertices.map(([x, y]) => [x + 3, y - 4]));
});
await tried("the nearest of several at the same distance is the first by x and then y", () => {
    const ring = [[3, 4], [4, 3], [5, 0], [0, 5]].flatMap(([x, y]) => [[x, y], [-x, y], [x, -y], [-x, -y]]), hull = new Hull();
    hull.addAll(ring.map(([x, y]) => [x + 10, y - 7]));
    const distinct = [...new Map(ring.map((it) => [it.map((value) => value + 0).join(), it])).values()].sort(([a, b], [c, d]) => a - c || b - d);
    assert.equal(distinct.length, 12);
    for (const [x, y] of distinct) {
        assert.deepEqual(nearestHeld(hull, 10, -7), { point: [x + 10, y - 7], squared: 25n });
        while (hull.remove(x + 10, y - 7) !== 0);
    }
    assert.equal(nearestHeld(hull, 10, -7), null);
    for (let trial = 0; trial < 300; trial++) {
        hull.load(row(random(9), () => point(4)));
        const [x, y] = point(6), far = ([a, b]) => (a - x) ** 2 + (b - y) ** 2, held = hull.held().map((it) => it.point);
        const best = held.reduce((found, it) => (found && far(found) <= far(it) ? found : it), null);
        assert.deepEqual(nearestHeld(hull, x, y), best && { point: best, squared: BigInt(far(best)) });
    }
    hull.load([[-FAR, -FAR]]);
    assert.deepEqual(nearestHeld(hull, FAR, FAR), { point: [-FAR, -FAR], squared: 2n ** 83n });
});
await tried("what is no iterable is refused, and not taken for an empty one", () => {
    const one = new Polygon([[0, 0], [4, 0], [4, 4]]);
    for (const wrong of [5, {}, null, undefined, true, 7n, "", "12", Promise.resolve([]), { length: 0 }, { 0: one, length: 1 }]) {
        const calls = [() => relations(one, wrong), () => intersectsSegments(one, wrong), () => indices(one, wrong), () => pairsWithinDistance(wrong)];
        for (const call of calls) assert.throws(call, faults.NoPoints);
    }
});
await tried("a polygon of another module, a freed one and what is none are refused, wherever they are", async () => {
    const another = await load(bytes), box = [[0, 0], [4, 0], [4, 4], [0, 4]], one = new Polygon(box), hull = new Hull();
    const wrong = [new another.Polygon(box), new another.Polygon([]), hull, box, {}, null, undefined];
    for (const it of wrong) {
        for (const list of [[it], [one, it], [one, one, it, one]]) assert.throws(() => relations(one, list), faults.NoPolygon);
        for (const list of [[one, it], [one, one, it, one]]) assert.throws(() => pairsWithinDistance(list, 1), faults.NoPolygon);
        assert.throws(() => firstMeeting(one, it, 1, 1), faults.NoPolygon);
    }
    assert.throws(() => relations(one, Array(1)), faults.NoPolygon);
    for (const it of [hull, box, {}, null, undefined]) {
        for (const ask of [() => relations(it, [one]), () => pairsWithinDistance([it]), () => firstMeeting(it, one, 1, 1),
            () => intersectsSegments(it, [[0, 0, 1, 1]]), () => translate(it, 1, 1), () => rotate(it, 1, 1)]) assert.throws(ask, TypeError);
    }
    for (const it of [one, box, null, new another.Polygon(box)]) assert.throws(() => nearestHeld(it, 0, 0), TypeError);
    const freed = new Polygon(box);
    freed.free();
    for (const ask of [() => relations(freed, [one]), () => relations(freed, []), () => relations(one, [one, freed]), () => indices(freed, box),
        () => pairsWithinDistance([freed]), () => pairsWithinDistance([one, freed]), () => pairsWithinDistance([freed, one]),
        () => firstMeeting(freed, one, 1, 1), () => firstMeeting(one, freed, 1, 1), () => intersectsSegments(freed, [[0, 0, 1, 1]]),
        () => translate(freed, 1, 1), () => rotate(freed, 1, 1)]) assert.throws(ask, faults.Ended, String(ask));
    hull.free();
    assert.throws(() => nearestHeld(hull, 0, 0), faults.Ended);
    // polygons that end while the list is read
    const ending = function* () {
        const short = new Polygon(box);
        yield short;
        short.free();
    };
    assert.throws(() => relations(one, ending()), faults.Ended);
    assert.deepEqual([pairsWithinDistance([new another.Polygon(box), wrong[0]]), pairsWithinDistance([wrong[1]])], [[[0, 1]], []]);
});
await tried("where memory is refused the calls say so, and all of it is given back", async () => {
    const { Hull: Small, Polygon: Poly } = await load(bytes, { memory: 3 * 2 ** 20 }), dot = new Poly([[0, 0]]), other = new Poly([[1, 0], [3, 0]]);
    const hull = new Small();
    hull.add(1, 1);
    const many = row(500, () => dot), long = new Float64Array(4), dots = row(200000, () => dot), ways = row(100000, () => long);
    // (124,750 pairs, or arrays of 3.2 MB, for which there is no space)
    const refused = [() => pairsWithinDistance(many), () => relations(dot, dots), () => intersectsSegments(dot, ways),
        () => indices(dot, row(200000, () => [0, 0]))];
    for (let again = 0; again < 60; again++) {
        for (const ask of again % 30 ? [] : refused) assert.throws(ask, faults.NoMemory);
        // (each takes a block that is a share of the memory)
        assert.deepEqual(relations(dot, row(4000, () => other)), Array(4000).fill("disjoint"));
        assert.deepEqual(intersectsSegments(dot, row(2000, () => long)), Array(2000).fill(true));
        assert.deepEqual(indices(dot, row(4000, (i) => [i - 3000, 0])), [3000]);
        assert.deepEqual(pairsWithinDistance([dot, other, dot], 1), [[0, 1], [0, 2], [1, 2]]);
        assert.deepEqual([nearestHeld(hull, 1, 3).squared, firstMeeting(dot, other, -4, 0).vertex], [4n, [1, 0]]);
        assert.throws(() => translate(dot, FAR, FAR + 1), faults.OutOfRange);
    }
});
await tried("the array that a call was passed is given back where memory is refused to its answer", async () => {
    const calls = { // each with the bytes that its array has for an element
        relations: [16, (it, dots) => relations(it, dots)], indices: [16, (it, dots) => indices(it, dots.map(() => [0, 0]))],
        intersectsSegments: [32, (it, dots) => intersectsSegments(it, dots.map(() => [0, 0, 1, 1]))],
        pairsWithinDistance: [16, (it, dots) => pairsWithinDistance(dots)],
    };
    for (const [name, [size, call]] of Object.entries(calls)) {
        const { library, take, give, fill } = await loadedWithScantMemory(), block = take(200 * size);
        const polygon = new library.Polygon(row(100, (i) => [i, i * i])), dots = Array(200).fill(new library.Polygon([[0, 0]]));
        fill();
        give(block);
        for (let again = 0; again < 2; again++) assert.throws(() => call(polygon, dots), faults.NoMemory, name);
        assert.equal(take(200 * size), block, `${name} took a block and did not give it back`);
    }
});
end();
