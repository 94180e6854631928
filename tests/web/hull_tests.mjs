// hull.js and journal.js in Node: each answer beside the program's stored ones and the plain way's, and each refusal.
import { strict as assert } from "node:assert";
import { existsSync, readFileSync, readdirSync } from "node:fs";
import * as faults from "../../web/hull.js";
import { TextError, judge, readJournal, serve } from "../../web/journal.js";
import { Plain, random_of } from "./plain.mjs";
import { end, tried } from "./tried.mjs";

const { load } = faults, FAR = 2 ** 40, MEMORY = 2 ** 24;
// an address that no memory reaches: of a 32-bit memory the last, since greater ones wrap
const STRAY = process.env.MODULE === "hull32.wasm" ? 0xfffffff0n : 1n << 60n;
// the module that is tried: hull.wasm, or the name in MODULE
const module = new URL(`../../web/out/${process.env.MODULE ?? "hull.wasm"}`, import.meta.url), cases = new URL("../cli/cases/", import.meta.url);
const { GrowingHull, Hull, Polygon } = await load(module);

/** A case of tests/cli: its words, its status, and the texts of its parts. */
function caseOf(file) {
    const parts = { input: "", output: "" }, heads = {};
    let inside = "";
    for (const line of readFileSync(new URL(file, cases), "utf8").split("\n")) {
        const head = /^([a-z]+):(.*)/.exec(line);
        if (line.startsWith("|")) parts[inside] += `${line.slice(1)}\n`;
        else if (line.startsWith("\\")) parts[inside] += line.slice(1);
        else if (head) [inside, heads[head[1]]] = [head[1], head[2].trim()];
    }
    return { ...heads, ...parts };
}
const stored = readdirSync(cases).filter((it) => it.endsWith(".case")).map((it) => ({ name: it, ...caseOf(it) }));

await tried("the program's stored reports", () => {
    let compared = 0;
    // one worker, whose calls are in the report in the order in which they were made
    for (const { name, output } of stored.filter((it) => it.words === "run INPUT" && it.status === "0")) {
        const hull = new Hull(), lines = output.split("\n").filter((it) => / = /.test(it));
        if (lines.some((it) => !it.startsWith("0 "))) continue;
        for (const line of lines) {
            const [call, reply] = line.slice(2).split(" = ");
            assert.equal(serve(hull, call), reply, `${name}: ${call}`);
            compared++;
        }
    }
    assert.ok(compared > 50, `${compared} answers`);
    return `${compared} answers`;
});
await tried("growing hulls beside hulls", () => {
    const random = random_of(11);
    for (const size of [3, 40, 2 ** 20, FAR / 2]) {
        const hull = new Hull(), grown = new GrowingHull(), points = [], at = () => random(2 * size + 1) - size;
        assert.deepEqual([grown.vertices(), grown.doubledArea(), grown.extreme(1, 0), grown.tangents(0, 0)], [[], 0n, null, null]);
        for (let i = 0; i < 300; i++) {
            const [x, y] = [at(), at()], place = hull.place(x, y);
            hull.add(x, y);
            points.push([x, y]);
            assert.equal(grown.add(x, y), place);
            assert.deepEqual([grown.place(y, x), grown.tangents(y, x), grown.extreme(x, y || 1)], [hull.place(y, x), hull.tangents(y, x), hull.extreme(x, y || 1)]);
        }
        assert.deepEqual([grown.vertices(), grown.doubledArea(), grown.placeAll(points)], [hull.vertices(), hull.doubledArea(), hull.placeAll(points)]);
        assert.deepEqual(grown.polygon().vertices(), hull.polygon().vertices());
        assert.deepEqual(grown.addAll(points.slice(0, 9)), hull.placeAll(points.slice(0, 9)));
        assert.throws(() => grown.add(FAR + 1, 0), faults.OutOfRange);
        assert.throws(() => grown.extreme(0, 0), faults.ZeroDirection);
        assert.equal(grown.remove, undefined);
        for (const it of [hull, grown]) it.free();
        assert.throws(() => grown.add(0, 0), faults.Ended);
    }
    return "1200 points";
});
await tried("the points with their multiplicities, and the stored bridges", () => {
    const hull = new Hull(), random = random_of(7), wanted = new Map();
    assert.deepEqual([hull.held(), hull.bridges(0)], [[], []]);
    for (let i = 0; i < 700; i++) {
        const point = [random(40) - 20, random(40) - 20];
        wanted.set(point.join(), hull.add(...point));
    }
    hull.add(-FAR, FAR);
    wanted.set(`${-FAR},${FAR}`, 1);
    const held = hull.held(), isBefore = ([a, b], [c, d]) => a < c || (a === c && b < d);
    assert.deepEqual(new Map(held.map(({ point, multiplicity }) => [point.join(), multiplicity])), wanted);
    assert.ok(held.every(({ point }, i) => i === 0 || isBefore(held[i - 1].point, point)));
    let forks = 0;
    for (let level = 0, bridges; (bridges = hull.bridges(level)).length > 0; level++) {
        assert.ok(bridges.length <= 2 ** level && level < 28);
        assert.ok(bridges.every(({ upper: [a, b], lower: [c, d] }) => isBefore(a, b) && isBefore(c, d)));
        forks += bridges.length;
    }
    // a bucket has 64 points at most, and one at least
    assert.ok(Math.ceil(held.length / 64) - 1 <= forks && forks < held.length);
    const [{ upper: [a, b], lower: [c, d] }] = hull.bridges(0);
    const side = ([x, y], [u, v], [p, q]) => BigInt(u - x) * BigInt(q - y) - BigInt(v - y) * BigInt(p - x);
    assert.ok(held.every(({ point }) => side(a, b, point) <= 0n && side(c, d, point) >= 0n));
    for (const level of [-1, 0.5, 2 ** 32, "1", 1n]) assert.throws(() => hull.bridges(level), faults.OutOfRange);
    const polygon = new Polygon(hull.vertices()), asked = held.map(({ point }) => point).concat([[FAR, FAR]]);
    assert.deepEqual(polygon.placeAll(asked), hull.placeAll(asked));
    hull.free();
    assert.throws(() => hull.held(), faults.Ended);
    return `${forks} forks`;
});
await tried("the program's stored verdicts", () => {
    let judged = 0;
    for (const { name, words, status, input, output } of stored) {
        if (words !== "check INPUT" || !["0", "1"].includes(status)) continue;
        const journal = readJournal(input), { word, index } = judge(new Hull(journal.limit), journal);
        assert.equal(word === "legal" ? "legal\n" : `illegal ${index + 2}\n`, output, name);
        judged++;
    }
    assert.ok(judged > 10);
    return `${judged} journals`;
});
await tried("each refusal of a number", () => {
    const hull = new Hull(3);
    hull.addAll([[0, 0], [1, 0]]);
    for (const bad of [0.5, FAR + 1, -FAR - 1, NaN, Infinity, "1", 1n, null, undefined]) {
        for (const call of ["add", "remove", "place", "extreme", "tangents", "multiplicity"]) {
            assert.throws(() => hull[call](bad, 0), faults.OutOfRange);
            assert.throws(() => hull[call](0, bad), faults.OutOfRange);
        }
    }
    for (const bad of [Float64Array.of(5, 5, 0.5, 1), Float64Array.of(1, 2, 3), BigInt64Array.of(5n, 2n ** 41n), [[5, 5], [1]]]) {
        for (const call of ["addAll", "removeAll", "placeAll", "load"]) assert.throws(() => hull[call](bad), faults.OutOfRange);
    }
    for (const bad of [0, -1, 2 ** 20 + 1, 1.5, "3"]) assert.throws(() => new Hull(bad), faults.OutOfRange);
    assert.throws(() => hull.extreme(0, 0), faults.ZeroDirection);
    assert.throws(() => new Polygon([[0, 0], [1, 0], [2, 0]]), faults.NoPolygon);
    assert.deepEqual(hull.vertices(), [[0, 0], [1, 0]]);
});
await tried("too many, and the ends of the range", () => {
    const hull = new Hull(3), points = [[-FAR, -FAR], [FAR, -FAR], [FAR, FAR]];
    assert.deepEqual([...hull.addAll([...points, [0, 0], points[0]])], [1, 1, 1, 0, 2]);
    assert.throws(() => hull.add(0, 0), faults.TooMany);
    assert.throws(() => hull.load([[0, 0], [1, 0], [2, 0], [3, 0]]), faults.TooMany);
    assert.deepEqual([hull.vertices(), hull.doubledArea(), hull.limit()], [points, 2n ** 82n, 3]);
    hull.addAll(Array(65533).fill(points[0]));
    assert.equal(hull.multiplicity(...points[0]), 65535);
    assert.throws(() => hull.add(...points[0]), faults.TooMany);
    assert.equal(hull.load(BigInt64Array.of(1n, 2n, 1n, 2n)), 1);
    hull.clear();
    assert.deepEqual([hull.count(), hull.extreme(1, 0), hull.remove(1, 2)], [0, null, null]);
});
await tried("memory that grows in the middle of a call on many", () => {
    const hull = new Hull(), points = Array.from({ length: 60000 }, (_, i) => [i, i % 251]);
    assert.ok(hull.addAll(points).every((times) => times === 1));
    assert.deepEqual([hull.count(), hull.multiplicity(59999, 59999 % 251), hull.removeAll(points)], [60000, 1, 60000]);
});
await tried("a freed hull serves nothing", () => {
    const hull = new Hull(), polygon = hull.polygon();
    hull.free();
    hull[Symbol.dispose]?.();
    polygon.free();
    for (const call of ["add", "remove", "place", "tangents", "extreme", "multiplicity"]) assert.throws(() => hull[call](1, 1), faults.Ended);
    for (const call of ["vertices", "count", "limit", "clear", "doubledArea"]) assert.throws(() => hull[call](), faults.Ended);
    const used = new Hull();
    used[Symbol.dispose ?? Symbol.for("Symbol.dispose")]();
    assert.throws(() => used.count(), faults.Ended);
    const grown = new GrowingHull();
    grown.free();
    for (const it of [hull, polygon, grown]) {
        for (const call of ["placeAll", "tangentsAll", "extremeAll", "addAll", "removeAll"]) {
            if (it[call]) assert.throws(() => it[call]([]), faults.Ended, `${call} of no point`);
        }
    }
    // every method, whatever it is passed, of objects that were asked before
    const another = new Polygon([[0, 0]]), words = { boundingBox: [], diameter: [], leastWidth: [], polygon: [], vertexArray: [], held: [],
        copy: [], bridges: [0], loadHeld: [[]] };
    const wordsFor = (it, name) => {
        if (words[name] || /All$|^load$/.test(name)) return words[name] ?? [[[1, 2]]];
        return name in polygon && /other/.test(String(it[name])) ? [another, 1] : [1, 1, 1, 1, 1];
    };
    for (const it of [new Hull(), new GrowingHull(), new Polygon([[0, 0], [4, 0], [0, 4]])]) {
        const names = [];
        for (let kind = Object.getPrototypeOf(it); kind !== Object.prototype; kind = Object.getPrototypeOf(kind)) {
            names.push(...Object.getOwnPropertyNames(kind).filter((one) => !one.startsWith("_") && !["constructor", "free"].includes(one)));
        }
        assert.ok(names.length > 8 && names.includes("vertices"));
        for (const name of names) it[name](...wordsFor(it, name));
        it.free();
        for (const name of names) assert.throws(() => it[name](...wordsFor(it, name)), faults.Ended, name);
    }
    another.free();
});
await tried("ten thousand calls beside the plain way", () => {
    let calls = 0;
    for (let seed = 1; seed <= 10; seed++) {
        const random = random_of(seed), range = [3, 8, 40, 2 ** 41][seed % 4], limit = [5, 30, 60][seed % 3];
        const hull = new Hull(limit), plain = new Plain(limit), any = () => random(range) - Math.floor(range / 2);
        for (let i = 0; i < 1000; i++, calls++) {
            const word = ["add", "add", "remove", "place", "tangents", "extreme", "multiplicity", "vertices", "doubledArea", "count"][random(10)];
            const [x, y] = [any(), any()];
            if (word === "extreme" && x === 0 && y === 0) continue;
            const answer = word === "add" ? hull.addAll([[x, y]])[0] : hull[word](x, y);
            assert.deepEqual(answer, plain[word](x, y), `${word} ${x} ${y}, seed ${seed}`);
            if (i % 100 === 99) assert.deepEqual(hull.polygon().tangents(x, y), plain.tangents(x, y));
        }
        hull.free();
    }
    return `${calls} calls`;
});
await tried("many points at once", () => {
    const hull = new Hull(), random = random_of(3), points = Float64Array.from({ length: 8000 }, () => random(60));
    const pairs = Array.from({ length: 4000 }, (_, i) => [points[2 * i], points[2 * i + 1]]), plain = new Plain(2 ** 20);
    assert.deepEqual([...hull.addAll(points)], pairs.map((it) => plain.add(...it)));
    assert.deepEqual(hull.placeAll(Int32Array.from(points.subarray(0, 40))), pairs.slice(0, 20).map((it) => plain.place(...it)));
    assert.equal(hull.removeAll([...pairs, [99, 99]]), 4000);
    assert.equal(hull.count(), 0);
});
await tried("refused memory leaves the hull as it was", async () => {
    const small = await load(readFileSync(module), { memory: MEMORY }), hull = new small.Hull();
    let added = 0;
    assert.throws(() => {
        for (;; added++) hull.add(added, (added * added) % 1009);
    }, faults.NoMemory);
    assert.ok(added > 1000);
    assert.deepEqual([hull.count(), hull.multiplicity(added, (added * added) % 1009)], [added, 0]);
    assert.deepEqual([serve(hull, `add ${added} ${(added * added) % 1009}`), serve(hull, "add 0 0")], ["nomemory", "again 2"]);
    hull.remove(0, 0);
    assert.equal(hull.add(0, 0), 2);
    hull.clear();
    assert.equal(hull.add(7, 7), 1);
    return `${added} points in ${MEMORY} bytes`;
});
await tried("what is no points is refused, and what can be passed over once is read once", () => {
    const hull = new Hull();
    hull.addAll([[1, 2], [3, 4]]);
    const nonsense = { NoPoints: [Promise.resolve([]), {}, 5, null, undefined, "ab", "12", ""],
        OutOfRange: [[[1]], [5], [[1, 2, 3]], ["123"], [null], [[]]] };
    for (const [name, all] of Object.entries(nonsense)) {
        for (const call of ["load", "addAll", "removeAll", "placeAll", "tangentsAll", "extremeAll"]) {
            for (const it of all) assert.throws(() => hull[call](it), (error) => error.name === name, `${call} of ${String(it)}`);
        }
        for (const it of all) for (const make of [(them) => new Polygon(them), Polygon.of]) assert.throws(() => make(it),
            (error) => error.name === name);
    }
    for (const point of [[1], [1, 2, 3], [1, 0.5], [2 ** 41, 0], ["1", 2]]) assert.throws(() => hull.loadHeld([{ point, multiplicity: 1 }]),
        faults.OutOfRange);
    for (const it of nonsense.NoPoints) assert.throws(() => hull.loadHeld(it), faults.NoPoints, String(it));
    for (const it of [null, 5, [1, 2], { point: [1, 2] }, { multiplicity: 1 }]) assert.throws(() => hull.loadHeld([it]), faults.OutOfRange);
    assert.equal(hull.count(), 2);
    assert.deepEqual([...hull.addAll([[1, 2], [5, 6]].values())], [2, 1]);
    assert.equal(hull.removeAll(new Set([[5, 6]])), 1);
    assert.throws(() => hull.loadHeld([{ point: [3, 3], multiplicity: 1 }, { point: [1, 1], multiplicity: 1 }]), faults.NoPoints);
    assert.throws(() => hull.loadHeld([{ point: [3, 3], multiplicity: 0 }]), faults.OutOfRange);
    const copy = hull.copy();
    assert.deepEqual(copy.held(), hull.held());
    assert.throws(() => hull.extremeAll([[1, 0], [0, 0]]), faults.ZeroDirection);
    hull.free();
    copy.free();
});
/** The squared distance of a point and a segment as a fraction, by its definition. */
function toSegment([x, y], [[ax, ay], [bx, by]]) {
    const [dx, dy, px, py] = [bx - ax, by - ay, x - ax, y - ay].map(BigInt), along = dx * px + dy * py, length = dx * dx + dy * dy;
    if (along <= 0n) return [px * px + py * py, 1n];
    if (along >= length) return [(px - dx) ** 2n + (py - dy) ** 2n, 1n];
    return [(dx * py - dy * px) ** 2n, length];
}
await tried("polygons beside one another", () => {
    const random = random_of(7), number = () => random(9) - 4;
    const less = ([a, b], [c, d]) => a * d < c * b;
    let compared = 0;
    for (let round = 0; round < 300; round++) {
        const [one, two] = [0, 1].map((shift) => {
            const hull = new Hull();
            hull.addAll(Array.from({ length: 1 + random(6) }, () => [number() + 4 * shift, number()]));
            return hull;
        });
        const [ours, theirs] = [one.polygon(), two.polygon()], [a, b] = [one.vertices(), two.vertices()];
        const edges = (vertices) => vertices.map((it, i) => [it, vertices[(i + 1) % vertices.length]]);
        const intersects = ours.intersects(theirs), { numerator, denominator } = ours.squaredDistance(theirs);
        assert.equal(numerator === 0n, intersects);
        assert.equal(ours.witness(theirs).shows !== "disjoint", intersects);
        assert.equal(ours.contains(theirs), b.every(([x, y]) => ours.place(x, y) !== "outside"));
        const all = [...a.flatMap((it) => edges(b).map((edge) => toSegment(it, edge))), ...b.flatMap((it) => edges(a).map((edge) => toSegment(it, edge)))];
        const least = all.reduce((p, q) => (less(q, p) ? q : p));
        if (!intersects) assert.equal(numerator * least[1], least[0] * denominator);
        const [x, y] = [number(), number()], to = ours.squaredDistanceToPoint(x, y);
        const nearest = edges(a).map((edge) => toSegment([x, y], edge)).reduce((p, q) => (less(q, p) ? q : p));
        const wanted = ours.place(x, y) === "outside" ? nearest : [0n, 1n];
        assert.equal(to.numerator * wanted[1], wanted[0] * to.denominator);
        assert.equal(ours.intersectsSegment(x, y, x, y), ours.place(x, y) !== "outside");
        assert.equal(ours.separationFromSegment(x, y, number(), y) === null || !ours.intersectsSegment(x, y, x, y), true);
        const xs = a.map((it) => it[0]), ys = a.map((it) => it[1]);
        assert.deepEqual(ours.boundingBox(), [[Math.min(...xs), Math.min(...ys)], [Math.max(...xs), Math.max(...ys)]]);
        assert.equal(ours.widthAlong(1, 0), BigInt(Math.max(...xs) - Math.min(...xs)));
        const far = (p, q) => (p[0] - q[0]) ** 2 + (p[1] - q[1]) ** 2;
        assert.equal(far(...ours.diameter()), Math.max(...a.flatMap((p) => a.map((q) => far(p, q)))));
        assert.deepEqual(ours.extremeAll([[1, 0], [0, -1]]), [ours.extreme(1, 0), ours.extreme(0, -1)]);
        assert.deepEqual(ours.tangentsAll([[9, 9], [0, 0]]), [ours.tangents(9, 9), ours.tangents(0, 0)]);
        if (a.length === 1) assert.equal(ours.leastWidth(), null);
        const any = Polygon.of([...one.held().map((it) => it.point)].reverse());
        assert.deepEqual(any.vertices(), a);
        any.free();
        for (const it of [ours, theirs, one, two]) it.free();
        compared++;
    }
    return `${compared} pairs`;
});
/** Returns how two hulls are related, by their vertices: a line with the hulls on its two sides can be rotated until its direction is that
 * from one vertex to another. */
function relationOf(ours, theirs, a, b) {
    const [covers, isWithin] = [b.every((it) => ours.place(...it) !== "outside"), a.every((it) => theirs.place(...it) !== "outside")];
    if (covers || isWithin) return covers && isWithin ? "equal" : covers ? "covers" : "within";
    if (ours.squaredDistance(theirs).numerator > 0n) return "disjoint";
    const ways = a.flatMap(([x, y]) => b.flatMap(([p, q]) => [[q - y, x - p], [y - q, p - x]])).filter(([x, y]) => x !== 0 || y !== 0);
    const along = ([x, y]) => ([p, q]) => x * p + y * q;
    const divides = (way) => Math.max(...a.map(along(way))) <= Math.min(...b.map(along(way)));
    return ways.some(divides) ? "touching" : "overlapping";
}
await tried("relations of polygons, and lengths", () => {
    const random = random_of(11), number = () => random(7) - 3, seen = {};
    for (let round = 0; round < 600; round++) {
        const [ours, theirs] = [0, 1].map((shift) => Polygon.of(Array.from({ length: 1 + random(4) }, () => [number() + 2 * shift, number()])));
        const [a, b] = [ours.vertices(), theirs.vertices()], relation = relationOf(ours, theirs, a, b);
        assert.equal(ours.relation(theirs), relation);
        seen[relation] = (seen[relation] ?? 0) + 1;
        assert.equal(ours.containsInside(theirs), b.every((it) => ours.place(...it) === "inside"));
        assert.equal(ours.contains(theirs), ["covers", "equal"].includes(relation));
        const { numerator, denominator } = ours.squaredDistance(theirs);
        for (const [n, d] of [[0, 1], [random(9), 1], [random(30), 1 + random(9)], [2 ** 53 - 1, 1], [1, 2 ** 32 - 1]]) {
            assert.equal(ours.withinDistance(theirs, n, d), numerator * BigInt(d) ** 2n <= BigInt(n) ** 2n * denominator);
        }
        for (const it of [ours, theirs]) it.free();
    }
    assert.equal(Object.keys(seen).length, 6);
    const [square, flush] = [new Polygon([[0, 0], [4, 0], [4, 4], [0, 4]]), new Polygon([[4, 1], [9, 1], [9, 3]])], none = new Polygon([]);
    assert.deepEqual([square.relation(flush), square.relation(none), none.relation(square)], ["touching", "covers", "within"]);
    assert.deepEqual([square.withinDistance(none, 9), square.withinDistance(new Polygon([[7, 8]]), 5), square.withinDistance(new Polygon([[7, 8]]), 499, 100)], [false, true, false]);
    const lengths = [[-1], [0.5], [NaN], [2 ** 53], ["1"], [1n], [1, 0], [1, 2 ** 32], [1, 0.5]];
    for (const length of lengths) assert.throws(() => square.withinDistance(flush, ...length), faults.OutOfRange);
    assert.throws(() => square.relation([[0, 0]]), faults.NoPolygon);
    flush.free();
    assert.throws(() => square.containsInside(flush), faults.Ended);
    return Object.entries(seen).map(([word, times]) => `${times} ${word}`).join(", ");
});
await tried("rays, segments and bounds of distances", () => {
    const square = new Polygon([[0, 0], [10, 0], [10, 10], [0, 10]]), line = new Polygon([[0, 0], [4, 4]]), none = new Polygon([]);
    const beside = new Polygon([[12, 0], [15, 3], [12, 6]]), isPart = ({ part: { numerator, denominator } }, n, d) => numerator * d === denominator * n;
    const entry = square.raycast(-2, 1, 3, 1), exit = square.raycastExit(-2, 1, 3, 1), way = square.raycastSegment(14, 3, -6, 3);
    assert.deepEqual([entry.points, exit.points, way.points], [[[0, 10], [0, 0]], [[10, 0], [10, 10]], [[10, 0], [10, 10]]]);
    assert.ok(isPart(entry, 2n, 3n) && isPart(exit, 4n, 1n) && isPart(way, 1n, 5n));
    assert.deepEqual([square.raycast(3, 3, 1, 0).points, line.raycast(7, 7, -1, -1).points], [[], [[4, 4]]]);
    assert.deepEqual([square.raycast(-2, 1, -3, 1), square.raycastExit(-2, 1, -3, 1), square.raycastSegment(14, 3, 11, 3), none.raycast(0, 0, 1, 0)], [null, null, null, null]);
    assert.throws(() => square.raycast(0, 0, 0, 0), faults.ZeroDirection);
    assert.throws(() => square.raycastSegment(0, 0, 0, FAR + 1), faults.OutOfRange);
    assert.deepEqual([square.distanceBounds(beside), square.distanceBoundsToSegment(13, 14, 13, 14), none.distanceBounds(square)], [[2, 2], [5, 5], null]);
    const [down, up] = square.distanceBoundsToSegment(11, 11, 11, 11), squared = square.squaredDistanceToSegment(11, 11, 11, 11);
    assert.ok(down < Math.SQRT2 && up === Math.SQRT2 && squared.numerator === 2n * squared.denominator);
    assert.deepEqual([square.withinDistanceOfSegment(13, 14, 13, 20, 5), square.withinDistanceOfSegment(13, 14, 13, 14, 4999, 1000)], [true, false]);
    assert.deepEqual([square.relationToSegment(10, 12, 10, 3), square.relationToSegment(9, 9, 2, 2), square.relationToSegment(11, 0, 11, 9)], ["touching", "covers", "disjoint"]);
    assert.deepEqual(square.separationFromSegment(-5, 6, 5, 16), { vertex: [0, 10], direction: [-10, 10] });
    assert.equal(square.separationFromSegment(-5, 5, 5, 15), null);
});
await tried("bytes that are no module, and texts that are no journal", async () => {
    await assert.rejects(load(new Uint8Array(8)), faults.Unsupported);
    await assert.rejects(load(new Uint8Array([0, 97, 115, 109, 1, 0, 0, 0])), faults.Unsupported);
    await assert.rejects(load(new URL("none.wasm", import.meta.url)), faults.Unsupported);
    await assert.rejects(load(new Response("<h1>not found</h1>", { status: 404 })), faults.Unsupported);
    await assert.rejects(load(Promise.reject(new TypeError("fetch failed"))), faults.Unsupported);
    await assert.rejects(load("http://[wrong"), faults.Unsupported);
    const reason = new TypeError("no network");
    const isBy = (test) => (error) => error instanceof faults.Unsupported && test(error.cause) && error.message.includes(error.cause.message);
    await assert.rejects(load(Promise.reject(reason)), isBy((cause) => cause === reason));
    await assert.rejects(load(new Uint8Array([1, 2, 3])), isBy((cause) => cause instanceof WebAssembly.CompileError));
    await assert.rejects(load(new URL("none.wasm", import.meta.url)), isBy((cause) => cause.code === "ENOENT"));
    // the one that this engine runs, of those beside hull.js
    const name = WebAssembly.validate(new Uint8Array([0, 97, 115, 109, 1, 0, 0, 0, 5, 3, 1, 4, 1])) ? "hull.wasm" : "hull32.wasm";
    if (existsSync(new URL(`../../web/out/${name}`, import.meta.url))) assert.equal(new (await load()).Hull().count(), 0);
    // a location as a text, whole or from hull.js on
    for (const text of [String(module), `./out/${process.env.MODULE ?? "hull.wasm"}`]) assert.equal(new (await load(text)).Hull().count(), 0);
    await assert.rejects(load(readFileSync(module), { memory: NaN }), faults.OutOfRange);
    await assert.rejects(load(readFileSync(module), { memory: 1 }), faults.NoMemory);
    for (const text of ["", "end 0\n", "hullbook journal 3 first 0 limit 1 capacity 1\nend 1\n"]) assert.throws(() => readJournal(text), TextError);
});
await tried("after a trap nothing is served", async () => {
    const bytes = readFileSync(module), instantiate = WebAssembly.instantiate;
    WebAssembly.instantiate = async (...words) => {
        const { instance } = await instantiate(...words), { hull_calls, memory } = instance.exports;
        // a hull at an address beyond the memory, for requests of x 666
        const isStray = (requests) => new DataView(memory.buffer).getBigInt64(Number(requests) + 8, true) === 666n;
        const stray = (at, requests, ...rest) => hull_calls(isStray(requests) ? STRAY : at, requests, ...rest);
        const counted = Object.entries({ ...instance.exports, hull_calls: stray }).map(([name, it]) => [name, typeof it === "function" ? (...words) => (calls++, it(...words)) : it]);
        return { instance: { exports: Object.fromEntries(counted) } };
    };
    let calls = 0;
    const { Hull: Other } = await load(bytes).finally(() => (WebAssembly.instantiate = instantiate)), hull = new Other();
    assert.equal(hull.add(1, 1), 1);
    const polygon = hull.polygon();
    assert.throws(() => hull.add(666, 1), (error) => error instanceof faults.Trapped && error.cause instanceof WebAssembly.RuntimeError);
    calls = 0;
    assert.throws(() => hull.place(1, 1), faults.Trapped);
    assert.throws(() => new Other(), faults.Trapped);
    assert.throws(() => polygon.doubledArea(), faults.Trapped);
    hull.free(), polygon.free();
    assert.equal(calls, 0); // not one that might find the memory as the trap left it
});
end();
