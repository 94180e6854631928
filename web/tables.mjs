// The two tables of README.md: how many hulls are wrong in doubles, and the cost of a change with all its vertices beside a chain that
// computes them again: node web/tables.mjs. d3.polygonHull is Debian's (node-d3-polygon), and left out if it is not there.
import { createRequire } from "node:module";
import { chainOf, order, placeIn, pointsOf, rate } from "./chain.mjs";
import { load } from "./hull.js";

const SETS = 500, CHANGES = 60, ROUNDS = 30;
const { Hull, Polygon } = await load();
let polygonHull = null;
try {
    ({ polygonHull } = createRequire(import.meta.url)("/usr/share/nodejs/d3-polygon"));
} catch {
    console.log("(d3-polygon is not there)");
}

/** Returns a function of integers below a bound, the same for the same seed. */
function randomOf(seed) {
    let state = BigInt(seed);
    return (bound) => {
        state = (state * 6364136223846793005n + 1442695040888963407n) % 2n ** 64n;
        return Number(((state >> 11n) * BigInt(bound)) >> 53n);
    };
}

/** Returns integers c and d with a * d - b * c = gcd(a, b), by Euclid. */
function bezout(a, b) {
    let [old, rest, s, t, u, v] = [a, b, 1n, 0n, 0n, 1n];
    while (rest !== 0n) {
        const times = old / rest;
        [old, rest, s, t, u, v] = [rest, old - times * rest, t, s - times * t, v, u - times * v];
    }
    return [old, -u, s];
}

/** Returns the four vertices of a parallelogram whose edges have a cross product of 1, which reaches over half of all coordinates up
 * to `limit`. */
function sliver(random, limit) {
    for (;;) {
        const [a, b] = [limit + random(limit), limit + random(limit)].map(BigInt), [divisor, c, d] = bezout(a, b);
        if (divisor !== 1n) continue;
        const [x, y] = [a, b].map((it) => BigInt(random(2 * limit - Number(it)) - limit));
        const points = [[x, y], [x + a, y + b], [x + c, y + d], [x + a - c, y + b - d]].map((it) => it.map(Number));
        if (points.flat().every((it) => Math.abs(it) <= limit)) return points;
    }
}

const same = (vertices, points) => String(vertices?.map(String).sort()) === String(points.map(String).sort());

console.log("| Coordinates to | plain doubles | `d3.polygonHull` | hullbook |\n|---|---|---|---|");
for (const power of [27, 30]) {
    const random = randomOf(power), wrong = [0, 0, 0];
    for (let i = 0; i < SETS; i++) {
        const points = sliver(random, 2 ** power), polygon = Polygon.of(points);
        const found = [chainOf(points.toSorted?.(order) ?? [...points].sort(order)), polygonHull?.(points), polygon.vertices()];
        found.forEach((it, which) => (wrong[which] += !same(it, points)));
        polygon.free();
    }
    console.log(`| 2^${power} | ${wrong[0]} | ${polygonHull ? wrong[1] : "-"} | ${wrong[2]} |`);
}

/** Returns the microseconds of a change with all vertices afterwards: ours, and those of a chain that computes them again from points
 * kept in order. */
function costOf(shape, number) {
    const points = pointsOf(shape, number), others = pointsOf(shape, CHANGES), hull = new Hull(), list = points.toSorted(order);
    hull.addAll(points);
    let sum = 0;
    const ours = rate(2 * CHANGES, () => {
        for (const call of ["add", "remove"]) for (const [x, y] of others) sum += hull[call](x, y) + hull.vertexArray().length;
    }, ROUNDS);
    const plain = rate(2 * CHANGES, () => {
        for (const remove of [0, 1]) {
            for (const point of others) {
                if (remove) list.splice(placeIn(list, point), 1);
                else list.splice(placeIn(list, point), 0, point);
                sum += chainOf(list).length;
            }
        }
    }, ROUNDS);
    if (!Number.isFinite(sum)) throw new Error("a point was not there");
    const vertices = hull.vertexArray().length / 2;
    hull.free();
    return { vertices, ours: 1e6 / ours, plain: 1e6 / plain };
}

console.log("\n| Points | of them vertices | hullbook | recomputed | times |\n|---|---|---|---|---|");
for (const [shape, name] of [["disc", "in a disc"], ["circle", "on a circle"]]) {
    for (const number of [10, 50, 100, 1000, 10000]) {
        const { vertices, ours, plain } = costOf(shape, number);
        console.log(`| ${number.toLocaleString("en")} ${name} | ${vertices} | ${ours.toFixed(1)} µs | ${plain.toFixed(1)} µs | ${(plain / ours).toFixed(1)} |`);
    }
}
