// The cost of calls beside plain JavaScript: points kept in order, whose vertices a chain computes again at each change of all points
// (so each row of changes is beside that), and locations by binary search over the vertices: node web/bench.mjs [POINTS]. Calls per
// second.
import { chainOf, order, placeIn, pointsOf, rate, turn } from "./chain.mjs";
import { load } from "./hull.js";

const number = Number(process.argv[2] ?? 10000);
const { Hull } = await load();

/** Whether a point is left of the diagonals from the first vertex, and then of one edge. */
function plainPlace(vertices, point) {
    let low = 1, high = vertices.length - 1;
    if (turn(vertices[0], vertices[low], point) < 0 || turn(vertices[0], vertices[high], point) > 0) return false;
    while (high - low > 1) {
        const middle = (low + high) >> 1;
        if (turn(vertices[0], vertices[middle], point) >= 0) low = middle;
        else high = middle;
    }
    return turn(vertices[low], vertices[high], point) >= 0;
}

function row(name, ours, plain) {
    console.log(`${name.padEnd(34)} ${Math.round(ours).toString().padStart(10)} ${Math.round(plain).toString().padStart(10)} ${(ours / plain).toFixed(2).padStart(9)}`);
}

for (const shape of ["disc", "circle"]) {
    const points = pointsOf(shape, number), others = pointsOf(shape, number), hull = new Hull(), list = points.toSorted(order), kept = chainOf(list);
    const flat = Float64Array.from(others.flat());
    let sum = 0;
    const change = (n, after) => {
        for (let i = 0; i < n; i++) {
            sum += i & 1 ? hull.remove(...others[i >> 1]) : hull.add(...others[i >> 1]);
            after?.();
        }
    };
    const plain = rate(200, (n) => {
        for (let i = 0; i < n; i++) {
            const at = placeIn(list, others[i >> 1]);
            if (i & 1) list.splice(at, 1);
            else list.splice(at, 0, others[i >> 1]);
            sum += chainOf(list).length;
        }
    });
    console.log(`${`${shape}, ${number} points, ${kept.length} vertices`.padEnd(34)}    hull.js      plain     ratio`);
    row("add, from nothing", rate(number, () => {
        hull.clear();
        for (const point of points) sum += hull.add(...point);
    }), plain);
    row("add or remove", rate(2000, (n) => change(n)), plain);
    row("add or remove, and all vertices", rate(200, (n) => change(n, () => (sum += hull.vertexArray().length))), plain);
    const plainPlaces = rate(number, () => {
        for (const point of others) sum += plainPlace(kept, point) ? 1 : 0;
    });
    row("place", rate(number, () => {
        for (const [x, y] of others) sum += hull.place(x, y).length;
    }), plainPlaces);
    const polygon = hull.polygon();
    row("place of its polygon", rate(number, () => {
        for (const [x, y] of others) sum += polygon.place(x, y).length;
    }), plainPlaces);
    polygon.free();
    row("placeAll", rate(number, () => (sum += hull.placeAll(flat).length)), plainPlaces);
    if (!Number.isFinite(sum)) throw new Error("a point was not there");
    hull.free();
}
