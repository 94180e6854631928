// The plain way, slow and simple: points with their multiplicities in a map, the chain of Andrew (1979) computed for each question, in BigInt.

/** Returns a function of integers below a bound, the same for the same seed. */
export function random_of(seed) {
    let state = seed >>> 0;
    return (bound) => {
        state = (Math.imul(state, 1664525) + 1013904223) >>> 0;
        return Math.floor((state / 2 ** 32) * bound);
    };
}

/** Returns twice the area of a, b, c: positive if c is left of the line from a to b. */
function turn([ax, ay], [bx, by], [cx, cy]) {
    return (bx - ax) * (cy - ay) - (by - ay) * (cx - ax);
}

const before = (a, b) => (a[0] < b[0] || (a[0] === b[0] && a[1] < b[1]) ? -1 : a[0] === b[0] && a[1] === b[1] ? 0 : 1);

function half(points) {
    const chain = [];
    for (const point of points) {
        while (chain.length > 1 && turn(chain.at(-2), chain.at(-1), point) <= 0n) chain.pop();
        chain.push(point);
    }
    return chain.slice(0, -1);
}

const within = ([x, y], [ax, ay], [bx, by]) => (x - ax) * (x - bx) <= 0n && (y - ay) * (y - by) <= 0n;
const farther = (from, a, b) => (a[0] - from[0]) ** 2n + (a[1] - from[1]) ** 2n > (b[0] - from[0]) ** 2n + (b[1] - from[1]) ** 2n;
const toNumbers = (point) => point.map(Number);

/** A hull with the questions of hull.js, each answered from all points. */
export class Plain {
    constructor(limit, most = 65535) {
        this.most = most;
        this.limit = limit;
        this.held = new Map();
    }

    /** Returns the multiplicity of the point now, or 0 if it was refused. */
    add(x, y) {
        const times = this.multiplicity(x, y);
        if (times === 0 ? this.held.size >= this.limit : times >= this.most) return 0;
        this.held.set(`${x} ${y}`, times + 1);
        return times + 1;
    }

    remove(x, y) {
        const times = this.multiplicity(x, y);
        if (times === 0) return null;
        if (times === 1) this.held.delete(`${x} ${y}`);
        else this.held.set(`${x} ${y}`, times - 1);
        return times - 1;
    }

    multiplicity(x, y) {
        return this.held.get(`${x} ${y}`) ?? 0;
    }

    count() {
        return this.held.size;
    }

    exactVertices() {
        const points = [...this.held.keys()].map((it) => it.split(" ").map(BigInt)).sort(before);
        return points.length < 2 ? points : [...half(points), ...half(points.toReversed?.() ?? [...points].reverse())];
    }

    vertices() {
        return this.exactVertices().map(toNumbers);
    }

    edges() {
        const vertices = this.exactVertices();
        return vertices.map((vertex, i) => [vertex, vertices[(i + 1) % vertices.length]]);
    }

    doubledArea() {
        return this.edges().reduce((sum, [a, b]) => sum + a[0] * b[1] - a[1] * b[0], 0n);
    }

    place(x, y) {
        const point = [BigInt(x), BigInt(y)], edges = this.edges();
        if (edges.some(([a, b]) => turn(a, b, point) === 0n && within(point, a, b))) return "on";
        return edges.length > 2 && edges.every(([a, b]) => turn(a, b, point) > 0n) ? "inside" : "outside";
    }

    extreme(x, y) {
        const far = ([px, py]) => px * BigInt(x) + py * BigInt(y);
        const found = this.exactVertices().reduce((best, it) => (best && (far(it) < far(best) || (far(it) === far(best) && before(it, best) > 0)) ? best : it), null);
        return found && toNumbers(found);
    }

    tangents(x, y) {
        const from = [BigInt(x), BigInt(y)], vertices = this.exactVertices();
        if (vertices.length === 0 || this.place(x, y) !== "outside") return null;
        const farthest = (sign) => vertices.reduce((best, it) => {
            const across = sign * turn(from, best, it);
            return across > 0n || (across === 0n && farther(from, it, best)) ? it : best;
        });
        return { left: toNumbers(farthest(1n)), right: toNumbers(farthest(-1n)) };
    }
}
