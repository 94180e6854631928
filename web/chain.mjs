// The baseline of the benchmarks: points kept in order, whose vertices the chain of Andrew (1979) computes again, in doubles.
/** Returns points in a disc or on a circle, in order neither by x nor by y. */
export function pointsOf(shape, number) {
    return Array.from({ length: number }, () => {
        const angle = 2 * Math.PI * Math.random(), far = 1e6 * (shape === "circle" ? 1 : Math.sqrt(Math.random()));
        return [Math.round(far * Math.cos(angle)), Math.round(far * Math.sin(angle))];
    });
}

export const turn = (a, b, c) => (b[0] - a[0]) * (c[1] - a[1]) - (b[1] - a[1]) * (c[0] - a[0]);

function half(points) {
    const chain = [];
    for (const point of points) {
        while (chain.length > 1 && turn(chain.at(-2), chain.at(-1), point) <= 0) chain.pop();
        chain.push(point);
    }
    return chain.slice(0, -1);
}

export const order = (a, b) => a[0] - b[0] || a[1] - b[1];

/** Returns the vertices of points in order, by the chain of Andrew (1979). Numbers are exact for points of this size. */
export function chainOf(sorted) {
    return [...half(sorted), ...half(sorted.toReversed())];
}

/** Returns the index of a point among points in order, or the one at which it would be. */
export function placeIn(sorted, point) {
    let low = 0, high = sorted.length;
    while (low < high) {
        const middle = (low + high) >> 1;
        if (order(sorted[middle], point) < 0) low = middle + 1;
        else high = middle;
    }
    return low;
}

/** Returns calls per second, of the quickest of some rounds. */
export function rate(calls, run, rounds = 5) {
    const seconds = Array.from({ length: rounds }, () => {
        const began = performance.now();
        run(calls);
        return (performance.now() - began) / 1000;
    });
    return calls / Math.min(...seconds);
}
