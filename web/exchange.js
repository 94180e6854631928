// Doubles to integer coordinates and back, directions in doubles, and vertices as well-known text.
//
// If your coordinates are doubles, choose a power of two: v becomes the integer next to v * 2^power. A number that was not on the
// lattice is rounded, and the call reports that: all answers are exact for the rounded points.
import { COORDINATE_LIMIT, OutOfRange, _checkIterable } from "./hull.js";

const FURTHEST = 4000; // powers beyond it take every double out of range, or to 0
const word = new DataView(new ArrayBuffer(8));

function checkPower(power) {
    if (!Number.isInteger(power)) throw new OutOfRange(`the power of two is a whole Number, and not ${typeof power} ${String(power)}`);
}

/** Returns v * 2^power. Only numbers smaller than any coordinate lose bits. */
export function scaled(value, power) {
    checkPower(power);
    let left = Math.max(-FURTHEST, Math.min(FURTHEST, power));
    for (; left > 1000; left -= 1000) value *= 2 ** 1000;
    for (; left < -1000; left += 1000) value *= 2 ** -1000;
    return value * 2 ** left;
}

/** Returns the integer next to v, of two as near the even one. */
function nearest(value) {
    const below = Math.floor(value), rest = value - below;
    return rest > 0.5 || (rest === 0.5 && below % 2 !== 0) ? below + 1 : below;
}

/** Returns the coordinate next to v * 2^power, of two as near the even one, and whether it was rounded. */
export function fromFloat(value, power) {
    const exact = scaled(value, power), coordinate = nearest(exact) + 0;
    if (typeof value !== "number" || !(Math.abs(coordinate) <= COORDINATE_LIMIT)) throw new OutOfRange(`${value} * 2^${power} is no coordinate`);
    return { coordinate, isRounded: coordinate !== exact || (coordinate === 0) !== (value === 0) };
}

/** Returns the points of the lattice next to points in doubles, as [x0, y0, x1, y1, ..], and how many of these numbers were rounded. */
export function fromFloats(points, power) {
    _checkIterable(points, "an iterable of pairs");
    let rounded = 0;
    const coordinates = Float64Array.from(Array.from(points, ([x, y]) => [x, y]).flat(), (value) => {
        const { coordinate, isRounded } = fromFloat(value, power);
        rounded += isRounded;
        return coordinate;
    });
    return { coordinates, rounded };
}

/** Returns the double of a coordinate: coordinate / 2^power. */
export function toFloat(coordinate, power) {
    checkPower(power);
    return scaled(coordinate, -power);
}

/** Returns the power of two of a finite double other than 0: 2^it is at most its size, and twice that is more. */
export function exponentOf(value) {
    word.setFloat64(0, value);
    const exponent = (word.getUint16(0) >> 4) & 2047;
    return exponent === 0 ? exponentOf(value * 2 ** 60) - 60 : exponent - 1023;
}

/** Scales a direction in doubles to integers by a power of two: exactly if both fit, else to the nearest. For (0, 0) it returns [0,
 * 0]. */
export function directionOf(dx, dy) {
    const greatest = Math.max(Math.abs(dx), Math.abs(dy));
    if (greatest === 0) return [0, 0];
    if (!Number.isFinite(greatest)) throw new OutOfRange(`(${dx}, ${dy}) is no direction`);
    const power = 39 - exponentOf(greatest);
    return [dx, dy].map((it) => fromFloat(it, power).coordinate);
}

/** Returns coordinate / 2^power as text. */
function textOf(coordinate, power) {
    const value = typeof coordinate === "number" ? toFloat(coordinate, power) : NaN;
    if (!Number.isFinite(value)) throw new OutOfRange(`${typeof coordinate} ${String(coordinate)} / 2^${String(power)} is no number of a text`);
    return String(value);
}

/** Returns vertices as well-known text (OGC 06-103r4), their coordinates divided by 2^power: a polygon's ring is closed and runs
 * counterclockwise. Throws OutOfRange for what is no pair of numbers, and what is too great for a double. */
export function wkt(vertices, power = 0) {
    _checkIterable(vertices, "an iterable of vertices");
    const texts = Array.from(vertices, (vertex) => {
        if (vertex?.length !== 2) throw new OutOfRange("a vertex is a pair of coordinates");
        return Array.from(vertex, (it) => textOf(it, power)).join(" ");
    });
    if (texts.length === 0) return "POLYGON EMPTY";
    if (texts.length === 1) return `POINT (${texts[0]})`;
    return texts.length === 2 ? `LINESTRING (${texts.join(", ")})` : `POLYGON ((${[...texts, texts[0]].join(", ")}))`;
}
