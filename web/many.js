// Many convex polygons at once, and polygons that move: each function makes one call of the module, whose answers are proved.
import { COORDINATE_LIMIT, OutOfRange, _checkIterable, _results } from "./hull.js";

const { Answers, RELATIONS, POINT, HIT } = _results;
// structs of hull.h, in bytes: what follows the hit of a hull_motion, the size of a hull_pair, and of an index
const MOTION = { vertex: HIT.size, moves: HIT.size + POINT.size };
const PAIR_SIZE = 16;
const INDEX_SIZE = 8;

/** Returns the numbers, each of which must be an integer of at most `limit` in size; else throws OutOfRange. */
function checked(numbers, limit = COORDINATE_LIMIT) {
    for (const value of numbers) {
        if (!(Number.isInteger(value) && Math.abs(value) <= limit)) {
            throw new OutOfRange(`a coordinate is a whole Number from -${limit} to ${limit}, and not ${typeof value} ${String(value)}`);
        }
    }
    return numbers;
}

/** Returns the elements of an iterable; throws NoPoints if it is none. */
function listOf(elements, wanted) {
    _checkIterable(elements, wanted);
    return Array.from(elements);
}

/** Returns the coordinates of the elements of an iterable, so many of each, one after the other. */
function flat(elements, size) {
    const all = [];
    for (const element of listOf(elements, `an iterable of arrays of ${size} coordinates`)) {
        if (element?.length !== size) throw new OutOfRange(`${size} coordinates were wanted, and not ${String(element)}`);
        all.push(...checked(Array.prototype.slice.call(element, 0, size)));
    }
    return all;
}

/** Returns the instance, and the address and the length of a polygon; throws TypeError if it is none. */
function wordsOf(polygon) {
    if (typeof polygon?._polygonWords !== "function") throw new TypeError("a polygon was wanted");
    return polygon._polygonWords(polygon);
}

/** Returns what `ask` returns, which is passed the address of an array of the integers in the module's memory, freed afterwards. */
function withArray(instance, integers, ask) {
    const at = instance.stored(integers);
    try {
        return ask(BigInt(at));
    } finally {
        instance.heap.give(at);
    }
}

/** Returns the address and the length of each of the polygons, which must be of the same module as the one. */
function spansOf(one, polygons) {
    return polygons.flatMap((polygon) => one._polygonWords(polygon).words.map(Number));
}

/** Makes a call of a polygon and an array of `count` elements, which writes a byte for each; returns the bytes. */
function bytesFor(name, { instance, words }, integers, count) {
    return withArray(instance, integers, (at) => {
        const out = instance.outOf(count), length = BigInt(count);
        instance.call(name, ...words, at, length, BigInt(out), length);
        return Array.from({ length: count }, (_, i) => instance.heap.view.getUint8(out + i));
    });
}

/** Returns the relations of the polygon to each of the others, in their order. */
export function relations(polygon, others) {
    const list = listOf(others, "an iterable of polygons");
    const numbers = bytesFor("hull_polygon_relations", wordsOf(polygon), spansOf(polygon, list), list.length);
    return numbers.map((number) => RELATIONS[number]);
}

/** Returns whether the polygon intersects each of the segments [ax, ay, bx, by], in their order. */
export function intersectsSegments(polygon, segments) {
    const ends = flat(segments, 4);
    const numbers = bytesFor("hull_polygon_intersects_segments", wordsOf(polygon), ends, ends.length / 4);
    return numbers.map((number) => number === 1);
}

/** Returns the pairs [i, j], i < j, of polygons whose distance is at most numerator / denominator, exactly; with 0, that have a point
 * in common. */
export function pairsWithinDistance(polygons, numerator = 0, denominator = 1) {
    const isWhole = (value) => Number.isSafeInteger(value) && value >= 0;
    if (!isWhole(numerator) || !isWhole(denominator) || denominator < 1 || denominator >= 2 ** 32) {
        throw new OutOfRange("a length is a whole Number from 0 on by one from 1 to 2^32 - 1");
    }
    const list = listOf(polygons, "an iterable of polygons");
    if (list.length === 0) return []; // (of no module that could be asked)
    const { instance } = wordsOf(list[0]);
    return withArray(instance, spansOf(list[0], list), (at) => {
        const words = [at, BigInt(list.length), BigInt(numerator), denominator];
        const count = instance.filled(PAIR_SIZE, "hull_pairs_within_distance", ...words), pairs = instance.points(instance.out.at, count);
        return Array.from({ length: count }, (_, i) => [pairs[2 * i], pairs[2 * i + 1]]);
    });
}

/** Returns for each vertex the index of the first of the points that is equal to it; -1 if none is. */
export function indices(polygon, points) {
    const coordinates = flat(points, 2), among = coordinates.length / 2;
    const { instance, words } = wordsOf(polygon), length = polygon.count();
    return withArray(instance, coordinates, (at) => {
        const out = instance.outOf(length * INDEX_SIZE);
        instance.call("hull_polygon_indices", ...words, at, BigInt(among), BigInt(out), BigInt(length));
        const found = Array.from({ length }, (_, i) => Number(instance.heap.view.getBigUint64(out + i * INDEX_SIZE, true)));
        return found.map((index) => (index < among ? index : -1));
    });
}

/** Returns when a polygon that moves straight by (dx, dy) first intersects one that does not move; null if they never do. */
export function firstMeeting(standing, moving, dx, dy) {
    checked([dx, dy]);
    const { instance, words } = wordsOf(standing), others = standing._polygonWords(moving).words;
    const code = instance.ask("hull_polygon_first_meeting", ...words, ...others, BigInt(dx), BigInt(dy)), hit = Answers.asHit(instance, code);
    if (!hit) return null;
    const isBefore = hit.points.length === 0, at = instance.reply;
    const moves = instance.heap.view.getUint32(at + MOTION.moves, true) === 1;
    return { ...hit, vertex: isBefore ? null : instance.point(at + MOTION.vertex), moves };
}

/** Returns the vertices that a call of a polygon and two integers writes, one for each of its own. */
function moved(name, polygon, a, b) {
    const { instance, words } = wordsOf(polygon), count = polygon.count(), out = instance.outOf(count * POINT.size);
    instance.ask(name, ...words, BigInt(a), BigInt(b), BigInt(out), BigInt(count));
    return Array.from({ length: count }, (_, i) => instance.point(out + i * POINT.size));
}

/** Returns the vertices of the polygon translated by (dx, dy), of which another one can be made. Throws OutOfRange. */
export function translate(polygon, dx, dy) {
    checked([dx, dy], 2 * COORDINATE_LIMIT);
    return moved("hull_polygon_translate", polygon, dx, dy);
}

/** Returns the vertices of the polygon rotated about (0, 0) by the angle of (a, b), and scaled by its length. Throws OutOfRange,
 * ZeroDirection. */
export function rotate(polygon, a, b) {
    checked([a, b]);
    return moved("hull_polygon_rotate", polygon, a, b);
}

/** Returns the point of the set that is nearest to (x, y), of several the first by x and then y, and the square of its distance; null
 * if the set is empty. */
export function nearestHeld(hull, x, y) {
    checked([x, y]);
    if (typeof hull?._hullWords !== "function") throw new TypeError("a Hull was wanted");
    const { instance, words } = hull._hullWords();
    const point = Answers.asPoint(instance, instance.ask("hull_nearest_held", ...words, BigInt(x), BigInt(y)));
    return point && { point, squared: instance.wide() };
}
