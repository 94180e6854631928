// The hull for pages and Node: hull.wasm, whose calls are proved; it takes numbers and returns values. Its types are in hull.d.ts.
import { Heap } from "./heap.js";

export const COORDINATE_LIMIT = 2 ** 40;
export const POINT_LIMIT = 2 ** 20;
export const MULTIPLICITY_LIMIT = 65535;

export class HullError extends Error {
    get name() {
        return this.constructor.name;
    }
}
export class OutOfRange extends HullError {}
export class ZeroDirection extends HullError {}
export class TooMany extends HullError {}
export class NoMemory extends HullError {}
export class Ended extends HullError {}
export class NoPoints extends HullError {}
export class NoPolygon extends HullError {}
export class Trapped extends HullError {}
export class Unsupported extends HullError {}

const KIND = {
    // written by tools/table.py: kinds
    add: 1, remove: 2, place: 3, tangents: 4, extreme: 5, vertices: 6, area: 7, count: 8, multiplicity: 9,
    // end of what tools/table.py writes
};
const CODE = {
    // written by tools/table.py: codes
    ok: 0, outOfRange: 1, zeroDirection: 2, added: 3, again: 4, tooMany: 5, noMemory: 6, removed: 7, left: 8, absent: 9, point: 10,
    empty: 11, inside: 12, on: 13, outside: 14, tangents: 15, noTangent: 16, number: 17, vertices: 18, tooSmall: 19, cleared: 20,
    outOfOrder: 21, unknownKind: 22, intersecting: 23, disjoint: 24, covered: 25, vertex: 26, edge: 27, box: 28, within: 29, crossing: 30,
    points: 31,
    // end of what tools/table.py writes
};
const FAULTS = {
    [CODE.outOfRange]: () => new OutOfRange("a coordinate is out of range"),
    [CODE.zeroDirection]: () => new ZeroDirection("both components of the direction are 0"),
    [CODE.tooMany]: () => new TooMany("the hull takes no more points, or this one no more often"),
    [CODE.noMemory]: () => new NoMemory("the heap has no space for it"),
    [CODE.outOfOrder]: () => new NoPoints("the points are not in order, each once"),
};
const PLACES = { [CODE.inside]: "inside", [CODE.on]: "on", [CODE.outside]: "outside" };
// the structs of hull.h: their sizes, and the offsets of their fields, in bytes
// written by tools/table.py: structs
const REPLY = { size: 56, code: 0, x: 8, y: 16, otherX: 24, otherY: 32, number: 40, high: 48 };
const POINT = { size: 16, x: 0, y: 8 };
const HELD = { size: 24, x: 0, y: 8, multiplicity: 16 };
const REQUEST = { size: 24, kind: 0, x: 8, y: 16 };
const BRIDGE = { size: 72, level: 0, upperLeft: 8, upperRight: 24, lowerLeft: 40, lowerRight: 56 };
const WITNESS = { size: 72, code: 0, a: 8, b: 24, c: 40, d: 56 };
const DISTANCE_BOUNDS = { size: 64, code: 0, shift: 4, lower: 8, upper: 16, high: 24, middle: 32, low: 40, divisorHigh: 48,
                         divisorLow: 56 };
const HIT = { size: 72, code: 0, a: 8, b: 24, high: 40, low: 48, divisorHigh: 56, divisorLow: 64 };
// end of what tools/table.py writes
// the kinds of witnesses, each with how many of its points belong to it
const SHOWN = {
    [CODE.disjoint]: ["disjoint", 2], [CODE.covered]: ["covered", 1], [CODE.within]: ["within", 1], [CODE.crossing]: ["crossing", 4],
};
// the relations of two convex polygons, by their numbers
const RELATIONS = [
    // written by tools/table.py: relations
    "disjoint", "touching", "overlapping", "within", "covers", "equal",
    // end of what tools/table.py writes
];
// how many points are a feature of a polygon; and of a distance, one of this and one of the other
const FEATURE = { [CODE.covered]: 0, [CODE.vertex]: 1, [CODE.edge]: 2 };
const FEATURES = { [CODE.points]: [1, 1], [CODE.vertex]: [1, 2], [CODE.edge]: [2, 1] };
const REQUESTS_AT_ONCE = 1024;
const HALF = 2 ** 32;

const disposal = Symbol.dispose ?? Symbol.for("Symbol.dispose");

function checked(value) {
    if (!(Number.isInteger(value) && Math.abs(value) <= COORDINATE_LIMIT)) {
        throw new OutOfRange(`a coordinate is a whole Number from -2^40 to 2^40, and not ${typeof value} ${String(value)}`);
    }
    return value;
}

/** Returns the coordinates of pairs, or of an array that has the two of each point next to one another; all of them checked. */
function flat(points) {
    const numbers = numbersOf(points);
    if (numbers.length % 2 !== 0) throw new OutOfRange("a point has two coordinates, and the array an odd number of them");
    for (const value of numbers) checked(value);
    return numbers instanceof Float64Array ? numbers : new Float64Array(numbers);
}

/** Returns an integer of the module. */
const whole = (value) => BigInt(checked(value));

/** Throws NoPoints unless the values are an iterable that is no text; no part of what the package offers. */
export function _checkIterable(values, wanted) {
    if (typeof values?.[Symbol.iterator] !== "function" || typeof values === "string") throw new NoPoints(`${wanted} was wanted`);
}

/** Returns a copy of an array's numbers, which no other code writes during a call. */
function numbersOf(points) {
    _checkIterable(points, "an iterable of pairs, or an array of numbers,");
    if (points instanceof Float64Array) return points.slice();
    if (points instanceof BigInt64Array || points instanceof BigUint64Array) return Float64Array.from(points, Number);
    if (ArrayBuffer.isView(points)) return Float64Array.from(points);
    const numbers = [];
    for (const point of points) numbers.push(...pairOf(point));
    return numbers;
}

function pairOf(point) {
    if (point?.length !== 2) throw new OutOfRange("a point is a pair of coordinates");
    return [point[0], point[1]];
}

/** Writes an integer in two halves: quicker than a BigInt. */
function writeWhole(view, at, value) {
    view.setInt32(at, value | 0, true);
    view.setInt32(at + 4, Math.floor(value / HALF), true);
}

function readWhole(view, at) {
    return view.getInt32(at + 4, true) * HALF + view.getUint32(at, true);
}

/** One instance of the module, its heap, and the storage that all calls share. */
class Instance {
    #cause = null;

    constructor(exports, heap) {
        this.wasm = exports;
        this.heap = heap;
        this.requests = this.take(REQUESTS_AT_ONCE * REQUEST.size);
        // (its front is also for the result of a single call, whatever struct that is)
        this.reply = this.take(REQUESTS_AT_ONCE * REPLY.size);
        this.requestsAt = BigInt(this.requests);
        this.replyAt = BigInt(this.reply);
        this.out = { at: this.take(BRIDGE.size), bytes: BRIDGE.size };
    }

    /** Calls an export. A trap ends the instance: its memory must not be used again. */
    call(name, ...words) {
        if (this.#cause !== null) this.#stopped(name);
        try {
            return this.wasm[name](...words);
        } catch (error) {
            this.#stopped(name, error);
        }
    }

    #stopped(name, cause = this.#cause) {
        this.#cause = cause;
        throw new Trapped(`the module stopped in ${name}, or before, and serves no call any more: load it anew`, { cause });
    }

    /** Writes a request to the storage of requests. */
    request(at, kind, x, y) {
        const { view } = this.heap;
        view.setInt32(at, kind, true);
        writeWhole(view, at + REQUEST.x, x);
        writeWhole(view, at + REQUEST.y, y);
    }

    /** Returns the code of the last reply; throws a fault. */
    code() {
        const code = this.heap.view.getInt32(this.reply, true), fault = FAULTS[code];
        if (fault !== undefined) throw fault();
        return code;
    }

    /** Frees memory, which is not necessary after a trap. */
    end(name, ...words) {
        if (this.#cause === null) this.call(name, ...words);
    }

    /** Makes a call that replies, and returns its code; throws a fault. */
    ask(name, ...words) {
        this.call(name, this.replyAt, ...words);
        return this.code();
    }

    take(bytes) {
        const at = this.heap.take(bytes);
        if (at === 0) throw FAULTS[CODE.noMemory]();
        return at;
    }

    /** Returns the array that calls write to, with at least so many bytes. */
    outOf(bytes) {
        if (bytes > this.out.bytes) {
            const at = this.take(2 * bytes);
            this.heap.give(this.out.at);
            this.out = { at, bytes: 2 * bytes };
        }
        return this.out.at;
    }

    /** Makes a call that writes to an array, with space for all that it writes; returns how many elements it wrote. */
    filled(size, name, ...words) {
        for (;;) {
            const { at, bytes } = this.out;
            const code = this.ask(name, ...words, BigInt(at), BigInt(Math.floor(bytes / size)));
            const count = this.number();
            if (code !== CODE.tooSmall) return count;
            this.outOf(count * size);
        }
    }

    point(at) {
        const { view } = this.heap;
        return [readWhole(view, at), readWhole(view, at + POINT.y)];
    }

    /** Returns the two points of the last reply. */
    pair() {
        return [this.point(this.reply + REPLY.x), this.point(this.reply + REPLY.otherX)];
    }

    /** Returns the first points of the last result, one after the other. */
    pointsOf(count) {
        return Array.from({ length: count }, (_, i) => this.point(this.reply + WITNESS.a + i * POINT.size));
    }

    /** Returns the integer of so many words of the last result, the highest first. */
    words(from, count) {
        const { view } = this.heap, words = Array.from({ length: count }, (_, i) => view.getBigUint64(this.reply + from + 8 * i, true));
        return words.reduce((above, word) => (above << 64n) + word, 0n);
    }

    /** Returns the Number of a bound of a distance. */
    bound(offset) {
        return this.whole(offset) / 2 ** this.heap.view.getUint32(this.reply + DISTANCE_BOUNDS.shift, true);
    }

    whole(offset) {
        return readWhole(this.heap.view, this.reply + offset);
    }

    /** Returns `number` of the last reply. */
    number() {
        return this.whole(REPLY.number);
    }

    /** Returns `number` and `high` of the last reply. */
    wide() {
        const { view } = this.heap;
        return (view.getBigUint64(this.reply + REPLY.high, true) << 64n) + view.getBigUint64(this.reply + REPLY.number, true);
    }

    /** Returns a block with the points in it. */
    stored(coordinates) {
        const at = this.take(Math.max(1, coordinates.length / 2) * POINT.size), { view } = this.heap;
        coordinates.forEach((value, i) => writeWhole(view, at + 8 * i, value));
        return at;
    }

    /** Returns so many points from an address, as [x0, y0, x1, y1, ..]. */
    points(at, count) {
        const { view } = this.heap;
        const coordinates = new Float64Array(2 * count);
        for (let i = 0; i < coordinates.length; i++) coordinates[i] = readWhole(view, at + 8 * i);
        return coordinates;
    }
}

/** Ends an object that has no reference any more and was not freed. */
const forgotten = new FinalizationRegistry((end) => end());

/** The part that a hull and a convex polygon share: the questions, and the end. */
class Questions {
    #instance;
    #end;
    #ended = false;

    constructor(instance, end) {
        this.#instance = instance;
        this.#end = end;
        forgotten.register(this, end, this);
    }

    /** Returns the instance, if this was not freed. */
    _live() {
        if (this.#ended) throw new Ended("it was freed");
        return this.#instance;
    }

    /** Makes one call through the call for many: no number of it passes as a BigInt, which takes longer than a question. */
    _ask(kind, x, y) {
        const instance = this._live();
        instance.request(instance.requests, kind, x, y);
        this._callAll(instance.requestsAt, 1n, instance.replyAt, 1n);
        return instance.code();
    }

    /** Returns what a call with a point, or with nothing, returns, as a value. */
    _answered(answer, kind, x, y) {
        const code = arguments.length > 2 ? this._ask(kind, checked(x), checked(y)) : this._ask(kind, 0, 0);
        return Answers[answer](this.#instance, code);
    }

    // written by tools/table.py: sets
    place(x, y) {
        return this._answered("asPlace", KIND.place, x, y);
    }

    tangents(x, y) {
        return this._answered("asTangents", KIND.tangents, x, y);
    }

    extreme(x, y) {
        return this._answered("asPoint", KIND.extreme, x, y);
    }

    doubledArea() {
        return this._answered("asNumber", KIND.area);
    }
    // end of what tools/table.py writes

    placeAll(points) {
        const places = [];
        this._serve(KIND.place, flat(points), (_, code) => places.push(PLACES[code]));
        return places;
    }

    tangentsAll(points) {
        const found = [];
        this._serve(KIND.tangents, flat(points), (_, code, number, [left, right]) => found.push(code === CODE.tangents ? { left, right } : null));
        return found;
    }

    extremeAll(directions) {
        const coordinates = flat(directions), found = [];
        for (let i = 0; i < coordinates.length; i += 2) {
            if (coordinates[i] === 0 && coordinates[i + 1] === 0) throw FAULTS[CODE.zeroDirection]();
        }
        this._serve(KIND.extreme, coordinates, (_, code, number, [point]) => found.push(code === CODE.point ? point : null));
        return found;
    }

    /** Makes one kind of call at each of the points; passes index, code, number and points of each reply to `read`. */
    _serve(kind, coordinates, read) {
        this._live(); // (also if there are no points)
        const count = coordinates.length / 2;
        for (let from = 0; from < count; from += REQUESTS_AT_ONCE) {
            this.#serveSome(kind, coordinates, from, Math.min(REQUESTS_AT_ONCE, count - from), read);
        }
    }

    #serveSome(kind, coordinates, from, count, read) {
        const instance = this._live(), { requests, requestsAt, reply, replyAt } = instance;
        for (let i = 0; i < count; i++) {
            const at = 2 * (from + i);
            instance.request(requests + i * REQUEST.size, kind, coordinates[at], coordinates[at + 1]);
        }
        this._callAll(requestsAt, BigInt(count), replyAt, BigInt(count));
        const { view } = instance.heap;
        for (let i = 0; i < count; i++) {
            const at = reply + i * REPLY.size;
            const points = kind === KIND.tangents || kind === KIND.extreme ? [instance.point(at + REPLY.x), instance.point(at + REPLY.otherX)] : [];
            read(from + i, view.getUint32(at, true), view.getUint32(at + REPLY.number, true), points);
        }
    }

    vertices() {
        const coordinates = this.vertexArray();
        return Array.from({ length: coordinates.length / 2 }, (_, i) => [coordinates[2 * i], coordinates[2 * i + 1]]);
    }

    free() {
        if (this.#ended) return;
        this.#ended = true;
        forgotten.unregister(this);
        this.#end();
    }

    [disposal]() {
        this.free();
    }
}

class HullOfInstance extends Questions {
    #at;

    constructor(instance, limit) {
        if (!Number.isInteger(limit) || limit < 1 || limit > POINT_LIMIT) {
            throw new OutOfRange(`a limit is a whole Number from 1 to ${POINT_LIMIT}, and not ${String(limit)}`);
        }
        const storage = instance.take(Number(instance.call("hull_size"))), at = BigInt(storage);
        super(instance, () => {
            instance.end("hull_end", at);
            instance.heap.give(storage);
        });
        this.#at = at;
        instance.call("hull_make", limit, at);
    }

    add(x, y) {
        return this._ask(KIND.add, checked(x), checked(y)) === CODE.added ? 1 : this._live().number();
    }

    remove(x, y) {
        return this._ask(KIND.remove, checked(x), checked(y)) === CODE.absent ? null : this._live().number();
    }

    multiplicity(x, y) {
        this._ask(KIND.multiplicity, checked(x), checked(y));
        return this._live().number();
    }

    count() {
        this._ask(KIND.count, 0, 0);
        return this._live().number();
    }

    limit() {
        this._live().ask("hull_limit", this.#at);
        return this._live().number();
    }

    clear() {
        this._live().ask("hull_clear", this.#at);
    }

    load(points) {
        const coordinates = flat(points), instance = this._live(), array = instance.stored(coordinates);
        try {
            instance.ask("hull_load", this.#at, BigInt(array), BigInt(coordinates.length / 2));
        } finally {
            instance.heap.give(array);
        }
        return instance.number();
    }

    vertexArray() {
        const instance = this._live();
        instance.ask("hull_gather", this.#at);
        const count = instance.filled(POINT.size, "hull_vertices", this.#at);
        return instance.points(instance.out.at, count);
    }

    loadHeld(held) {
        _checkIterable(held, "an iterable of points with their multiplicities");
        const rows = Array.from(held, (it) => {
            const multiplicity = it?.multiplicity;
            if (!Number.isInteger(multiplicity) || multiplicity < 1 || multiplicity > MULTIPLICITY_LIMIT) throw new OutOfRange("a multiplicity is from 1 to 65535");
            return [...pairOf(it.point).map(checked), multiplicity];
        });
        const instance = this._live(), array = instance.take(Math.max(1, rows.length) * HELD.size), { view } = instance.heap;
        rows.forEach(([x, y, multiplicity], i) => {
            const at = array + i * HELD.size;
            writeWhole(view, at, x);
            writeWhole(view, at + HELD.y, y);
            view.setUint32(at + HELD.multiplicity, multiplicity, true);
        });
        try {
            instance.ask("hull_load_held", this.#at, BigInt(array), BigInt(rows.length));
        } finally {
            instance.heap.give(array);
        }
        return rows.length;
    }

    held() {
        const instance = this._live(), least = BigInt(-COORDINATE_LIMIT), capacity = this.count();
        const at = instance.outOf(capacity * HELD.size);
        instance.ask("hull_held_from", this.#at, least, least, BigInt(at), BigInt(capacity));
        return Array.from({ length: instance.number() }, (_, i) => {
            const here = at + i * HELD.size;
            return { point: instance.point(here), multiplicity: instance.heap.view.getUint32(here + HELD.multiplicity, true) };
        });
    }

    bridges(level) {
        if (!Number.isInteger(level) || level < 0 || level >= HALF) throw new OutOfRange("a level is a whole Number from 0 to 2^32 - 1");
        const instance = this._live(), count = instance.filled(BRIDGE.size, "hull_bridges", this.#at, level);
        return Array.from({ length: count }, (_, i) => {
            const at = instance.out.at + i * BRIDGE.size;
            const ends = (from) => [instance.point(at + from), instance.point(at + from + POINT.size)];
            return { upper: ends(BRIDGE.upperLeft), lower: ends(BRIDGE.lowerLeft) };
        });
    }

    addAll(points) {
        const coordinates = flat(points), times = new Uint32Array(coordinates.length / 2), refused = [CODE.tooMany, CODE.noMemory];
        this._serve(KIND.add, coordinates, (i, code, number) => {
            times[i] = code === CODE.added ? 1 : refused.includes(code) ? 0 : number;
        });
        return times;
    }

    removeAll(points) {
        let there = 0;
        this._serve(KIND.remove, flat(points), (_, code) => (there += code === CODE.absent ? 0 : 1));
        return there;
    }

    /** Returns, for many.js, the instance and the address. */
    _hullWords() {
        return { instance: this._live(), words: [this.#at] };
    }

    _callAll(requests, count, replies, capacity) {
        this._live().call("hull_calls", this.#at, requests, count, replies, capacity);
    }
}

class GrowingHullOfInstance extends Questions {
    #at;

    constructor(instance) {
        const storage = instance.take(Number(instance.call("hull_growing_size"))), at = BigInt(storage);
        super(instance, () => {
            instance.end("hull_growing_end", at);
            instance.heap.give(storage);
        });
        this.#at = at;
        instance.call("hull_growing_make", at);
    }

    add(x, y) {
        return this._answered("asPlace", KIND.add, x, y);
    }

    addAll(points) {
        const places = [];
        this._serve(KIND.add, flat(points), (_, code) => places.push(PLACES[code] ?? null));
        return places;
    }

    vertexArray() {
        const instance = this._live();
        const count = instance.filled(POINT.size, "hull_growing_vertices", this.#at);
        return instance.points(instance.out.at, count);
    }

    _callAll(requests, count, replies, capacity) {
        this._live().call("hull_growing_calls", this.#at, requests, count, replies, capacity);
    }
}

class PolygonOfInstance extends Questions {
    #at;
    #count;
    // the same for the module
    #address;
    #length;

    constructor(instance, vertices) {
        const coordinates = flat(vertices), count = coordinates.length / 2;
        if (count > POINT_LIMIT) throw new TooMany("a polygon has more vertices than a hull may have");
        const storage = instance.stored(coordinates);
        super(instance, () => instance.heap.give(storage));
        [this.#at, this.#count, this.#address, this.#length] = [storage, count, BigInt(storage), BigInt(count)];
        try {
            instance.ask("hull_is_polygon", this.#address, this.#length);
            if (instance.number() !== 1) throw new NoPolygon("the points are not the vertices of a convex polygon in order");
        } catch (error) {
            this.free();
            throw error;
        }
    }

    _callAll(requests, count, replies, capacity) {
        this._live().call("hull_polygon_calls", this.#address, this.#length, requests, count, replies, capacity);
    }

    count() {
        this._live();
        return this.#count;
    }

    vertexArray() {
        return this._live().points(this.#at, this.#count);
    }

    /** Makes a call of this polygon that replies; returns the code. */
    #found(name, ...words) {
        return this._live().ask(name, this.#address, this.#length, ...words);
    }

    /** Returns what a call of this polygon returns, as a value. */
    #asked(answer, name, ...words) {
        const code = this.#found(name, ...words);
        return Answers[answer](this._live(), code);
    }

    /** Returns the address and the length of another polygon, which must be of the same module. */
    #wordsOf(other) {
        if (!(other instanceof PolygonOfInstance) || other._live() !== this._live()) throw new NoPolygon("the other one is no polygon of the same module");
        return [other.#address, other.#length];
    }

    /** Returns, for many.js, the instance, and the address and the length of a polygon, which must be of the same module. */
    _polygonWords(polygon) {
        const words = this.#wordsOf(polygon);
        return { instance: this._live(), words };
    }

    // written by tools/table.py: questions
    intersectsSegment(ax, ay, bx, by) {
        return this.#asked("asWhether", "hull_polygon_intersects_segment", whole(ax), whole(ay), whole(bx), whole(by));
    }

    separationFromSegment(ax, ay, bx, by) {
        return this.#asked("asSeparation", "hull_polygon_separation", whole(ax), whole(ay), whole(bx), whole(by));
    }

    nearest(x, y) {
        return this.#asked("asNearest", "hull_polygon_nearest", whole(x), whole(y));
    }

    boundingBox() {
        return this.#asked("asTwoPoints", "hull_polygon_box");
    }

    widthAlong(dx, dy) {
        return this.#asked("asNumberOrNull", "hull_polygon_width", whole(dx), whole(dy));
    }

    diameter() {
        return this.#asked("asTwoPoints", "hull_polygon_diameter");
    }

    leastWidth() {
        return this.#asked("asStrip", "hull_polygon_least_width");
    }

    intersects(other) {
        return this.#asked("asWhether", "hull_polygon_intersects", ...this.#wordsOf(other));
    }

    contains(other) {
        return this.#asked("asWhether", "hull_polygon_contains", ...this.#wordsOf(other));
    }

    containsInside(other) {
        return this.#asked("asWhether", "hull_polygon_contains_inside", ...this.#wordsOf(other));
    }

    relation(other) {
        return this.#asked("asRelation", "hull_polygon_relation", ...this.#wordsOf(other));
    }

    withinDistance(other, numerator, denominator = 1) {
        return this.#asked("asWhether", "hull_polygon_within_distance", ...this.#wordsOf(other), ...lengthOf(numerator, denominator));
    }

    witness(other) {
        return this.#asked("asWitness", "hull_polygon_witness", ...this.#wordsOf(other));
    }

    distance(other) {
        return this.#asked("asDistance", "hull_polygon_distance", ...this.#wordsOf(other));
    }

    distanceBounds(other) {
        return this.#asked("asBounds", "hull_polygon_distance_bounds", ...this.#wordsOf(other));
    }

    squaredDistance(other) {
        return this.#asked("asSquared", "hull_polygon_distance_bounds", ...this.#wordsOf(other));
    }

    distanceBoundsToSegment(ax, ay, bx, by) {
        return this.#asked("asBounds", "hull_polygon_distance_bounds_to_segment", whole(ax), whole(ay), whole(bx), whole(by));
    }

    distanceBoundsToPoint(x, y) {
        return this.#asked("asBounds", "hull_polygon_distance_bounds_to_segment", whole(x), whole(y), whole(x), whole(y));
    }

    squaredDistanceToSegment(ax, ay, bx, by) {
        return this.#asked("asSquared", "hull_polygon_distance_bounds_to_segment", whole(ax), whole(ay), whole(bx), whole(by));
    }

    squaredDistanceToPoint(x, y) {
        return this.#asked("asSquared", "hull_polygon_distance_bounds_to_segment", whole(x), whole(y), whole(x), whole(y));
    }

    withinDistanceOfSegment(ax, ay, bx, by, numerator, denominator = 1) {
        return this.#asked("asWhether", "hull_polygon_within_distance_of_segment", whole(ax), whole(ay), whole(bx), whole(by),
                           ...lengthOf(numerator, denominator));
    }

    withinDistanceOfPoint(x, y, numerator, denominator = 1) {
        return this.#asked("asWhether", "hull_polygon_within_distance_of_segment", whole(x), whole(y), whole(x), whole(y),
                           ...lengthOf(numerator, denominator));
    }

    relationToSegment(ax, ay, bx, by) {
        return this.#asked("asRelation", "hull_polygon_relation_to_segment", whole(ax), whole(ay), whole(bx), whole(by));
    }

    raycast(x, y, dx, dy) {
        return this.#asked("asHit", "hull_polygon_raycast", whole(x), whole(y), whole(dx), whole(dy));
    }

    raycastExit(x, y, dx, dy) {
        return this.#asked("asHit", "hull_polygon_raycast_exit", whole(x), whole(y), whole(dx), whole(dy));
    }

    raycastSegment(ax, ay, bx, by) {
        return this.#asked("asHit", "hull_polygon_raycast_segment", whole(ax), whole(ay), whole(bx), whole(by));
    }
    // end of what tools/table.py writes
}

/** Returns the two numbers of a length, as the module takes them. */
function lengthOf(numerator, denominator) {
    const isWhole = (value) => Number.isSafeInteger(value) && value >= 0;
    if (!isWhole(numerator) || !isWhole(denominator) || denominator < 1 || denominator >= HALF) {
        throw new OutOfRange("a length is a whole Number from 0 on by one from 1 to 2^32 - 1");
    }
    return [BigInt(numerator), denominator];
}

/** Returns what `make` makes, or null if there is nothing. */
const unless = (code, make) => (code === CODE.empty ? null : make());

/** What is made of the result of a call, by what is in the instance and its code. */
class Answers {
    static asPlace(it, code) {
        return PLACES[code];
    }

    static asNumber(it) {
        return it.wide();
    }

    static asNumberOrNull(it, code) {
        return unless(code, () => it.wide());
    }

    static asPoint(it, code) {
        return unless(code, () => it.point(it.reply + REPLY.x));
    }

    static asTwoPoints(it, code) {
        return unless(code, () => it.pair());
    }

    static asTangents(it, code) {
        const [left, right] = it.pair();
        return code === CODE.tangents ? { left, right } : null;
    }

    static asWhether(it) {
        return it.number() === 1;
    }

    static asRelation(it) {
        return RELATIONS[it.number()];
    }

    static asSeparation(it, code) {
        const [vertex, direction] = it.pair();
        return code === CODE.disjoint ? { vertex, direction } : null;
    }

    static asNearest(it, code) {
        return unless(code, () => it.pair().slice(0, FEATURE[code]));
    }

    static asStrip(it, code) {
        return unless(code, () => it.pointsOf(3));
    }

    static asWitness(it, code) {
        return unless(code, () => ({ shows: SHOWN[code][0], points: it.pointsOf(SHOWN[code][1]) }));
    }

    static asDistance(it, code) {
        const [ours, theirs] = FEATURES[code] ?? [0, 0], points = it.pointsOf(ours + theirs);
        return unless(code, () => [points.slice(0, ours), points.slice(ours)]);
    }

    static asBounds(it, code) {
        return unless(code, () => [it.bound(DISTANCE_BOUNDS.lower), it.bound(DISTANCE_BOUNDS.upper)]);
    }

    static asSquared(it, code) {
        return unless(code, () => ({ numerator: it.words(DISTANCE_BOUNDS.high, 3), denominator: it.words(DISTANCE_BOUNDS.divisorHigh, 2) }));
    }

    static asHit(it, code) {
        if (!(code in FEATURE)) return null;
        return { part: { numerator: it.words(HIT.high, 2), denominator: it.words(HIT.divisorHigh, 2) }, points: it.pointsOf(FEATURE[code]) };
    }
}

/** How many.js reads results; no part of what the package offers. */
export const _results = { Answers, RELATIONS, POINT, HIT };

/** Whether the engine has 64-bit memories, tested by a module with nothing else. */
const HAS_WIDE_MEMORY = globalThis.WebAssembly?.validate(new Uint8Array([0, 97, 115, 109, 1, 0, 0, 0, 5, 3, 1, 4, 1]));

/** Returns where the module is: as it was proved, or, for engines with only 32-bit memories, as it was lowered. */
function moduleBeside() {
    try {
        return HAS_WIDE_MEMORY ? new URL("./out/hull.wasm", import.meta.url) : new URL("./out/hull32.wasm", import.meta.url);
    } catch (error) {
        throw new Unsupported("the location of hull.wasm is not known, as in a bundle of CommonJS: pass load its bytes or its URL", { cause: error });
    }
}

/** Returns the bytes of the source that `load` is passed. Node's fetch reads no files. */
async function bytesOf(source) {
    const given = await source;
    if (given instanceof ArrayBuffer || ArrayBuffer.isView(given)) return given;
    if (typeof Response !== "undefined" && given instanceof Response) return given.arrayBuffer();
    const url = given instanceof URL ? given : new URL(given, import.meta.url);
    if (url.protocol === "file:" && globalThis.process?.versions?.node) {
        const files = "node:fs/promises"; // (a name that no bundler looks for)
        return (await import(files)).readFile(url);
    }
    const response = await fetch(url);
    if (!response.ok) throw new Unsupported(`${url} was not found: ${response.status}`);
    return response.arrayBuffer();
}

/** Returns those bytes; throws a fault with the reason if it can't. */
async function bytesOrFault(source) {
    try {
        return await bytesOf(source);
    } catch (error) {
        throw error instanceof HullError ? error : new Unsupported(`the module can't be read: ${error.message}`, { cause: error });
    }
}

/** Loads the module: from its bytes, a URL, or a Response (or a promise of one), or else from out/ beside this file, hull.wasm or, if
 * the engine has no 64-bit memories, hull32.wasm. At most `memory` bytes of its memory are used, if that is given. */
export async function load(source = moduleBeside(), { memory = Infinity } = {}) {
    if (!globalThis.WebAssembly) throw new Unsupported("this engine has no WebAssembly");
    if (typeof memory !== "number" || !(memory > 0)) throw new OutOfRange("memory is a number of bytes above 0");
    const bytes = await bytesOrFault(source), heap = new Heap(memory);
    let wasm;
    try {
        wasm = (await WebAssembly.instantiate(bytes, { heap: heap.imports() })).instance.exports;
    } catch (error) {
        throw new Unsupported(`this engine can't load these bytes as the module: ${error.message}`, { cause: error });
    }
    if (!wasm.memory || !wasm.__heap_base || !wasm.hull_calls) throw new Unsupported("these bytes are another module");
    heap.begin(wasm.memory, Number(wasm.__heap_base.value));
    return classesOf(new Instance(wasm, heap));
}

function classesOf(instance) {
    class Polygon extends PolygonOfInstance {
        constructor(vertices) {
            super(instance, vertices);
        }

        static of(points) {
            const coordinates = flat(points), array = instance.stored(coordinates);
            try {
                const count = instance.filled(POINT.size, "hull_polygon_of", BigInt(array), BigInt(coordinates.length / 2));
                return new Polygon(instance.points(instance.out.at, count));
            } finally {
                instance.heap.give(array);
            }
        }
    }
    class Hull extends HullOfInstance {
        constructor(limit = POINT_LIMIT) {
            super(instance, limit);
        }

        polygon() {
            return new Polygon(this.vertexArray());
        }

        copy() {
            const other = new Hull(this.limit());
            try {
                other.loadHeld(this.held());
            } catch (error) {
                other.free();
                throw error;
            }
            return other;
        }
    }
    class GrowingHull extends GrowingHullOfInstance {
        constructor() {
            super(instance);
        }

        polygon() {
            return new Polygon(this.vertexArray());
        }
    }
    return { Hull, GrowingHull, Polygon };
}
