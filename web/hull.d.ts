// The types of hull.js: an exact convex hull of points with integer coordinates, over verified code.

/** The greatest size of a coordinate, of a point and of a direction: 2^40. */
export const COORDINATE_LIMIT: number;
/** The greatest limit of a hull: 2^20 different points. */
export const POINT_LIMIT: number;
/** The greatest multiplicity of a point. */
export const MULTIPLICITY_LIMIT: number;

/** The errors of calls. The hull is as it was. */
export class HullError extends Error {}
/** A coordinate is not an integer Number from -2^40 to 2^40, or a limit not one from 1 to 2^20. */
export class OutOfRange extends HullError {}
/** Both components of a direction are 0. */
export class ZeroDirection extends HullError {}
/** The point is new and there are as many as the limit, or its multiplicity is the greatest. */
export class TooMany extends HullError {}
/** The heap has no block of the size that is needed; the call may be made again. */
export class NoMemory extends HullError {}
/** The hull or polygon was freed. */
export class Ended extends HullError {}
/** What was passed as points is no iterable of pairs, and no array of numbers; or as polygons, segments or vertices, no iterable. */
export class NoPoints extends HullError {}
/** The points are not a convex polygon, or another polygon is not of the same module. */
export class NoPolygon extends HullError {}
/** The module stopped in the middle of a call: it and all its hulls fail from then on. */
export class Trapped extends HullError {}
/** The module can't be loaded: the engine can't run it, the bytes are not the module, or they can't be read. */
export class Unsupported extends HullError {}

/** A point: x and y. */
export type Point = [x: number, y: number];
/** Many points: pairs, or an array with the coordinates of each point as neighbours. */
export type Points =
    | Iterable<readonly number[]>
    | Float64Array | Float32Array | Int32Array | Uint32Array | Int16Array | Uint16Array | Int8Array | Uint8Array | Uint8ClampedArray
    | BigInt64Array | BigUint64Array;
/** The location of a point. A hull that is a point or a segment has no inside: all of it is "on". */
export type Place = "inside" | "on" | "outside";
/** No point is left of the line from the point asked about through `left`, nor right of the one through `right`. */
export interface Tangents {
    left: Point;
    right: Point;
}

/** A point and its multiplicity. */
export interface Held {
    point: Point;
    multiplicity: number;
}
/** What a fork of the tree stores: the bridges of its two halves, each by its left and its right end. */
export interface Bridges {
    upper: [Point, Point];
    lower: [Point, Point];
}

/** The questions of a hull and of a polygon: each call may throw OutOfRange and Ended. */
export interface Questions {
    // written by tools/table.py: sets
    /** Returns the location of (x, y). */
    place(x: number, y: number): Place;
    /** Returns the left and the right tangent point seen from (x, y), of several on one line the farthest; null if there is no point, or
     * the hull covers the one asked about. */
    tangents(x: number, y: number): Tangents | null;
    /** Returns the farthest point in a direction, of several the first by x and then y; null if there is none. ZeroDirection. */
    extreme(x: number, y: number): Point | null;
    /** Returns twice the area, 0 for a point and a segment. */
    doubledArea(): bigint;
    // end of what tools/table.py writes
    /** Returns the location of each of the points. */
    placeAll(points: Points): Place[];
    /** Returns the tangent points seen from each of the points. */
    tangentsAll(points: Points): (Tangents | null)[];
    /** Returns the first of the farthest points in each of the directions; null if there is no point. ZeroDirection. */
    extremeAll(directions: Points): (Point | null)[];
    /** Returns the vertices, counterclockwise from the first by x and then y, none inside an edge. NoMemory. */
    vertices(): Point[];
    /** The same as [x0, y0, x1, y1, ..]. */
    vertexArray(): Float64Array;
    /** Frees all its memory; every call fails afterwards. What nothing refers to any more is freed sooner or later. */
    free(): void;
}

/** A set of points, each with a multiplicity. Questions are about their convex hull. */
export interface Hull extends Questions {
    /** Adds the point; returns its multiplicity now, 1 if it is new. TooMany, NoMemory. */
    add(x: number, y: number): number;
    /** Removes the point once; returns the multiplicity that is left, or null if it was not there. */
    remove(x: number, y: number): number | null;
    /** Adds each of the points in order; returns for each its multiplicity then, 0 if it failed. */
    addAll(points: Points): Uint32Array;
    /** Removes each of the points once, in order; returns how many of them were there. */
    removeAll(points: Points): number;
    /** Returns the multiplicity of the point, 0 if it is not there. */
    multiplicity(x: number, y: number): number;
    /** Returns how many different points there are. */
    count(): number;
    /** Returns how many different points the hull may have. */
    limit(): number;
    /** Replaces all points by these, with their multiplicities; returns how many different ones there are. TooMany, NoMemory. */
    load(points: Points): number;
    /** Returns the points, in order by x and then y, each with its multiplicity. NoMemory. */
    held(): Held[];
    /** Replaces all points by these, as `held` returns them; returns how many. NoPoints if they are not in order. */
    loadHeld(held: Iterable<Held>): number;
    /** Returns another hull with the same points. NoMemory. */
    copy(): Hull;
    /** Returns the bridges that the forks on a level of the tree store, from left to right; the root is level 0. NoMemory. */
    bridges(level: number): Bridges[];
    /** Removes all points; the limit stays. */
    clear(): void;
    /** Returns the convex polygon of the hull now. NoMemory. */
    polygon(): Polygon;
}

/** The hull of points that are only added: it keeps only its vertices, so nothing can be removed from it, and multiplicities are not kept. */
export interface GrowingHull extends Questions {
    /** Adds the point; returns its place before: the hull has grown if it was "outside", and is unchanged else. TooMany, NoMemory. */
    add(x: number, y: number): Place;
    /** Adds each of the points in order; returns for each its place before it, null if it failed. */
    addAll(points: Points): (Place | null)[];
    /** Returns the convex polygon of the hull now. NoMemory. */
    polygon(): Polygon;
}

/** A convex polygon: the vertices of a hull, which answers as that hull did then. */
export interface Polygon extends Questions {
    /** Returns how many vertices there are. */
    count(): number;
    // written by tools/table.py: questions
    /** Returns whether the polygon intersects the segment from (ax, ay) to (bx, by), which may be one point. Ends and boundary are
     * included. */
    intersectsSegment(ax: number, ay: number, bx: number, by: number): boolean;
    /** Returns a vertex and a direction that separate the polygon from the segment from (ax, ay) to (bx, by): no vertex has a greater
     * product with the direction, and both ends have; null if they intersect, or there is no vertex. */
    separationFromSegment(ax: number, ay: number, bx: number, by: number): { vertex: Point; direction: Point } | null;
    /** Returns the point of the polygon that is nearest to (x, y); null if there is no vertex. Of one point it is that vertex; of two, the
     * foot on the edge between them; of none the polygon covers the one asked about. */
    nearest(x: number, y: number): Point[] | null;
    /** Returns the least and the greatest point of the bounding box; null if there is no vertex. */
    boundingBox(): [least: Point, greatest: Point] | null;
    /** Returns the extent of the polygon in a direction: the greatest product of a vertex with it less the least; null if there is no
     * vertex. Divide it by the length of the direction for the width along it. ZeroDirection. */
    widthAlong(dx: number, dy: number): bigint | null;
    /** Returns the two vertices that are farthest from one another, equal if there is only one; null if there is no vertex. */
    diameter(): [Point, Point] | null;
    /** Returns the ends of an edge and a vertex farthest from it between which the polygon is least wide: no direction has a narrower
     * strip; null if there are fewer than two vertices. */
    leastWidth(): [Point, Point, Point] | null;
    /** Returns whether the two polygons intersect, boundaries included. */
    intersects(other: Polygon): boolean;
    /** Returns whether this polygon contains the other one, boundaries included. */
    contains(other: Polygon): boolean;
    /** Returns whether this polygon contains the other one with no point of it on the boundary. */
    containsInside(other: Polygon): boolean;
    /** Returns how this polygon is related to the other one. A polygon without vertices is within any other. */
    relation(other: Polygon): Relation;
    /** Returns whether their distance is at most numerator / denominator, exactly; false if one of them has no vertex. OutOfRange if the
     * numerator is not an integer Number from 0 to 2^53 - 1, or the denominator not one from 1 to 2^32 - 1. */
    withinDistance(other: Polygon, numerator: number, denominator?: number): boolean;
    /** Returns why the two polygons intersect, or what separates them; null if one of them has no vertex. */
    witness(other: Polygon): Witness | null;
    /** Returns the features at which the two polygons are nearest to one another, one of this and one of the other; null if one of them has
     * no vertex. Each as `nearest` returns it; two of none if they intersect. */
    distance(other: Polygon): [ours: Point[], theirs: Point[]] | null;
    /** Returns the distance of the two polygons, 0 if they intersect; null if one of them has no vertex. The result is the greatest Number
     * that is not above it, and the least that is not below it: equal if the distance is a Number, else neighbours. */
    distanceBounds(other: Polygon): [down: number, up: number] | null;
    /** Returns the squared distance of the two polygons, 0 if they intersect; null if one of them has no vertex. */
    squaredDistance(other: Polygon): Fraction | null;
    /** Returns the distance of the polygon from the segment from (ax, ay) to (bx, by), which may be one point; null if there is no vertex.
     * The result is the greatest Number that is not above it, and the least that is not below it: equal if the distance is a Number, else
     * neighbours. */
    distanceBoundsToSegment(ax: number, ay: number, bx: number, by: number): [down: number, up: number] | null;
    /** Returns the distance of the polygon from (x, y); null if there is no vertex. The result is the greatest Number that is not above it,
     * and the least that is not below it: equal if the distance is a Number, else neighbours. */
    distanceBoundsToPoint(x: number, y: number): [down: number, up: number] | null;
    /** Returns the squared distance of the polygon from the segment from (ax, ay) to (bx, by), which may be one point; null if there is no
     * vertex. */
    squaredDistanceToSegment(ax: number, ay: number, bx: number, by: number): Fraction | null;
    /** Returns the squared distance of the polygon from (x, y), 0 if it covers that; null if there is no vertex. */
    squaredDistanceToPoint(x: number, y: number): Fraction | null;
    /** Returns whether the distance of the polygon from the segment from (ax, ay) to (bx, by), which may be one point, is at most numerator
     * / denominator, exactly. OutOfRange if the numerator is not an integer Number from 0 to 2^53 - 1, or the denominator not one from 1 to
     * 2^32 - 1. */
    withinDistanceOfSegment(ax: number, ay: number, bx: number, by: number, numerator: number, denominator?: number): boolean;
    /** Returns whether the distance of the polygon from (x, y) is at most numerator / denominator, exactly. OutOfRange if the numerator is
     * not an integer Number from 0 to 2^53 - 1, or the denominator not one from 1 to 2^32 - 1. */
    withinDistanceOfPoint(x: number, y: number, numerator: number, denominator?: number): boolean;
    /** Returns how the polygon is related to the segment from (ax, ay) to (bx, by), which may be one point: one that it contains gives
     * "covers", also along an edge; one that leaves it "touching" if it has no point inside, and else "overlapping". */
    relationToSegment(ax: number, ay: number, bx: number, by: number): Relation;
    /** Returns the point at which the ray from (x, y) in a direction enters, the first of several that they share; null if it misses.
     * ZeroDirection. */
    raycast(x: number, y: number, dx: number, dy: number): Hit | null;
    /** Returns the last point of the ray from (x, y) in a direction in the polygon; null if it misses. ZeroDirection. */
    raycastExit(x: number, y: number, dx: number, dy: number): Hit | null;
    /** Returns the point at which the segment from (ax, ay) to (bx, by) enters; null if it misses. Its last point in the polygon is the one
     * at which the reversed segment enters. */
    raycastSegment(ax: number, ay: number, bx: number, by: number): Hit | null;
    // end of what tools/table.py writes
}

/** How one polygon is related to another: `within` if the other one covers all of it and more, `covers` the other way, `equal` if each
 * covers the other; else `touching` if they intersect and a line has them on its two sides, `overlapping` if they intersect and none
 * has, `disjoint` if they share no point. */
export type Relation =
    // written by tools/table.py: relations
    | "disjoint" | "touching" | "overlapping" | "within" | "covers" | "equal";
    // end of what tools/table.py writes

/** Why two polygons intersect, or what separates them: `disjoint`, a vertex of the first and a direction; `covered`, a vertex of the
 * second that the first covers; `within`, a vertex of the first that the second covers; `crossing`, two vertices of each whose
 * segments cross. */
export interface Witness {
    shows: "disjoint" | "covered" | "within" | "crossing";
    points: Point[];
}

/** Where a segment or a ray enters: how far along that is, of a segment or in lengths of a ray's direction; and across the edge between
 * two vertices, or at one of these, at one vertex of a polygon on its line, or at its start, which the polygon covers (no points). */
export interface Hit {
    part: Fraction;
    points: Point[];
}

/** An exact number. */
export interface Fraction {
    numerator: bigint;
    denominator: bigint;
}

export interface Library {
    Hull: {
        /** Makes an empty hull for at most `limit` different points, 1 to 2^20 (the default). OutOfRange, NoMemory. */
        new (limit?: number): Hull;
    };
    GrowingHull: {
        /** Makes the hull of no points. NoMemory. */
        new (): GrowingHull;
    };
    Polygon: {
        /** Makes the polygon of vertices as `vertices` returns them. NoPolygon, OutOfRange, NoMemory. */
        new (vertices: Points): Polygon;
        /** Returns the convex polygon of any points, in any order. TooMany, OutOfRange, NoMemory. */
        of(points: Points): Polygon;
    };
}

export {}; // (a file with an export exports only what it marks so)

/** An instance of a class that the platform has under this name; none where its types are not known, as those of DOM in a program for Node. */
type Known<Name extends string> = typeof globalThis extends { [name in Name]: { prototype: infer Instance } } ? Instance : never;

/** What hull.wasm is loaded from: its bytes, its URL (a relative one is taken from hull.js on; in Node also of a file), or
 * a response. */
export type Source = ArrayBuffer | ArrayBufferView | Known<"URL"> | string | Known<"Response"> | Promise<Known<"Response">>;

/** Loads the module, by default from out/hull.wasm beside hull.js; it uses at most `memory` bytes. Unsupported. */
export function load(source?: Source, options?: { memory?: number }): Promise<Library>;
