// The types of many.js: many polygons at once, and polygons that move.
import type { Fraction, Hull, Point, Polygon, Relation } from "./hull.js";

/** Returns how the polygon is related to each of the others, in order. */
export function relations(polygon: Polygon, others: Iterable<Polygon>): Relation[];

/** Returns whether the polygon intersects each of the segments [ax, ay, bx, by], in order. OutOfRange. */
export function intersectsSegments(polygon: Polygon, segments: Iterable<readonly [number, number, number, number]>): boolean[];

/** Returns the pairs [i, j], i < j, of polygons whose distance is at most numerator / denominator, exactly, in order; with 0, of those
 * that intersect. OutOfRange, as `Polygon.withinDistance`. */
export function pairsWithinDistance(polygons: readonly Polygon[], numerator?: number, denominator?: number): [number, number][];

/** Returns for each vertex the index of the first of the points that is equal to it; -1 if none is. OutOfRange. */
export function indices(polygon: Polygon, points: Iterable<readonly number[]>): number[];

/** When a polygon that moves straight first intersects one that does not move. */
export interface Motion {
    /** How far along it is; 0 if they intersect before it moves. */
    part: Fraction;
    /** Where the vertex arrives, as in a hit; no points if they intersect before. */
    points: Point[];
    /** A vertex that arrives first; null if they intersect before. */
    vertex: Point | null;
    /** Whether it is of the polygon that moves; else of the other, at the moving one as it was before. */
    moves: boolean;
}

/** Returns when the second polygon, which moves straight by (dx, dy), first intersects the first; null if it never does. OutOfRange. */
export function firstMeeting(standing: Polygon, moving: Polygon, dx: number, dy: number): Motion | null;

/** Returns the vertices of the polygon translated by (dx, dy), of which you can make another one. OutOfRange. */
export function translate(polygon: Polygon, dx: number, dy: number): Point[];

/** Returns the vertices of the polygon rotated about (0, 0) by the angle of (a, b), and scaled by its length. OutOfRange,
 * ZeroDirection. */
export function rotate(polygon: Polygon, a: number, b: number): Point[];

/** Returns the point of the hull that is nearest to (x, y), of several the first by x and then y, and the square of its distance; null
 * if there is none. OutOfRange. */
export function nearestHeld(hull: Hull, x: number, y: number): { point: Point; squared: bigint } | null;
