// The types of exchange.js: doubles to integer coordinates and back, directions in doubles, and vertices as well-known text. A power is an
// integer: else OutOfRange.
import type { Point } from "./hull.js";

/** Returns the coordinate nearest to value * 2^power, ties to even, and whether it was rounded. OutOfRange if there is none. */
export function fromFloat(value: number, power: number): { coordinate: number; isRounded: boolean };

/** Returns the points of the lattice nearest to points in doubles, as [x0, y0, x1, y1, ..], and how many of these numbers were rounded.
 * OutOfRange. */
export function fromFloats(points: Iterable<readonly number[]>, power: number): { coordinates: Float64Array; rounded: number };

/** Returns coordinate / 2^power. */
export function toFloat(coordinate: number, power: number): number;

/** Returns a direction of doubles in integers: exactly if they fit, else to the nearest. Of (0, 0) it is [0, 0]. OutOfRange. */
export function directionOf(dx: number, dy: number): Point;

/** Returns vertices as well-known text, their coordinates divided by 2^power (default 0). OutOfRange if a vertex is no pair of numbers. */
export function wkt(vertices: Iterable<readonly number[]>, power?: number): string;
