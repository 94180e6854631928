// The types of all that can be called, exactly: each is neither wider nor narrower than what is written here, and there are no other names.
import * as hulls from "hullbook";
import * as exchange from "hullbook/exchange.js";
import * as journals from "hullbook/journal.js";
import * as many from "hullbook/many.js";
import type { Bridges, Fraction, GrowingHull, Held, Hit, Hull, Library, Place, Point, Points, Polygon, Relation, Source, Tangents, Witness } from "hullbook";
import type { Journal, Line, Replay } from "hullbook/journal.js";
import type { Motion } from "hullbook/many.js";

type Same<A, B> = (<T>() => T extends A ? 1 : 2) extends <T>() => T extends B ? 1 : 2 ? true : false;
/** Compiles only if both types are the same. */
function same<A, B>(..._: Same<A, B> extends true ? [] : [never]): void {}

type Rows = Iterable<readonly number[]>;
type Asked<T, D> = (x: number, y: number) => T | D;
same<Point, [x: number, y: number]>();
same<Place, "inside" | "on" | "outside">();
same<Points, Rows | Float64Array | Float32Array | Int32Array | Uint32Array | Int16Array | Uint16Array | Int8Array | Uint8Array | Uint8ClampedArray
    | BigInt64Array | BigUint64Array>();
same<Source, ArrayBuffer | ArrayBufferView | URL | string | Response | Promise<Response>>();
same<Relation, "disjoint" | "touching" | "overlapping" | "within" | "covers" | "equal">();
same<Tangents, { left: Point; right: Point }>();
same<Held, { point: Point; multiplicity: number }>();
same<Bridges, { upper: [Point, Point]; lower: [Point, Point] }>();
same<Fraction, { numerator: bigint; denominator: bigint }>();
same<Hit, { part: Fraction; points: Point[] }>();
same<Witness, { shows: "disjoint" | "covered" | "within" | "crossing"; points: Point[] }>();
same<Motion, { part: Fraction; points: Point[]; vertex: Point | null; moves: boolean }>();
same<Line, { number: bigint; seat: number; call: string; reply: string }>();
same<Journal, { version: number; first: bigint; limit: number; capacity: number; lines: Line[]; segments?: { name: string; from: number }[] }>();

type Questions = "place" | "tangents" | "extreme" | "doubledArea" | "placeAll" | "tangentsAll" | "extremeAll" | "vertices" | "vertexArray" | "free";
type OfHull = "add" | "remove" | "addAll" | "removeAll" | "multiplicity" | "count" | "limit" | "load"
    | "held" | "loadHeld" | "copy" | "bridges" | "clear" | "polygon";
same<keyof Hull, Questions | OfHull>();
same<Pick<Hull, Questions>, Pick<Polygon, Questions>>();
same<Hull["place"], Asked<Place, never>>();
same<Hull["tangents"], Asked<Tangents, null>>();
same<Hull["extreme"], Asked<Point, null>>();
same<Hull["doubledArea"], () => bigint>();
same<Hull["placeAll"], (points: Points) => Place[]>();
same<Hull["tangentsAll"], (points: Points) => (Tangents | null)[]>();
same<Hull["extremeAll"], (directions: Points) => (Point | null)[]>();
same<Hull["vertices"], () => Point[]>();
same<Hull["vertexArray"], () => Float64Array>();
same<Hull["free"], () => void>();
same<Hull["add"], Asked<number, never>>();
same<Hull["remove"], Asked<number, null>>();
same<Hull["addAll"], (points: Points) => Uint32Array>();
same<Hull["removeAll"], (points: Points) => number>();
same<Hull["multiplicity"], Asked<number, never>>();
same<Hull["count"], () => number>();
same<Hull["limit"], () => number>();
same<Hull["load"], (points: Points) => number>();
same<Hull["held"], () => Held[]>();
same<Hull["loadHeld"], (held: Iterable<Held>) => number>();
same<Hull["copy"], () => Hull>();
same<Hull["bridges"], (level: number) => Bridges[]>();
same<Hull["clear"], () => void>();
same<Hull["polygon"], () => Polygon>();

type Segment<T> = (ax: number, ay: number, bx: number, by: number) => T;
type OfTwo<T> = (other: Polygon) => T;
type Bounds = [down: number, up: number] | null;
interface OfPolygon {
    count(): number;
    intersectsSegment: Segment<boolean>;
    separationFromSegment: Segment<{ vertex: Point; direction: Point } | null>;
    nearest: Asked<Point[], null>;
    boundingBox(): [least: Point, greatest: Point] | null;
    widthAlong: Asked<bigint, null>;
    diameter(): [Point, Point] | null;
    leastWidth(): [Point, Point, Point] | null;
    intersects: OfTwo<boolean>;
    contains: OfTwo<boolean>;
    containsInside: OfTwo<boolean>;
    relation: OfTwo<Relation>;
    withinDistance(other: Polygon, numerator: number, denominator?: number): boolean;
    witness: OfTwo<Witness | null>;
    distance: OfTwo<[ours: Point[], theirs: Point[]] | null>;
    distanceBounds: OfTwo<Bounds>;
    squaredDistance: OfTwo<Fraction | null>;
    distanceBoundsToSegment: Segment<Bounds>;
    distanceBoundsToPoint: Asked<Bounds, null>;
    squaredDistanceToSegment: Segment<Fraction | null>;
    squaredDistanceToPoint: Asked<Fraction, null>;
    withinDistanceOfSegment(ax: number, ay: number, bx: number, by: number, numerator: number, denominator?: number): boolean;
    withinDistanceOfPoint(x: number, y: number, numerator: number, denominator?: number): boolean;
    relationToSegment: Segment<Relation>;
    raycast: Segment<Hit | null>;
    raycastExit: Segment<Hit | null>;
    raycastSegment: Segment<Hit | null>;
}
same<keyof Polygon, Questions | keyof OfPolygon>();
same<Pick<Polygon, keyof OfPolygon>, Pick<OfPolygon, keyof OfPolygon>>();
interface OfGrowingHull {
    add(x: number, y: number): Place;
    addAll(points: Points): (Place | null)[];
    polygon(): Polygon;
}
same<keyof GrowingHull, Questions | keyof OfGrowingHull>();
same<Pick<GrowingHull, keyof OfGrowingHull>, OfGrowingHull>();
same<keyof Library, "Hull" | "GrowingHull" | "Polygon">();
same<ConstructorParameters<Library["GrowingHull"]>, []>();
same<InstanceType<Library["GrowingHull"]>, GrowingHull>();
same<ConstructorParameters<Library["Hull"]>, [limit?: number]>();
same<InstanceType<Library["Hull"]>, Hull>();
same<ConstructorParameters<Library["Polygon"]>, [vertices: Points]>();
same<InstanceType<Library["Polygon"]>, Polygon>();
same<Library["Polygon"]["of"], (points: Points) => Polygon>();

type Limits = "COORDINATE_LIMIT" | "POINT_LIMIT" | "MULTIPLICITY_LIMIT";
type Faults = "OutOfRange" | "ZeroDirection" | "TooMany" | "NoMemory" | "Ended" | "NoPoints" | "NoPolygon" | "Trapped" | "Unsupported";
same<keyof typeof hulls, Limits | Faults | "HullError" | "load">();
same<(typeof hulls)[Limits], number>();
export const faults: Record<Faults, new (message: string) => hulls.HullError> = hulls;
same<typeof hulls.load, (source?: Source, options?: { memory?: number }) => Promise<Library>>();

same<typeof exchange, {
    fromFloat: (value: number, power: number) => { coordinate: number; isRounded: boolean };
    fromFloats: (points: Rows, power: number) => { coordinates: Float64Array; rounded: number };
    toFloat: (coordinate: number, power: number) => number;
    directionOf: Asked<Point, never>;
    wkt: (vertices: Rows, power?: number) => string;
}>();
same<typeof many, {
    relations: (polygon: Polygon, others: Iterable<Polygon>) => Relation[];
    intersectsSegments: (polygon: Polygon, segments: Iterable<readonly [number, number, number, number]>) => boolean[];
    pairsWithinDistance: (polygons: readonly Polygon[], numerator?: number, denominator?: number) => [number, number][];
    indices: (polygon: Polygon, points: Rows) => number[];
    firstMeeting: (standing: Polygon, moving: Polygon, dx: number, dy: number) => Motion | null;
    translate: (polygon: Polygon, dx: number, dy: number) => Point[];
    rotate: (polygon: Polygon, a: number, b: number) => Point[];
    nearestHeld: (hull: Hull, x: number, y: number) => { point: Point; squared: bigint } | null;
}>();
type Named = { name: string; journal: Journal }[];
same<Omit<typeof journals, "TextError" | "Replay">, {
    readonly CAPACITY_LIMIT: number;
    emptyJournal: (limit?: number) => Journal;
    numberOf: (journal: Journal, index: number) => bigint;
    lineText: (line: Line) => string;
    journalText: (journal: Journal) => string;
    readJournal: (text: string) => Journal;
    joinJournals: (segments: Named) => Journal;
    serve: (hull: Hull, call: string) => string;
    inverse: (line: Pick<Line, "call" | "reply">) => string | null;
    judge: (hull: Hull, journal: Journal) => { word: "legal" } | { word: "illegal"; index: number };
}>();
same<Pick<journals.TextError, "line" | "found" | "expected">, { readonly line: number; readonly found: string; readonly expected: string }>();
same<ConstructorParameters<typeof journals.TextError>, [line: number, why: string, found?: string, expected?: string]>();
same<ConstructorParameters<typeof Replay>, [hull: Hull, journal: Journal]>();
same<Pick<Replay, keyof Replay>, {
    journal: Journal;
    at: number;
    wrong: { index: number; line: Line; expected: string } | null;
    held: Map<string, number>;
    call: (call: string, seat?: number) => Line;
    go: (to: number) => number;
}>();
