// What the types allow: the README's first example and one call of each kind.
import { HullError, load, type Fraction, type GrowingHull, type Held, type Hull, type Place, type Point, type Polygon, type Relation, type Tangents } from "hullbook";
import { directionOf, fromFloats, wkt } from "hullbook/exchange.js";
import { firstMeeting, indices, intersectsSegments, nearestHeld, pairsWithinDistance, relations, rotate, translate } from "hullbook/many.js";
import { Replay, joinJournals, journalText, judge, readJournal } from "hullbook/journal.js";

export async function first(): Promise<Point[]> {
    const { Hull } = await load();
    const hull = new Hull();
    hull.addAll([[0, 0], [80, 0], [80, 60], [0, 60]]);
    hull.add(100, 30);
    const place: Place = hull.place(90, 30);
    const doubled: bigint = hull.doubledArea();
    hull.remove(100, 30);
    return doubled > 0n && place === "inside" ? hull.vertices() : [];
}

export function asked(hull: Hull, polygon: Polygon): (Fraction | Held | Tangents | Point | null | undefined)[] {
    const vertices: readonly (readonly [number, number])[] = hull.vertices(), points = new Set(vertices);
    hull.load(points);
    hull.load(Float64Array.of(1, 2));
    hull.load(BigInt64Array.of(1n, 2n));
    hull.load(BigUint64Array.of(1n, 2n));
    hull.load(Uint8ClampedArray.of(1, 2));
    const seen = hull.tangents(5, 5);
    const [ours] = polygon.distance(polygon) ?? [];
    const times: Uint32Array = hull.addAll([[1, 2]]), left: number | null = hull.remove(1, 2);
    return [polygon.squaredDistance(polygon), hull.held()[times[0]], seen, seen?.left, ours?.[left ?? 0], hull.extreme(...directionOf(0.1, 0.2)), polygon.witness(polygon)?.points[0]];
}

export function many(hull: Hull, all: Polygon[]): (number | bigint | boolean | Point | Relation | undefined | null)[] {
    const pairs: [number, number][] = pairsWithinDistance(all, 3, 2), met = firstMeeting(all[0], all[1], 3, 4), near = nearestHeld(hull, 1, 2);
    return [pairs[0][1], relations(all[0], all)[0], intersectsSegments(all[0], [[0, 0, 1, 1]])[0], indices(all[0], [[1, 2]])[0], met?.part.numerator, met?.vertex, translate(all[0], 1, 2)[0], rotate(all[0], 3, 4)[0], near?.squared];
}

export function grown(hull: GrowingHull): (Place | Point | null)[] {
    const place: Place = hull.add(1, 2), all: (Place | null)[] = hull.addAll([[3, 4]]);
    return [place, ...all, ...hull.polygon().vertices()];
}

export function related(ours: Polygon, theirs: Polygon): Relation | null {
    const relation: Relation = ours.relation(theirs);
    return relation === "touching" || ours.containsInside(theirs) || ours.withinDistance(theirs, 3) || ours.withinDistance(theirs, 1, 2) ? relation : null;
}

export async function journals(texts: { name: string; text: string }[]): Promise<string> {
    try {
        const { Hull, Polygon } = await load(new Uint8Array(8), { memory: 1e6 });
        const journal = joinJournals(texts.map(({ name, text }) => ({ name, journal: readJournal(text) })));
        const replay = new Replay(new Hull(journal.limit), journal), verdict = judge(new Hull(), journal);
        replay.go(1);
        const { coordinates, rounded } = fromFloats([[0.5, 1]], 1);
        return `${verdict.word === "illegal" ? verdict.index : rounded}${journalText(journal)}${wkt(Polygon.of(coordinates).vertices())}`;
    } catch (error) {
        return error instanceof HullError ? error.message : "";
    }
}
