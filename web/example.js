// The example that the page opens with: points that come and go, a second hull beside them with its distance and what separates the
// two, and a planner's segment that can be dragged. The module computes all that it shows, in each frame.
const RANGE = [-1000, -620, 1000, 620]; // the visible range, by two opposite points
const POINTS = 34;
const EACH = 300; // milliseconds until a point comes or goes
const GRIP = 24; // pixels round an end of the segment
const OTHER = [[0, 150], [-120, 90], [-150, -40], [-60, -140], [80, -130], [150, -20], [110, 100]];
const LONG = 4000; // how far the separating line extends

const distanceOf = ([ax, ay], [bx, by]) => Math.hypot(ax - bx, ay - by);

/** Returns the points of two features that are nearest to one another: a feature of two points is the foot on their edge. */
function nearestOf(features) {
    const foot = ([from, to], [x, y]) => {
        const [dx, dy] = [to[0] - from[0], to[1] - from[1]], along = ((x - from[0]) * dx + (y - from[1]) * dy) / (dx * dx + dy * dy);
        return [from[0] + along * dx, from[1] + along * dy];
    };
    return features.map((it, i) => (it.length === 2 ? foot(it, features[1 - i][0]) : it[0]));
}

/** Returns the squared distance of two features, each a point or an edge; 0 if both are none. (The library's own would add 4 KB to the page's
 * module.) */
function squareOf(features) {
    if (features[0].length === 0) return { numerator: 0n, denominator: 1n };
    const [[point], [from, to]] = [...features].sort((a, b) => a.length - b.length);
    const way = (a, b) => [BigInt(b[0]) - BigInt(a[0]), BigInt(b[1]) - BigInt(a[1])], square = ([x, y]) => x * x + y * y;
    const far = way(from, point);
    if (!to) return { numerator: square(far), denominator: 1n };
    const edge = way(from, to), doubledArea = edge[0] * far[1] - edge[1] * far[0];
    return { numerator: doubledArea * doubledArea, denominator: square(edge) };
}

export class Example {
    constructor({ Hull }, random = Math.random) {
        this.random = random;
        this.hull = new Hull();
        this.other = new Hull();
        this.points = []; // in the order in which they came
        this.segment = [[-880, 440], [520, -430]];
        this.isTaken = false; // the segment sways until the user takes it
        this.time = this.ticks = 0;
        for (let i = 0; i < POINTS; i++) this.#comes();
        this.move(0);
    }

    free() {
        for (const it of [this.polygon, this.beside, this.hull, this.other]) it.free();
    }

    get range() {
        return RANGE;
    }

    #comes() {
        const angle = 2 * Math.PI * this.random(), far = (330 + 120 * Math.sin(this.ticks / 9)) * Math.sqrt(this.random());
        const point = [Math.round(far * 1.2 * Math.cos(angle)) - 330, Math.round(far * Math.sin(angle))];
        this.points.push(point);
        this.hull.add(...point);
    }

    #goes() {
        this.hull.remove(...this.points.shift());
    }

    /** Lets so many milliseconds pass. */
    move(passed) {
        this.time += Math.min(passed, 4 * EACH);
        for (; (this.ticks + 1) * EACH <= this.time; this.ticks++) {
            if (this.ticks % 2 && this.points.length > POINTS / 2) this.#goes();
            else this.#comes();
        }
        const t = this.time / 1000, [x, y] = [420 + 330 * Math.cos(t / 3), 320 * Math.sin(t / 2.1)], turn = t / 4;
        const [cos, sin] = [Math.cos(turn), Math.sin(turn)];
        // (few points: loading them at once would need code of its own in the module)
        this.other.clear();
        for (const [px, py] of OTHER) this.other.add(Math.round(x + px * cos - py * sin), Math.round(y + px * sin + py * cos));
        if (!this.isTaken) this.segment[1] = [520, Math.round(-430 + 420 * Math.sin(t / 1.7))];
        this.ask();
    }

    /** Asks the module for all that is shown. */
    ask() {
        this.polygon?.free();
        this.beside?.free();
        [this.polygon, this.beside] = [this.hull.polygon(), this.other.polygon()];
        const ends = this.segment.flat();
        const features = this.polygon.distance(this.beside);
        Object.assign(this, {
            witness: this.polygon.witness(this.beside),
            features,
            square: squareOf(features),
            hits: [this.polygon, this.beside].map((it) => it.intersectsSegment(...ends)),
        });
    }

    /** Returns the values of the rows, by the names of the rows. */
    readings() {
        const { numerator, denominator } = this.square, isZero = numerator === 0n;
        const square = denominator === 1n ? `${numerator}` : `${numerator}/${denominator}`;
        const [point, direction] = this.witness.points.map((it) => `(${it.join(", ")})`);
        const shows = {
            disjoint: `no vertex goes beyond ${point} along ${direction}`, covered: `the first covers ${point}`,
            within: `the second covers ${point}`, crossing: "two segments cross",
        }[this.witness.shows];
        const struck = this.hits.map((it, i) => it && ["the first hull", "the second hull"][i]).filter(Boolean);
        return {
            points: `${this.hull.count()}, ${this.polygon.count()} of them vertices`,
            distance: isZero ? "0: the hulls intersect" : `√(${square}) ≈ ${Math.sqrt(Number(numerator) / Number(denominator)).toFixed(1)}`,
            witness: shows,
            segment: struck.length ? `hits ${struck.join(" and ")}` : "is free",
        };
    }

    draw(picture) {
        const { polygon, beside } = this, vertices = [polygon.vertexArray(), beside.vertexArray()];
        picture.polygon(vertices[0]);
        picture.discs(this.points.map((it) => picture.view.toScreen(it)), 3, "point");
        picture.vertices(vertices[0]);
        picture.polygon(vertices[1], "other", "within");
        picture.vertices(vertices[1], "other");
        this.#drawWitness(picture);
        const isFree = !this.hits.includes(true), color = isFree ? "right" : "left", [from, to] = this.segment;
        picture.lines([[from, to]], color, 4, isFree ? [] : [9, 6]);
        picture.discs(this.segment.map((it) => picture.view.toScreen(it)), 9, color);
        picture.pen.font = "600 14px system-ui, sans-serif";
        picture.word(isFree ? "free" : "hits", picture.view.toScreen(to), color);
    }

    /** Draws the distance as a line, and a witness that they are disjoint or intersect. */
    #drawWitness(picture) {
        const { shows, points } = this.witness;
        if (shows === "disjoint") {
            const [vertex, [dx, dy]] = points, far = LONG / Math.hypot(dx, dy);
            picture.lines([[[vertex[0] - dy * far, vertex[1] + dx * far], [vertex[0] + dy * far, vertex[1] - dx * far]]], "soft", 1, [3, 5]);
            const ends = nearestOf(this.features);
            picture.lines([ends], "text", 2);
            picture.discs(ends.map((it) => picture.view.toScreen(it)), 4, "text");
        } else {
            if (shows === "crossing") picture.lines([points.slice(0, 2), points.slice(2)], "text", 3);
            picture.discs(points.map((it) => picture.view.toScreen(it)), 7, "text");
        }
    }

    /** Moves the segment. */
    push(by) {
        this.isTaken = true;
        this.segment = this.segment.map((end) => end.map((it, axis) => it + by[axis]));
        this.ask();
    }

    /** Takes the segment by an end or between them: returns what moves it to the pointer, or null. */
    taken(place, view) {
        const ends = this.segment.map((it) => view.toScreen(it)), middle = [0, 1].map((i) => (ends[0][i] + ends[1][i]) / 2);
        const end = ends.findIndex((it) => distanceOf(it, place) <= GRIP);
        if (end < 0 && distanceOf(middle, place) > GRIP) return null;
        this.isTaken = true;
        let at = view.toLattice(place);
        return (to) => {
            const next = view.toLattice(to), by = next.map((it, i) => it - at[i]);
            for (const i of end < 0 ? [0, 1] : [end]) this.segment[i] = this.segment[i].map((it, axis) => it + by[axis]);
            at = next;
            this.ask();
        };
    }
}
