// Answers the questions of polygons and sets that ask.py writes, a line each, by the classes of hull.js: a line with the answer for each. Its words
// are the files of hull.js and of the module.
import { readFileSync } from "node:fs";

const [library, module] = process.argv.slice(2);
const { load } = await import(library);
const { firstMeeting } = await import(library.replace("hull.js", "many.js"));
const { GrowingHull, Hull, Polygon } = await load(readFileSync(module));

const perhaps = (say) => (value) => (value === null ? "none" : say(value));
const all = (word, points) => [word, ...points.flat()].filter((it) => it !== "").join(" ");
const pair = perhaps((points) => all("", points));
const bits = new DataView(new ArrayBuffer(8));

function inLowestTerms({ numerator, denominator }) {
    let [a, b] = [numerator, denominator];
    while (b !== 0n) [a, b] = [b, a % b];
    return `${numerator / a}/${denominator / a}`;
}

function bitsOf(value) {
    bits.setFloat64(0, value);
    return bits.getBigUint64(0);
}

const FEATURES = ["covered", "vertex", "edge"];
const ANSWERS = {
    place: String, number: String, whether: String, relation: String, numberOrNone: perhaps(String), twoPoints: pair, box: pair,
    tangents: perhaps(({ left, right }) => all("", [left, right])),
    point: perhaps((point) => all("", point)),
    separation: perhaps(({ vertex, direction }) => all("", [vertex, direction])),
    nearest: perhaps((points) => all(FEATURES[points.length], points)),
    strip: perhaps((points) => all("strip", points)),
    witness: perhaps(({ shows, points }) => all(shows, points)),
    distance: perhaps(([ours, theirs]) => {
        const word = { 0: "zero", 11: "vertices", 12: "vertex and edge", 21: "edge and vertex" }[10 * ours.length + theirs.length];
        return all(word, [...ours, ...theirs]);
    }),
    bounds: perhaps(([down, up]) => `${bitsOf(down)} ${bitsOf(up)}`),
    squared: perhaps(inLowestTerms),
    motion: perhaps(({ part, points, vertex, moves }) => {
        return ANSWERS.hit({ part, points }) + (vertex ? ` ${all(moves ? "by theirs" : "by ours", [vertex])}` : "");
    }),
    hit: perhaps(({ part, points }) => `${all(["start", "vertex", "edge"][points.length], points)} ${inLowestTerms(part)}`),
};

const CASES = {
    // @CASES@
};

function hullOf(points) {
    const hull = new Hull(64);
    hull.load(points);
    return hull;
}

function grownOf(points) {
    const hull = new GrowingHull();
    hull.addAll(points);
    return hull;
}

const lines = [];
for (const line of readFileSync(0, "utf8").split("\n")) {
    if (line === "") continue;
    const [name, ...words] = line.split(" "), numbers = words.map(Number), polygons = [];
    const found = CASES[name];
    if (found === undefined) {
        lines.push("-");
        continue;
    }
    const count = numbers.shift();
    for (let i = 0; i < count; i++) {
        const vertices = new Float64Array(numbers.splice(0, 2 * numbers.shift()));
        polygons.push(name.startsWith("set_") ? hullOf(vertices) : name.startsWith("growing_") ? grownOf(vertices) : new Polygon(vertices));
    }
    try {
        lines.push(found(polygons[0], polygons[1], numbers));
    } catch (error) {
        lines.push(error.name);
    }
    for (const polygon of polygons) polygon.free();
}
process.stdout.write(lines.map((it) => `${it}\n`).join(""));
