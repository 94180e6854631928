// Points as texts of other programs: CSV, GeoJSON, SVG and the page's address. Only SVG needs a document.
import { COORDINATE_LIMIT, MULTIPLICITY_LIMIT } from "./hull.js";
import { exponentOf, fromFloat, scaled, toFloat } from "./exchange.js";
import { TextError } from "./journal.js";

const CALLS_LIMIT = 2 ** 22; // at most so many calls are made from a text
const ADDRESS_LIMIT = 16000; // an address is no longer, so that it can be sent

/** Returns the point of a key "x y". */
export const pointOf = (key) => key.split(" ").map(Number);

/** Returns the kind of a text: "journal", "geojson", "svg" or "csv". */
export function kindOf(text) {
    const begin = text.trimStart();
    return text.startsWith("hullbook journal") ? "journal" : /^[{[]/.test(begin) ? "geojson" : begin.startsWith("<") ? "svg" : "csv";
}

/** Returns the rows [x, y, times] of a text of points, in doubles. */
export function readRows(text) {
    return { csv: rowsOfTable, geojson: rowsOfGeometry, svg: rowsOfDrawing }[kindOf(text)](text);
}

/** Returns the rows of a table: x, y and multiplicity, separated by a comma, semicolon, tab or space; the first may be names. A decimal comma is
 * refused, where it is seen to be one. */
function rowsOfTable(text) {
    const rows = [];
    text.split(/\r?\n/).forEach((line, i) => {
        const fields = line.trim().split(/[,;\t ]+/).filter(Boolean), numbers = fields.map(Number);
        if (fields.length === 0 || line.startsWith("#")) return;
        const [x, y, times = 1] = numbers, areNumbers = numbers.every(Number.isFinite) && fields.length >= 2;
        const isRow = areNumbers && fields.length <= 3 && !/(?=.*\d,\d).*[;\t]\S/.test(line);
        const expected = `X,Y or X,Y,TIMES, with 1 to ${MULTIPLICITY_LIMIT} times`;
        if (isRow && isTimes(times)) rows.push([x, y, times]);
        else if (areNumbers || i > 0) throw new TextError(i + 1, "it is no point", line, expected);
    });
    if (rows.length === 0) throw new TextError(1, "there are no points", text.split("\n")[0], "X,Y");
    return rows;
}

const isTimes = (times) => Number.isInteger(times) && times >= 1 && times <= MULTIPLICITY_LIMIT;

/** Returns each position once, with its multiplicity if one is given. */
function once(rows) {
    const found = new Map();
    for (const [x, y, times] of rows) found.set(`${x} ${y}`, [x, y, Math.max(times, found.get(`${x} ${y}`)?.[2] ?? 1)]);
    return [...found.values()];
}

/** Returns the positions of GeoJSON (RFC 7946), of any geometry. */
function rowsOfGeometry(text) {
    let read;
    try {
        read = JSON.parse(text);
    } catch (error) {
        throw new TextError(1, `it is no JSON: ${error.message}`, text.slice(0, 60), "a GeoJSON object");
    }
    const rows = [];
    const positions = (it, times) => {
        if (typeof it?.[0] === "number") rows.push([it[0], it[1], times[rows.length - times.from] ?? 1]);
        else if (Array.isArray(it)) for (const part of it) positions(part, times);
    };
    const walk = (it, inherited = []) => {
        const times = Object.assign([...(it?.properties?.times ?? inherited)], { from: rows.length });
        positions(it?.coordinates, times);
        for (const part of [it?.geometry, ...(it?.geometries ?? []), ...(it?.features ?? [])]) if (part) walk(part, times);
    };
    walk(Array.isArray(read) ? { coordinates: read } : read);
    const isRows = rows.length > 0 && rows.every((row) => row.every(Number.isFinite));
    if (!isRows) throw new TextError(1, "it has no positions", text.slice(0, 60), "a GeoJSON object with coordinates");
    return once(rows.map(([x, y, often]) => [x, y, isTimes(often) ? often : 1]));
}

const numbersIn = (text) => (text?.match(/[-+]?(\d+\.?\d*|\.\d+)(e[-+]?\d+)?/gi) ?? []).map(Number);
const pairsIn = (numbers) => Array.from({ length: numbers.length >> 1 }, (_, i) => [numbers[2 * i], numbers[2 * i + 1]]);
// how many numbers follow a letter of a path; the last two are its end
const OF_PATH = { m: 2, l: 2, t: 2, h: 1, v: 1, c: 6, s: 4, q: 4, a: 7 };

/** Returns the ends of the steps of a path. */
function placesOfPath(text) {
    const places = [];
    let at = [0, 0], begun = [0, 0];
    for (const [, letter, words] of text.matchAll(/([a-z])([^a-df-z]*)/gi)) {
        const low = letter.toLowerCase(), number = OF_PATH[low], numbers = numbersIn(words), from = letter === low ? 1 : 0;
        if (low === "z") at = begun;
        for (let i = 0; number && i + number <= numbers.length; i += number) {
            const [x, y] = numbers.slice(i, i + number).slice(-2), [left, top] = at.map((it) => it * from);
            at = low === "h" ? [left + x, at[1]] : low === "v" ? [at[0], top + x] : [left + x, top + y];
            if (low === "m" && i === 0) begun = at;
            places.push(at);
        }
    }
    return places;
}

/** Returns the positions of one shape, before its transforms. */
function placesOf(shape) {
    const number = (name) => numbersIn(shape.getAttribute(name))[0] ?? 0;
    switch (shape.localName) {
        case "circle":
        case "ellipse":
            return [[number("cx"), number("cy")]];
        case "line":
            return [[number("x1"), number("y1")], [number("x2"), number("y2")]];
        case "rect": {
            const [x, y, width, height] = ["x", "y", "width", "height"].map(number);
            return /%/.test(shape.getAttribute("width")) ? [] : [[x, y], [x + width, y], [x + width, y + height], [x, y + height]];
        }
        case "path":
            return placesOfPath(shape.getAttribute("d") ?? "");
        default:
            return pairsIn(numbersIn(shape.getAttribute("points")));
    }
}

/** Returns middles of circles, vertices of polygons, ends of lines and of the steps of paths, each once; y goes down there. */
function rowsOfDrawing(text) {
    const drawing = new DOMParser().parseFromString(text, "image/svg+xml"), fault = drawing.querySelector("parsererror");
    if (fault) throw new TextError(1, "it is no SVG", fault.textContent.slice(0, 100), "an SVG document");
    const rows = [...drawing.querySelectorAll("circle, ellipse, line, rect, path, polygon, polyline")].flatMap((shape) => {
        let matrix = new DOMMatrix();
        for (let it = shape; it instanceof Element; it = it.parentNode) {
            const transform = it.getAttribute("transform");
            if (transform) matrix = matrixOf(transform).multiply(matrix);
        }
        const times = Number(shape.getAttribute("data-times") ?? 1);
        return placesOf(shape).map(([x, y]) => {
            const at = matrix.transformPoint({ x, y });
            return [at.x, -at.y + 0, isTimes(times) ? times : 1];
        });
    });
    if (rows.length === 0) throw new TextError(1, "no shape has a place", text.slice(0, 60), "circles, polygons, lines or paths");
    return once(rows);
}

/** Returns the matrix of a `transform`, whose lengths have no units and whose angles are degrees. */
function matrixOf(text) {
    let matrix = new DOMMatrix();
    for (const [, word, words] of text.matchAll(/(\w+)\s*\(([^)]*)\)/g)) {
        const [a, b, c, ...rest] = numbersIn(words);
        const step = {
            matrix: () => new DOMMatrix([a, b, c, ...rest]),
            translate: () => new DOMMatrix().translate(a, b ?? 0),
            scale: () => new DOMMatrix().scale(a, b ?? a),
            rotate: () => new DOMMatrix().translate(b ?? 0, c ?? 0).rotate(a).translate(-(b ?? 0), -(c ?? 0)),
            skewX: () => new DOMMatrix().skewX(a),
            skewY: () => new DOMMatrix().skewY(a),
        }[word];
        if (step) matrix = matrix.multiply(step());
    }
    return matrix;
}

/** Returns the power of two by which all numbers are integers, or the greatest by which all are coordinates. */
export function powerFor(numbers) {
    let most = 1000, wanted = 0;
    for (const value of numbers) {
        if (value === 0) continue;
        const exponent = exponentOf(value), isPower = Math.abs(value) === scaled(1, exponent);
        most = Math.min(most, isPower ? 40 - exponent : 39 - exponent);
        while (wanted < most && !Number.isInteger(scaled(value, wanted))) wanted++;
    }
    return Math.min(wanted, most);
}

/** Returns rows in doubles as calls that add them, with the power of two that scaled them to the lattice, and how many numbers were
 * rounded. */
export function callsOf(rows) {
    const power = powerFor((function* () {
        for (const [x, y] of rows) yield* [x, y];
    })()), calls = [];
    let rounded = 0;
    if (rows.reduce((sum, row) => sum + row[2], 0) > CALLS_LIMIT) throw new RangeError(`these are more than ${CALLS_LIMIT} points`);
    for (const [x, y, times] of rows) {
        const point = [x, y].map((it) => {
            const { coordinate, isRounded } = fromFloat(it, power);
            rounded += isRounded;
            return coordinate;
        });
        const call = `add ${point.join(" ")}`;
        for (let i = 0; i < times; i++) calls.push(call);
    }
    return { calls, power, rounded };
}

/** Returns the points of a replay's set, in order, with multiplicities: [x, y, times], divided by 2^power. */
function rowsHeld(held, power) {
    const rows = Array.from(held, ([key, times]) => [...pointOf(key), times]).sort((a, b) => a[0] - b[0] || a[1] - b[1]);
    return rows.map(([x, y, times]) => [toFloat(x, power), toFloat(y, power), times]);
}

const geometryOf = (vertices) => (vertices.length === 0 ? { type: "GeometryCollection", geometries: [] }
    : vertices.length === 1 ? { type: "Point", coordinates: vertices[0] }
    : vertices.length === 2 ? { type: "LineString", coordinates: vertices } : { type: "Polygon", coordinates: [[...vertices, vertices[0]]] });

/** Texts of the points and their vertices, by the names of their kinds. */
export const WRITTEN = {
    csv: (rows) => `x,y,times\n${rows.map((row) => `${row.join(",")}\n`).join("")}`,
    geojson: (rows, vertices) => {
        const feature = (properties, geometry) => ({ type: "Feature", properties, geometry });
        const points = feature({ times: rows.map((row) => row[2]) }, { type: "MultiPoint", coordinates: rows.map(([x, y]) => [x, y]) });
        return `${JSON.stringify({ type: "FeatureCollection", features: [points, feature({ is: "hull" }, geometryOf(vertices))] })}\n`;
    },
    svg: (rows, vertices) => {
        const xs = rows.map((row) => row[0]), ys = rows.map((row) => -row[1]), least = (them) => them.reduce((a, b) => Math.min(a, b), Infinity);
        const [left, top] = [least(xs), least(ys)].map((it) => (it === Infinity ? 0 : it));
        const size = Math.max(-least(xs.map((it) => -it)) - left, -least(ys.map((it) => -it)) - top, 1e-300), dot = size / 150;
        const box = rows.length ? [left - size / 20, top - size / 20, 1.1 * size, 1.1 * size] : [0, 0, 1, 1];
        const often = (times) => (times > 1 ? ` data-times="${times}"` : "");
        const points = rows.map(([x, y, times]) => `<circle cx="${x}" cy="${-y + 0}" r="${dot}"${often(times)}/>\n`).join("");
        const polygon = `points="${vertices.map(([x, y]) => `${x},${-y + 0}`).join(" ")}" fill="#dce9f8" stroke="#2160a8" stroke-width="${dot / 2}"`;
        return `<svg xmlns="http://www.w3.org/2000/svg" viewBox="${box.join(" ")}">\n<polygon ${polygon}/>\n${points}</svg>\n`;
    },
};

/** Returns the set as a text of a kind. */
export function writeRows(kind, held, vertices, power) {
    return WRITTEN[kind](rowsHeld(held, power), vertices.map((vertex) => vertex.map((it) => toFloat(it, power))));
}

/** Returns the fragment of an address that contains the points: "points=0,0;8,0*2" and the power if it is not 0; "" if it would be
 * too long. */
export function addressOf(held, power) {
    const points = [];
    let length = 0;
    for (const [key, times] of held) {
        const text = `${key.replace(" ", ",")}${times > 1 ? `*${times}` : ""}`;
        if ((length += text.length + 1) > ADDRESS_LIMIT) return "";
        points.push(text);
    }
    return points.length === 0 ? "" : `#points=${points.sort().join(";")}${power ? `&power=${power}` : ""}`;
}

/** Returns the calls of such a fragment and its power, or null if it has no points; throws a TextError if one is wrong. */
export function readAddress(fragment) {
    const found = /^#points=([^&]*)(?:&power=(-?\d{1,4}))?$/.exec(decodeURIComponent(fragment));
    if (!found) return null;
    let made = 0;
    const calls = found[1].split(";").flatMap((text) => {
        const [, x, y, times = "1"] = /^(-?\d{1,13}),(-?\d{1,13})(?:\*(\d{1,5}))?$/.exec(text) ?? [];
        const isPoint = x !== undefined && [x, y].every((it) => Math.abs(Number(it)) <= COORDINATE_LIMIT) && isTimes(Number(times)) &&
            (made += Number(times)) <= CALLS_LIMIT;
        if (!isPoint) throw new TextError(1, "the address has a wrong point", text, "X,Y or X,Y*TIMES");
        return Array(Number(times)).fill(`add ${Number(x) + 0} ${Number(y) + 0}`);
    });
    return { calls, power: Number(found[2] ?? 0) };
}
