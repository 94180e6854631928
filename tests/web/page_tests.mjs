// The page in a browser with no window: page_tests.mjs PAGE FOLDER BROWSER. On a desktop's size by a mouse and keys, on a phone's by
// fingers: all presses are events of the browser's own. Its journals and pictures are written to the folder.
import { strict as assert } from "node:assert";
import { existsSync, readFileSync, writeFileSync } from "node:fs";
import { pathToFileURL } from "node:url";
import { Tab, wait } from "./browser.mjs";
import { random_of } from "./plain.mjs";

const [page, folder, browser] = process.argv.slice(2), CLICKS = 300;
const DESKTOP = [1280, 640], PHONE = [390, 664]; // what a laptop and a phone leave of their screens
const PATIENCE = 600000; // milliseconds for a try
const MANY = [1000, 100000]; // so many points
const MOST = 40; // calls of the canvas for a move of the pointer, however many points there are
const TRAP = '<script>globalThis.escaped = []; addEventListener("error", (it) => escaped.push(it.message)); addEventListener("unhandledrejection", (it) => escaped.push(String(it.reason)));</script>';

// the page, which records each error that escapes its code
const shown = `${folder}/page.html`, url = pathToFileURL(shown).href;
writeFileSync(shown, readFileSync(page, "utf8").replace("<title>", `${TRAP}<title>`));

let tab = null, passed = 0, failed = 0;
async function tried(name, run) {
    const begun = Date.now();
    try {
        const late = new Promise((_, failed) => setTimeout(() => failed(new Error(`it took longer than ${PATIENCE} ms`)), PATIENCE).unref());
        const said = await Promise.race([run(), late]);
        passed++;
        console.log(`${browser}: ${name}: ok${said ? `, ${said}` : ""} ${process.env.TIMES ? Date.now() - begun : ""}`);
    } catch (error) {
        failed++;
        console.log(`${browser}: ${name}: FAILED, ${String(error.stack).split("\n").slice(0, 12).join(" ")}`);
    }
}

const value = (expression) => tab.value(expression), text = (id) => tab.text(id), press = (id) => tab.press(id);
/** The place of a point of the lattice on the screen. */
const at = (point) => value(`(() => {
    const plane = document.getElementById("plane");
    plane.scrollIntoView({ block: "nearest" });
    const { left, top } = plane.getBoundingClientRect(), [x, y] = page.view.toScreen(${JSON.stringify(point)});
    return [left + x, top + y];
})()`);
const journal = () => value("page.text()");
const calls = async () => (await journal()).split("\n").slice(1, -2).map((it) => it.replace(/^\d+ 0 /, ""));
const held = async () => JSON.parse(await value("JSON.stringify([...page.replay.held].sort())"));
const vertices = () => value("page.hull.vertices().join(' ')");
const click = async (point, how) => tab.click(await at(point), how);
/** Presses "New" where the plane is drawn on, with what it shows as it was at first. */
async function anew() {
    if ((await value("page.mode")) === "example") await press("own");
    await press("anew");
    assert.deepEqual([await calls(), await value("page.view.scale")], [[], 8]);
}
const file = (name, said) => {
    writeFileSync(`${folder}/${name}`, said);
    return `${folder}/${name}`;
};
const choose = async (...files) => {
    const before = await value("page.work.state + page.work.message");
    await tab.choose("open", files);
    await tab.until(`page.work.state + page.work.message !== ${JSON.stringify(before)}`);
    await tab.settled();
};
/** The text of the file that "Save" writes. */
async function saved(kind) {
    const name = `${folder}/hullbook.${kind}`;
    await value(`document.getElementById("kind").value = "${kind}"`);
    await press("save");
    // (a browser makes the file first, and then writes it)
    const isWhole = () => existsSync(name) && readFileSync(name, "utf8").endsWith("\n");
    for (let i = 0; !isWhole() && i < 2000; i++) await wait(50);
    return readFileSync(name, "utf8");
}
const isInSight = (...ids) => value(`(scrollTo(0, 0), ${JSON.stringify(ids)}.every((id) => {
    const { top, bottom, height } = document.getElementById(id).getBoundingClientRect();
    return height > 0 && top >= 0 && bottom <= innerHeight;
}))`);
/** How many of the points that are held lie outside of what is seen. */
const outside = () => value("[...page.replay.held.keys()].map((it) => page.view.toScreen(it.split(' ').map(Number))).filter(([x, y]) => x < 0 || y < 0 || x > page.view.size[0] || y > page.view.size[1]).length");
const escaped = () => value("escaped.join()");

async function tryExample() {
    await tried("it opens on an example that moves, with three sentences and a link", async () => {
        assert.equal(await value("page.mode"), "example");
        const before = [await text("shown-points"), await text("shown-distance"), await text("shown-segment")];
        assert.match(before[0], /^\d+, \d+ of them vertices$/);
        assert.match(before[1], /^(√\(\d+(\/\d+)?\) ≈ [\d.]+|0: the hulls intersect)$/);
        assert.match(before[2], /^(is free|hits )/);
        const points = await value("page.example.points.join(' ')");
        await tab.until(`page.example.points.join(" ") !== ${JSON.stringify(points)}`);
        await tab.until(`document.getElementById("shown-distance").textContent !== ${JSON.stringify(before[1])}`);
        const said = await value('document.querySelector("header p").textContent');
        assert.equal(said.match(/[.](?=\s|$)/g).length, 3);
        assert.equal(await value('document.querySelector(document.querySelector("header a").getAttribute("href")).querySelector("h2").textContent'), "What is proved");
        assert.equal(await text("own"), "Draw your own");
    });
    await tried("the readings are of the points that are shown", async () => {
        await press("pause");
        const [count, square, intersects] = await value(`(() => {
            const { points, square, witness } = page.example;
            return [new Set(points.map(String)).size, String(square.numerator), witness.shows !== "disjoint"];
        })()`);
        assert.equal((await text("shown-points")).split(",")[0], String(count));
        assert.equal(square === "0", intersects);
        assert.equal((await text("shown-distance")).includes(square === "0" ? "intersect" : square), true);
    });
    await tried("the segment is asked of the module as it is dragged", async () => {
        const place = (of) => value(`(() => { const { left, top } = document.getElementById("plane").getBoundingClientRect(), [x, y] = page.view.toScreen(${of}); return [left + x, top + y]; })()`);
        const drag = async (from, to) => (tab.isPhone ? tab.slide(from, to) : tab.drag(from, to));
        await drag(await place("page.example.segment[1]"), await place("[0, 560]"));
        await drag(await place("page.example.segment[0]"), await place("[-900, 560]"));
        await tab.until('document.getElementById("shown-segment").textContent === "is free"');
        await drag(await place("page.example.segment[0]"), await place("page.example.points.reduce(([x, y], it) => [x + it[0] / page.example.points.length, y + it[1] / page.example.points.length], [0, 0])"));
        await tab.until('document.getElementById("shown-segment").textContent.startsWith("hits the first hull")');
    });
    await tried("arrows move the segment of the example", async () => {
        await value("document.getElementById('plane').focus()");
        const before = await value("page.example.segment.flat()");
        await tab.key("ArrowUp");
        await tab.key("ArrowLeft", "Shift");
        assert.deepEqual(await value("page.example.segment.flat()"), before.map((it, i) => it + (i % 2 ? 10 : -100)));
    });
    await tried("the example's answers are in sight without scrolling", async () => assert.ok(await isInSight("plane", "shown", "own")));
    await tried("pictures of the example, light and dark", async () => {
        await value("scrollTo(0, 0)");
        for (const scheme of ["dark", "light"]) writeFileSync(`${folder}/${browser}-example-${tab.shown[0]}-${scheme}.png`, await tab.picture(scheme));
    });
}

async function tryMouse() {
    await tried("clicks add, and one on a point removes", async () => {
        await anew();
        for (const point of [[-20, -10], [20, -10], [20, 10], [-20, 10], [20, 10]]) await click(point);
        assert.deepEqual(await calls(), ["add -20 -10 = added", "add 20 -10 = added", "add 20 10 = added", "add -20 10 = added", "remove 20 10 = removed"]);
        await click([20, -10], { shift: true });
        assert.equal((await calls()).at(-1), "add 20 -10 = again 2");
        assert.equal(await text("count"), "3, 3 of them vertices");
        assert.equal(await text("area"), "400");
    });
    await tried("answers follow the pointer", async () => {
        for (const [point, place] of [[[0, -10], "on"], [[-5, -5], "inside"], [[0, -20], "outside"]]) {
            await tab.move(await at(point));
            assert.equal(await text("where"), `(${point.join(", ")}) is ${place}`);
        }
        assert.deepEqual([await text("left"), await text("right")], ["left (-20, -10)", "right (20, -10)"]);
    });
    await tried("a drag moves a point; undo and redo take it as one deed", async () => {
        const before = await held();
        await tab.drag(await at([-20, 10]), await at([10, 20]));
        const after = await held();
        assert.equal((await calls()).at(-1), "add 10 20 = added");
        await press("undo");
        assert.deepEqual(await held(), before);
        await press("redo");
        assert.deepEqual(await held(), after);
        await press("undo");
    });
    await tried("a drag of the plane moves it, and the wheel zooms where the pointer is", async () => {
        const number = (await calls()).length;
        await tab.drag(await at([30, 20]), await at([40, 20]));
        assert.deepEqual([(await calls()).length, await value("page.view.middle.map(Math.round).join()")], [number, "-10,0"]);
        const place = await at([7, 7]), before = await value("page.view.scale");
        await tab.wheel(place, -120);
        await tab.until(`page.view.scale > ${before}`);
        assert.ok((await at([7, 7])).every((it, i) => Math.abs(it - place[i]) < 1));
        await tab.wheel(place, 120);
        await tab.until(`page.view.scale < ${before} * 1.01`);
    });
    await tried("stored bridges are drawn level by level", async () => {
        await anew();
        // (up to 64 points have no bridge stored)
        await press("many");
        await tab.move([5, 5]);
        const levels = async (key) => (await value('document.getElementById("levels").focus()'), await tab.key(key), await text("leveled"));
        const drawn = async () => (await tab.settled(), value('document.getElementById("plane").toDataURL()')), without = await drawn();
        assert.equal(await levels("ArrowRight"), "1 level");
        assert.notEqual(await drawn(), without);
        assert.match(await levels("End"), /^([4-9]|1[0-9]) levels$/);
        assert.equal(await levels("Home"), "0 levels");
        assert.equal(await drawn(), without);
    });
    await tried("keys move the cross, add, remove, take back and speak", async () => {
        await anew();
        await value("(page.cursor = null, document.getElementById('plane').focus())");
        await tab.key("ArrowRight");
        await tab.key("ArrowUp", "Shift");
        for (const [key, last] of [["Enter", "add 1 10 = added"], ["Delete", "remove 1 10 = removed"], ["u", "add 1 10 = added"], ["r", "remove 1 10 = removed"]]) {
            await tab.key(key);
            assert.equal((await calls()).at(-1), last);
        }
        await tab.key("z", "Control");
        assert.equal((await calls()).at(-1), "add 1 10 = added");
        assert.equal(await text("spoken"), "");
        await tab.key("s");
        await tab.settled();
        assert.match(await text("spoken"), /1, 1 of them vertices.*\(1, 10\) is on/);
        assert.deepEqual(await value('["role", "aria-live"].map((it) => document.getElementById("spoken").getAttribute(it))'), ["status", "polite"]);
        assert.equal(await value('document.querySelectorAll("#drawn [aria-live], #drawn[aria-live], #drawn[role]").length'), 0);
    });
    await tried("the cross can be moved over any view by keys, which keep it in sight", async () => {
        const seen = () => value("page.view.toScreen(page.cursor).every((it, axis) => it >= 0 && it <= page.view.size[axis])");
        await anew();
        await value("(page.cursor = null, document.getElementById('plane').focus())");
        for (let i = 0; i < 14; i++) await tab.key("ArrowRight", "Shift");
        assert.deepEqual([await value("page.cursor.join()"), await seen()], ["140,0", true]);
        const scale = await value("page.view.scale");
        await tab.key("+");
        assert.deepEqual([await value("page.view.scale"), await value("page.cursor.join()"), await seen()], [2 * scale, "140,0", true]);
        for (let i = 0; i < 2; i++) await tab.key("-");
        assert.equal(await value("page.view.scale"), scale / 2);
        // a view in which a unit is far less than a pixel
        await choose(file("far.csv", "x,y\n-1000000000,0\n1000000000,0\n0,900000000\n"));
        await value("(page.cursor = null, document.getElementById('plane').focus())");
        const before = await value("page.view.toScreen(page.view.middle.map(Math.round))");
        await tab.key("ArrowLeft");
        const after = await value("page.view.toScreen(page.cursor)");
        assert.ok(Math.abs(before[0] - after[0] - 8) < 1 && before[1] === after[1], `${before} ${after}`);
        const points = [];
        for (const keys of [["n"], ["n"], ["N", "Shift"], ["n"], ["n"], ["n"]]) {
            await tab.key(...keys);
            points.push(await value("page.cursor.join()"));
        }
        const [first, second, third] = ["-1000000000,0", "1000000000,0", "0,900000000"];
        assert.deepEqual(points, [first, second, first, second, third, first]);
        await tab.key("Delete");
        assert.equal((await calls()).at(-1), "remove -1000000000 0 = removed");
        await tab.key("U", "Shift");
        assert.equal((await calls()).at(-1), "add -1000000000 0 = added");
        await anew();
    });
    await tried("the list has only what is seen, and a line that is pressed is gone to", async () => {
        await anew();
        await press("many");
        const rows = () => value('document.querySelectorAll("#lines li").length');
        assert.deepEqual([await outside(), (await calls()).length], [0, 1000]);
        assert.ok((await rows()) < 60, `${await rows()} rows`);
        await value('document.getElementById("lines").scrollTop = 20 * 500');
        await tab.settled();
        const [index, place] = await value(`(() => {
            document.getElementById("lines").scrollIntoView({ block: "nearest" });
            const row = document.querySelectorAll("#lines li")[3], { left, top } = row.getBoundingClientRect();
            return [Number(row.dataset.index), [left + 40, top + 10]];
        })()`);
        assert.ok(Math.abs(index - 503) < 3);
        await tab.click(place);
        assert.equal(await text("place"), `${index + 1} of 1000 calls`);
        assert.equal(await value("page.hull.count() === page.replay.held.size && page.replay.at"), index + 1);
        assert.equal(await value('document.querySelector("#lines .last").dataset.index'), String(index));
        const kinds = await value('JSON.stringify([...document.querySelectorAll("#lines li")].map((it) => [Number(it.dataset.index), it.className, it.ariaCurrent]))');
        assert.ok(JSON.parse(kinds).every(([at, name, step]) => name === (at < index ? "" : at === index ? "last" : "later") && step === (at === index ? "step" : null)), kinds);
        await value('document.getElementById("lines").focus()');
        await tab.key("Home");
        assert.equal(await text("place"), "0 of 1000 calls");
        await tab.key("ArrowDown");
        assert.equal(await text("place"), "1 of 1000 calls");
    });
}

async function tryDeeds() {
    await tried("the slider goes back and forth, and undo goes back to where it was", async () => {
        await anew();
        for (const point of [[0, 0], [9, 0], [9, 9], [0, 9]]) await click(point);
        const before = await vertices();
        await value('document.getElementById("step").focus()');
        const states = [];
        for (const key of ["Home", "ArrowRight", "ArrowRight", "End", "ArrowLeft"]) {
            await tab.key(key);
            await tab.settled();
            states.push(await vertices());
        }
        assert.deepEqual(states, ["", "0,0", "0,0 9,0", before, "0,0 9,0 9,9"]);
        await press("undo");
        assert.deepEqual([await vertices(), await text("place")], [before, "4 of 4 calls"]);
    });
    await tried("a call from an earlier place cuts the rest off, and undo brings it back", async () => {
        await press("back");
        await press("back");
        await click([-9, -9]);
        assert.deepEqual((await calls()).slice(2), ["add -9 -9 = added"]);
        await press("undo");
        assert.equal((await calls()).length, 4);
        await press("redo");
        assert.deepEqual((await calls()).slice(2), ["add -9 -9 = added"]);
        await press("undo");
        await press("undo");
        assert.deepEqual([(await calls()).length, await text("place")], [4, "4 of 4 calls"]);
    });
    await tried("undo of a new plane and of an opened file, and redo of both", async () => {
        const before = await journal();
        await press("anew");
        await choose(file("three.csv", "1,1\n2,2\n3,1\n"));
        assert.equal((await calls()).length, 3);
        const opened = await journal();
        await press("undo");
        assert.deepEqual(await calls(), []);
        await press("undo");
        assert.equal(await journal(), before);
        await press("redo");
        await press("redo");
        assert.equal(await journal(), opened);
    });
    await tried("a new call ends what could be done again", async () => {
        await anew();
        for (const point of [[0, 0], [4, 0]]) await click(point);
        await press("undo");
        await click([0, 9]);
        await press("redo");
        assert.deepEqual(await calls(), ["add 0 0 = added", "add 4 0 = added", "remove 4 0 = removed", "add 0 9 = added"]);
    });
    await tried("questions asked of an earlier place leave the later calls", async () => {
        await press("questions");
        await press("back");
        await tab.move(await at([-9, -9]));
        await tab.move(await at([-12, -3]));
        assert.equal((await calls()).length, 4);
        await press("on");
        await tab.move(await at([-11, -3]));
        await press("questions");
        const asked = (await calls()).slice(4);
        assert.ok(asked.length >= 2 && asked.every((it) => /^(place|tangents) /.test(it)), asked.join());
    });
    await tried("a drag in a full journal keeps its point", async () => {
        await choose(file("full.journal", "hullbook journal 3 first 0 limit 9 capacity 2\n0 0 add 0 0 = added\nend 1\n"));
        await value("(page.view.fit([]), page.show())");
        await tab.drag(await at([0, 0]), await at([6, 6]));
        assert.deepEqual([await held(), (await calls()).length], [[["0 0", 1]], 1]);
        assert.match(await text("last"), /full/);
    });
    await tried(`${CLICKS} clicks at random, with questions`, async () => {
        await anew();
        await press("questions");
        const random = random_of(5);
        for (let i = 0; i < CLICKS; i++) await click([random(60) - 30, random(40) - 20], { shift: !random(4) });
        await press("questions");
        assert.ok((await calls()).length >= 2 * CLICKS);
        writeFileSync(`${folder}/${browser}-clicks.journal`, await journal());
    });
}

async function tryFiles() {
    await tried("the saved file is the journal", async () => {
        await press("circle");
        await press("some");
        const written = await saved("journal");
        assert.equal(written, await journal());
        writeFileSync(`${folder}/${browser}-saved.journal`, written);
    });
    await tried("a wrong line is shown: which, what is there and what should be", async () => {
        const wrong = "hullbook journal 3 first 7 limit 2 capacity 9\n7 1 add 1 1 = added\n8 2 place 1 1 = inside\nend 2\n";
        await choose(file("wrong.journal", wrong));
        assert.deepEqual([await text("wrong-where"), await text("wrong-found"), await text("wrong-expected")],
            ["line 3 of wrong.journal", "8 2 place 1 1 = inside", "8 2 place 1 1 = on"]);
        assert.equal(await text("place"), "1 of 2 calls");
        assert.match(await value('document.querySelector("#lines .wrong").textContent'), /^✗ 8 2 place 1 1 = inside \(should be: 8 2 place 1 1 = on\)$/);
    });
    await tried("of a text that is no journal the wrong line is shown, and nothing changes", async () => {
        const before = await journal();
        await choose(file("text.journal", "hullbook journal 3 first 0 limit 2 capacity 9\n0 0 push 1 1 = added\nend 1\n"));
        assert.deepEqual([await text("wrong-where"), await text("wrong-found")], ["line 2 of text.journal", "0 0 push 1 1 = added"]);
        const words = ["add", "area", "count", "extreme", "place", "remove", "tangents", "vertices"]; // in whatever order
        assert.deepEqual((await text("wrong-expected")).match(/[a-z]+/g).filter((it) => words.includes(it)).sort(), words);
        await choose(file("points.csv", "1,2\n3,x\n"));
        assert.deepEqual([await text("wrong-where"), await text("wrong-found")], ["line 2 of points.csv", "3,x"]);
        assert.equal(await journal(), before);
    });
    await tried("a file that can't be read, and one that is wrong and falls on the example, say so", async () => {
        const before = await journal();
        await value("page.opened([{ name: 'folder', text: () => Promise.reject(new Error('it was not to be had')) }, { name: 'two', text: async () => '1,2' }])");
        await tab.settled();
        assert.equal(await text("last"), "folder, two: it was not to be had");
        await press("own");
        assert.equal(await value("page.mode"), "example");
        await tab.drop({ "wrong.csv": "1,2\n3,x\n" });
        await tab.until('page.mode === "draw"');
        await tab.settled();
        assert.deepEqual([await text("wrong-where"), await journal()], ["line 2 of wrong.csv", before]);
    });
    await tried("the segments of a journal are opened together, in whatever order, and a missing one is reported", async () => {
        const segment = (first, ...lines) => `hullbook journal 3 first ${first} limit 9 capacity 4\n${lines.map((it, i) => `${first + i} 0 ${it}\n`).join("")}end ${lines.length}\n`;
        const segments = [segment(0, "add 0 0 = added", "add 9 0 = added"), segment(2, "add 0 9 = added"), segment(3, "place 1 1 = inside", "count = count 4")];
        const files = segments.map((it, i) => file(`segment${i}.journal`, it));
        await choose(files[1], files[0]);
        assert.match(await text("last"), /2 segments are a legal journal/);
        assert.deepEqual([await text("place"), await vertices()], ["3 of 3 calls", "0,0 9,0 0,9"]);
        await choose(files[2], files[0], files[1]);
        assert.deepEqual([await text("wrong-where"), await text("wrong-expected")], ["line 3 of segment2.journal", "4 0 count = count 3"]);
        await choose(files[2], files[0]);
        assert.match(await text("last"), /a segment is missing: those before end at 2, and segment2.journal begins at 3/);
    });
    await tried("points come from CSV, GeoJSON and SVG, and go out so that they come back the same", async () => {
        await choose(file("in.csv", "x;y;times\n0;0;2\n0.5;8\n8;0.25\n8;8\n"));
        const wanted = [["0 0", 2], ["2 32", 1], ["32 1", 1], ["32 32", 1]];
        assert.deepEqual([await held(), await value("page.work.power"), await text("area")], [wanted, 2, "61"]);
        for (const kind of ["csv", "geojson", "svg"]) {
            const out = await saved(kind);
            await press("anew");
            await choose(file(`again.${kind}`, out));
            assert.deepEqual([await held(), await value("page.work.power")], [wanted, 2], kind);
        }
        const polygon = JSON.parse(readFileSync(`${folder}/again.geojson`, "utf8")).features[1].geometry;
        assert.deepEqual(polygon, { type: "Polygon", coordinates: [[[0, 0], [8, 0.25], [8, 8], [0.5, 8], [0, 0]]] });
        await choose(file("shapes.svg", '<svg xmlns="http://www.w3.org/2000/svg"><g transform="translate(10 0) scale(2)"><circle cx="1" cy="2"/><path d="M0 0h3v1l1 1z"/></g><polyline points="1,1 2,2"/></svg>'));
        assert.deepEqual((await held()).map(([key]) => key), ["1 -1", "10 0", "12 -4", "16 -2", "16 0", "18 -4", "2 -2"]);
        // subpaths, one of which begins with more than one point; the other transforms, and what has no place
        const drawing = (inside) => file("more.svg", `<svg xmlns="http://www.w3.org/2000/svg">${inside}</svg>`);
        await choose(drawing('<path d="M0 0 10 0z m5 5 1 0z l2 2"/>'));
        assert.deepEqual((await held()).map(([key]) => key), ["0 0", "10 0", "5 -5", "6 -5", "7 -7"]);
        await choose(drawing('<rect width="50%" height="2"/><rect x="3" y="4" width="2" height="1"/><line x1="1" y1="1" x2="2" y2="1" transform="scale(2 3)"/><ellipse transform="matrix(1 0 0 1 20 30)"/><polygon points="9,9 8 8"/>'));
        assert.deepEqual((await held()).map(([key]) => key), ["2 -3", "20 -30", "3 -4", "3 -5", "4 -3", "5 -4", "5 -5", "8 -8", "9 -9"]);
        for (const [transform, wanted] of [["rotate(90 1 0)", [1, -2]], ["rotate(90)", [0, -3]], ["skewX(45)", [3, 0]], ["translate(2)", [5, 0]], ["scale(2)", [6, 0]]]) {
            await choose(drawing(`<circle cx="3" cy="0" transform="${transform}"/>`));
            const point = await value("[...page.replay.held.keys()][0].split(' ').map((it) => Number(it) / 2 ** page.work.power)");
            assert.ok(point.every((it, i) => Math.abs(it - wanted[i]) < 1e-9), `${transform}: ${point}`);
        }
        await choose(file("degrees.geojson", '{"type":"FeatureCollection","features":[{"type":"Feature","geometry":{"type":"Point","coordinates":[8.5417,47.3769]}},{"type":"Feature","geometry":{"type":"LineString","coordinates":[[7.4474,46.948],[6.1432,46.2044]]}}]}'));
        assert.equal(await value("page.hull.count()"), 3);
        assert.match(await text("last"), /3 points opened, times 2\^34, \d of their numbers rounded/);
    });
    await tried("files are dropped, several at once", async () => {
        await press("anew");
        await tab.drop({ "one.csv": "1,1\n", "two.csv": "5,5\n9,1\n" });
        await tab.until("page.hull.count() === 3");
        assert.equal(await vertices(), "1,1 9,1 5,5");
    });
    await tried("the address contains the points, and opens them", async () => {
        await tab.until(`location.hash === "#points=1,1;5,5;9,1"`);
        await tab.go(`${url}#points=0,0;7,0*2;0,7`);
        await tab.until("page.hull.count() === 3 && page.hull.multiplicity(7, 0) === 2");
        await press("undo");
        assert.equal(await vertices(), "1,1 9,1 5,5");
        await tab.go(`${url}#points=0,0;7`);
        await tab.until('document.getElementById("wrong-found").textContent === "7"');
    });
}

async function tryKeeping() {
    await tried("a reload loses nothing: the journal, the place in it, the view and what takes deeds back", async () => {
        await anew();
        for (const point of [[3, 4], [5, -6], [9, 9]]) await click(point);
        await press("anew");
        for (const point of [[1, 1], [2, 5], [-4, 4]]) await click(point);
        await press("back");
        const before = [await journal(), await text("place"), await value("page.view.scale + page.view.middle.join()")];
        await tab.reload();
        assert.deepEqual([await journal(), await text("place"), await value("page.view.scale + page.view.middle.join()")], before);
        for (let i = 0; i < 5; i++) await press("undo");
        assert.deepEqual((await calls()).slice(0, 3), ["add 3 4 = added", "add 5 -6 = added", "add 9 9 = added"]);
    });
    await tried("a reload loses nothing of a long journal, at once after its last call", async () => {
        await anew();
        await value("page.do(Array.from({ length: 150000 }, (_, i) => `add ${i % 3000} ${(i * 7919) % 5003}`))");
        await value("page.keep()"); // (what the page does once it rests)
        await click([2, 3]);
        const before = await value("[page.replay.journal.lines.length, page.replay.held.size, page.text().length].join()");
        await tab.reload();
        assert.equal(await value("[page.replay.journal.lines.length, page.replay.held.size, page.text().length].join()"), before);
    });
    await tried("a page that was opened by an address keeps its points, not what is in the address", async () => {
        await anew();
        await click([1, 2]);
        await tab.until('location.hash === "#points=1,2"');
        await click([3, 3]);
        await tab.reload();
        assert.deepEqual((await held()).map(([key]) => key), ["1 2", "3 3"]);
    });
}

async function tryMany() {
    for (const number of MANY) {
        await tried(`${number} points: a move of the pointer draws no more than ${MOST} strokes`, async () => {
            await anew();
            const run = () => value(`(async () => {
                page.work.openCalls(Array.from({ length: ${number} }, (_, i) => {
                    const angle = i * 2.399963, far = 1000 * Math.sqrt(i);
                    return "add " + Math.round(far * Math.cos(angle)) + " " + Math.round(far * Math.sin(angle));
                }), 0);
                page.fitted();
                const plane = document.getElementById("plane"), { left, top, width, height } = plane.getBoundingClientRect(), pen = plane.getContext("2d");
                const send = (type, x, y) => plane.dispatchEvent(new PointerEvent(type, { pointerType: "mouse", pointerId: 1, button: type === "pointermove" ? -1 : 0, clientX: left + x, clientY: top + y, bubbles: true }));
                const pens = CanvasRenderingContext2D.prototype, names = ["moveTo", "lineTo", "arc", "stroke", "fill", "fillText", "drawImage", "putImageData"];
                const before = names.map((name) => pens[name]);
                let calls = 0;
                names.forEach((name, at) => { pens[name] = function (...words) { calls++; return before[at].apply(this, words); }; });
                /** The middle one of the times that moves take, drawn and read back, and the most calls that one makes. */
                const timed = (place) => {
                    let most = 0;
                    const times = Array.from({ length: 41 }, (_, i) => {
                        const began = performance.now();
                        calls = 0;
                        send("pointermove", ...place(i));
                        page.showNow();
                        most = Math.max(most, i > 0 ? calls : 0);
                        pen.getImageData(0, 0, 1, 1);
                        return performance.now() - began;
                    });
                    return [times.slice(1).sort((a, b) => a - b)[20], most];
                };
                page.showNow();
                const moves = timed((i) => [width / 2 + 3 * i, height * (i % 2 ? 0.02 : 0.3)]);
                send("pointerdown", 5, 5);
                const pans = timed((i) => [20 + 2 * i, 20 + i]);
                send("pointerup", 30, 30);
                const [x, y] = page.view.toScreen(page.hull.extreme(1, 0));
                send("pointerdown", x, y);
                const drags = timed((i) => [x - 30 - i, y + i]);
                send("pointerup", x - 60, y + 60);
                names.forEach((name, at) => { pens[name] = before[at]; });
                return [moves, pans, drags, page.replay.journal.lines.length];
            })()`);
            const [[moves, strokes], [pans], [drags], lines] = await run();
            assert.ok(lines > number + 40, "the drag made no calls");
            assert.ok(strokes > 0 && strokes <= MOST, `${strokes} calls`);
            return `${strokes} calls, ${moves.toFixed(2)} ms, of the plane ${pans.toFixed(2)}, of a point ${drags.toFixed(2)}`;
        });
    }
    await tried("a list of 150,000 lines is gone through to its end, and all points fit the view", async () => {
        await anew();
        await value("page.do(Array.from({ length: 150000 }, (_, i) => `add ${i % 50000} ${i % 7}`))");
        await press("fit");
        assert.ok(Math.abs((await value("page.view.middle[0]")) - 25000) < 2);
        const last = () => value('document.querySelector("#lines li:last-child").dataset.index');
        await value('document.getElementById("lines").scrollTop = 1e9');
        await tab.settled();
        assert.equal(await last(), "149999");
        await value('document.getElementById("lines").focus()');
        await tab.key("Home");
        await tab.settled();
        assert.equal(await value('document.getElementById("lines").scrollTop'), 0);
        await press("fit");
    });
    await tried("150,000 vertices fit the view", async () => {
        await value("(page.work.openCalls(Array.from({ length: 150000 }, (_, i) => `add ${i - 50000} ${(i - 50000) ** 2}`), 0), page.show())");
        await press("fit");
        assert.deepEqual(await value("[page.hull.vertices().length, Math.round(page.view.middle[0])]"), [150000, 25000]);
        await press("anew");
    });
}

async function tryFingers() {
    await tried("a tap adds, and the readings stay where the finger lifted", async () => {
        await anew();
        for (const point of [[-10, -8], [10, -8], [0, 9]]) await tab.tap(await at(point));
        await tab.settled();
        assert.deepEqual(await calls(), ["add -10 -8 = added", "add 10 -8 = added", "add 0 9 = added"]);
        assert.equal(await text("where"), "(0, 9) is on");
        await tab.slide(await at([3, 3]), await at([8, 8]));
        await wait(200);
        assert.match(await text("where"), /^\(3, 3\) is inside$/);
        assert.equal((await calls()).length, 3);
    });
    await tried("a finger that stays asks, and draws nothing", async () => {
        const middle = await value("page.view.middle.join()"), place = await at([-4, -4]), to = await at([-6, 12]);
        await tab.hold(place, to, 700);
        assert.deepEqual([(await calls()).length, await value("page.view.middle.join()")], [3, middle]);
        assert.match(await text("where"), /^\(-6, 12\) is outside$/);
        assert.match(await text("left"), /^left \(/);
    });
    await tried("a finger takes a point along", async () => {
        const from = await at([0, 9]), to = await at([4, 15]);
        // (a browser that gets the finger's steps late, on a busy machine, takes it for one that stays, and asks)
        for (let i = 0; i < 10 && (await held()).some(([key]) => key === "0 9"); i++) await tab.slide(from, to);
        assert.deepEqual((await held()).map(([key]) => key), ["-10 -8", "10 -8", "4 15"]);
        await press("undo");
        assert.deepEqual((await held()).map(([key]) => key), ["-10 -8", "0 9", "10 -8"]);
    });
    await tried("two fingers zoom and move, and draw nothing", async () => {
        await anew();
        const [one, two] = [await at([-5, 0]), await at([5, 0])], scale = await value("page.view.scale"), far = ([x, y], by) => [x + by, y];
        await tab.touch([one, one, far(one, -30), far(one, -60), null], [null, two, far(two, 30), far(two, 60), null]);
        await tab.settled();
        assert.deepEqual(await calls(), []);
        assert.ok((await value("page.view.scale")) > 1.4 * scale);
    });
    await tried("random points lie in what is seen", async () => {
        await anew();
        await press("many");
        assert.deepEqual([await outside(), (await calls()).length], [0, 1000]);
    });
    await tried("the answers are in sight without scrolling", async () => assert.ok(await isInSight("plane", "drawn")));
}

async function drawn() {
    await anew();
    const points = [[-17, -4], [-12, -16], [6, -18], [15, -11], [18, 6], [10, 15], [-8, 16], [-15, 11], [-6, 4], [8, -6], [3, 8], [-10, -6], [9, 4]];
    await value(`page.do(${JSON.stringify([...points, points[3], points[8], points[8], points[10]].map((it) => `add ${it.join(" ")}`))})`);
    if (tab.isPhone) await tab.hold(await at([-2, 2]), await at([17, -17]), 700);
    else await tab.move(await at([24, -16]));
    await value("scrollTo(0, 0)");
    for (const scheme of ["dark", "light"]) writeFileSync(`${folder}/${browser}-drawn-${tab.shown[0]}-${scheme}.png`, await tab.picture(scheme));
}

async function tryDesktop() {
    tab = await Tab.open(url, DESKTOP, { browser });
    await tab.link.downloadsTo(folder);
    await tryExample();
    await tryMouse();
    await tried("the answers are in sight without scrolling", async () => assert.ok(await isInSight("plane", "drawn", "lines")));
    await tryDeeds();
    await tryFiles();
    await tryKeeping();
    await tryMany();
    await tried("pictures of a drawing, light and dark", drawn);
    await tried("nothing escaped the page's code", async () => assert.equal(await escaped(), ""));
    await tab.close();
}

async function tryPhone() {
    tab = await Tab.open(url, PHONE, { browser, isPhone: true });
    await tryExample();
    await tryFingers();
    await tried("pictures of a drawing on a phone", drawn);
    await tried("nothing escaped the page's code on a phone", async () => assert.equal(await escaped(), ""));
    await tab.close();
}

async function tryStill() {
    const words = browser === "chromium" ? ["--force-prefers-reduced-motion"] : [], prefs = { "ui.prefersReducedMotion": 1 };
    tab = await Tab.open(url, DESKTOP, { browser, words, prefs });
    await tried("if motion is not wanted the example is still until it is asked to go on", async () => {
        const points = async () => (await text("shown-points"), value("page.example.ticks"));
        const before = await points();
        await wait(900);
        assert.deepEqual([await points(), await text("pause")], [before, "Go on"]);
        await press("pause");
        await tab.until(`page.example.ticks > ${before}`);
    });
    await tab.close();
}

async function tryDead() {
    await tried("without WebAssembly there is a message in place of the page", async () => {
        tab = await Tab.open(url, DESKTOP, { browser, isDead: true, words: browser === "chromium" ? ["--js-flags=--jitless"] : [], prefs: { "javascript.options.wasm": false } });
        await tab.until('!document.getElementById("fault").hidden');
        assert.match(await value('document.getElementById("fault").textContent'), /^The page can't start: this browser has no WebAssembly/);
        assert.deepEqual(await value('["plane", "own", "undo"].map((id) => document.getElementById(id).getClientRects().length)'), [0, 0, 0]);
    });
    await tab.close();
}

for (const run of [tryDesktop, tryPhone, tryStill, tryDead].filter((it) => !process.env.ONLY || it.name.includes(process.env.ONLY))) {
    await run().catch(async (error) => {
        failed++;
        console.log(`${browser}: ${run.name}: FAILED, ${error.stack}`);
        await tab?.close();
    });
}
console.log(`${passed} passed, ${failed} failed`);
process.exit(failed ? 1 : 0);
