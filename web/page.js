// The page round the hull: drawing, the pointer, and opening, saving and storing.
import { emptyJournal, joinJournals, journalText, lineText, readJournal } from "./journal.js";
import { toFloat } from "./exchange.js";
import { addressOf, callsOf, kindOf, readAddress, readRows, writeRows } from "./texts.js";
import { Example } from "./example.js";
import { Keeper } from "./keep.js";
import { List } from "./list.js";
import { Picture } from "./picture.js";
import { View, clamped } from "./view.js";
import { Work } from "./work.js";

const NEAR = { mouse: 9, touch: 18, pen: 12 }; // a pointer is at a point if it is within so many pixels
const STILL = 4; // so many pixels a pointer may move in a click
const HOLD = 400; // milliseconds after which a finger that stays asks instead of drawing
const REST = 300; // milliseconds without a change until the journal is stored
const STEPS = { ArrowLeft: [-1, 0], ArrowRight: [1, 0], ArrowUp: [0, 1], ArrowDown: [0, -1] };
const SEEN = 8; // a step of the cross is at least so many pixels
const PUSH = 10; // a step of the example's segment
const NOTHING = { move() {}, end() {} }; // a drag of nothing

const element = (id) => document.getElementById(id);
const setText = (id, text) => {
    if (element(id).textContent !== text) element(id).textContent = text;
};

export class Page {
    #drag = null;
    #fingers = new Map(); // the position of each pointer that is down
    #holding = 0;
    #drawing = false;
    #listed = null; // the state that the list shows
    #keeping = 0;
    #before = null; // the time of the last frame of the example

    /** Continues with what the browser stored, or with the points of the address, or opens with the example. */
    static async start(library) {
        const keeper = new Keeper();
        return new Page(library, keeper, await keeper.read());
    }

    constructor(library, keeper, kept) {
        Object.assign(this, { library, keeper, cursor: null, fault: null, isPaused: matchMedia("(prefers-reduced-motion: reduce)").matches });
        this.view = new View();
        this.picture = new Picture(element("plane"), this.view);
        this.work = new Work(library.Hull, kept?.was);
        this.list = new List(element("lines"), (to) => this.go(to));
        this.example = null;
        this.picture.resize();
        if (kept) this.work.takeUp(kept.deeds);
        this.#enter(kept && kept.mode === "draw" ? "draw" : "example");
        if (kept?.view && this.mode === "draw") Object.assign(this.view, kept.view);
        // (an address that the page wrote itself may be older than what is stored)
        if (location.hash !== kept?.address) this.linked();
        this.listen();
        new ResizeObserver(() => this.resized()).observe(element("plane"));
        matchMedia("(prefers-color-scheme: dark)").addEventListener("change", () => this.resized());
        this.show();
    }

    get hull() {
        return this.work.hull;
    }

    get replay() {
        return this.work.replay;
    }

    resized() {
        this.picture.resize();
        if (this.mode === "example") this.view.fit(this.example.range, 1);
        this.show();
    }

    /** Shows the example, or the plane that is drawn on. */
    #enter(mode) {
        this.mode = document.body.dataset.mode = mode;
        if (mode === "example") {
            this.example = new Example(this.library);
            this.#before = null;
        } else {
            this.example?.free();
            this.example = null;
        }
        setText("own", mode === "example" ? "Draw your own" : "Show the example");
        setText("pause", this.isPaused ? "Go on" : "Pause");
        this.picture.resize();
        this.view.fit(mode === "example" ? this.example.range : this.hull.vertexArray(), mode === "example" ? 1 : 0.8);
    }

    /** Changes from the example to a plane to draw on, and back. */
    turn() {
        this.#enter(this.mode === "example" ? "draw" : "example");
        this.point(null);
        this.#rested();
        this.show();
    }

    pause() {
        this.isPaused = !this.isPaused;
        setText("pause", this.isPaused ? "Go on" : "Pause");
        this.show();
    }

    /** Stores the journal after it has not changed for a while. */
    #rested() {
        clearTimeout(this.#keeping);
        this.#keeping = setTimeout(() => this.keep(), REST);
    }

    /** Stores all for the next time. */
    keep(isEnding = false) {
        const { mode, view: { scale, middle } } = this;
        if (mode === "draw" && !isEnding) this.#address();
        return this.keeper.keep(this.work, { mode, view: { scale, middle }, address: location.hash }, isEnding);
    }

    /** Puts the points into the address, if they are few. */
    #address() {
        const address = addressOf(this.replay.held, this.work.power);
        try {
            if (location.hash !== address) history.replaceState(null, "", address || location.href.replace(/#.*/, ""));
        } catch {
            // (a browser that does not change the addresses of files)
        }
    }

    /** Takes the points of the address, if they differ from the present ones. */
    linked() {
        this.#tried("the address", () => {
            const found = readAddress(location.hash);
            if (found === null || location.hash === addressOf(this.replay.held, this.work.power)) return;
            this.work.openCalls(found.calls, found.power);
            this.#shown();
        });
    }

    /** Shows all that was opened. */
    #shown() {
        if (this.mode === "example") this.#enter("draw");
        this.view.fit(this.hull.vertexArray());
        this.#rested();
        this.show();
    }

    /** Does what may be refused: shows the reason, with the line of a text that is wrong. */
    #tried(name, run) {
        this.fault = null;
        try {
            run();
        } catch (error) {
            if (this.mode === "example") this.#enter("draw"); // (where the reason is seen)
            this.work.message = `${name}: ${error.message}`;
            this.fault = error.line ? { where: `line ${error.line} of ${error.file ?? name}`, found: error.found, expected: error.expected } : null;
        }
        this.show();
    }

    /** Runs a deed of the user's, and shows its result. */
    deed(run) {
        this.fault = null;
        run(this.work);
        this.#rested();
        this.show();
    }

    do(calls) {
        this.deed((work) => work.do(calls));
    }

    go(to) {
        this.deed((work) => work.go(to));
    }

    /** Returns the point of the set nearest to a position on the screen, or null. */
    near(place, reach) {
        const { coordinates, size } = this.replay.held, [x, y] = this.view.exact(place);
        let least = (reach / this.view.scale) ** 2, found = null;
        for (let i = 0; i < 2 * size; i += 2) {
            const squared = (coordinates[i] - x) ** 2 + (coordinates[i + 1] - y) ** 2;
            if (squared <= least) [least, found] = [squared, [coordinates[i], coordinates[i + 1]]];
        }
        return found;
    }

    /** Draws and updates in the next frame. */
    show() {
        if (this.#drawing) return;
        this.#drawing = true;
        requestAnimationFrame((now) => {
            this.#drawing = false;
            this.showNow(now);
        });
    }

    showNow(now = performance.now()) {
        if (this.mode === "example") return this.#showExample(now);
        const { cursor, hull } = this, seen = cursor === null ? null : hull.tangents(...cursor);
        this.picture.draw({
            state: ["draw", this.work.state, element("levels").value],
            scene: (picture) => this.#drawScene(picture),
            over: (picture) => cursor !== null && picture.pointer(cursor, seen),
        });
        setText("where", cursor === null ? "" : `${this.#text(cursor)} is ${hull.place(...cursor)}`);
        for (const side of ["left", "right"]) setText(side, seen === null ? "" : `${side} ${this.#text(seen[side])}`);
        setText("last", this.work.message);
        this.#showFault();
        if (this.#listed !== this.work.state) this.#showJournal();
    }

    #showExample(now) {
        if (!this.isPaused) this.example.move(this.#before === null ? 0 : now - this.#before);
        this.#before = this.isPaused ? null : now;
        this.picture.draw({ state: ["example", now], scene: () => {}, over: (picture) => this.example.draw(picture) });
        for (const [name, text] of Object.entries(this.example.readings())) setText(`shown-${name}`, text);
        if (!this.isPaused) this.show();
    }

    /** Returns a point as it was opened: its coordinates divided by the power of two that they were multiplied by. */
    #text(point) {
        return `(${point.map((it) => toFloat(it, this.work.power)).join(", ")})`;
    }

    /** Draws the still part of the picture, and updates its numbers. */
    #drawScene(picture) {
        const { hull, replay, work: { power } } = this, vertices = hull.vertexArray(), doubled = hull.doubledArea();
        setText("count", `${hull.count()}, ${vertices.length / 2} of them vertices`);
        setText("area", power === 0 ? `${doubled / 2n}${doubled % 2n ? ".5" : ""}` : `${toFloat(Number(doubled), 2 * power + 1)}`);
        picture.grid();
        picture.polygon(vertices);
        this.levels().forEach((bridges, level) => picture.bridges(bridges, level));
        picture.points(replay.held);
        picture.vertices(vertices);
    }

    /** Returns the stored bridges of as many levels as are requested and exist. */
    levels() {
        const asked = Number(element("levels").value), levels = [];
        for (let level = 0; level < asked; level++) {
            const bridges = this.hull.bridges(level);
            if (bridges.length === 0) break;
            levels.push(bridges);
        }
        setText("leveled", `${levels.length} level${levels.length === 1 ? "" : "s"}`);
        return levels;
    }

    #showJournal() {
        const { at, journal, wrong } = this.replay, { length } = journal.lines;
        Object.assign(element("step"), { max: wrong === null ? length : wrong.index, value: at });
        setText("place", `${at} of ${length} calls`);
        this.list.show(this.replay);
        this.#listed = this.work.state;
    }

    /** Shows a fault of the text that was to be opened, or of the journal that is: the line, the text that is there, and the one that
     * should be. */
    #showFault() {
        const { wrong, journal } = this.replay;
        let { fault } = this;
        if (!fault && wrong !== null) {
            const segment = journal.segments?.findLast((it) => it.from <= wrong.index) ?? { name: "the journal", from: 0 };
            fault = { where: `line ${wrong.index - segment.from + 2} of ${segment.name}`, found: lineText(wrong.line), expected: wrong.expected };
        }
        element("wrong").hidden = !fault;
        for (const name of fault ? ["where", "found", "expected"] : []) setText(`wrong-${name}`, fault[name]);
    }

    /** Speaks what is shown now: only on request. */
    speak() {
        const rows = [...document.querySelectorAll(this.mode === "example" ? "#shown > *" : "#drawn > *")];
        const text = rows.map((it) => it.textContent.trim()).filter(Boolean).join(", ");
        setText("spoken", "");
        requestAnimationFrame(() => setText("spoken", text));
    }

    /** Moves the cross, and writes its questions if requested. */
    point(cursor) {
        if (cursor?.join() === this.cursor?.join()) return;
        this.cursor = cursor;
        if (cursor !== null && element("questions").checked) {
            this.work.ask(["place", "tangents"].map((word) => `${word} ${cursor.join(" ")}`));
            this.#rested();
        }
        this.show();
    }

    listen() {
        const on = (target, names) => {
            for (const [name, run] of Object.entries(names)) target.addEventListener(name, run, { passive: false });
        };
        on(element("plane"), {
            pointerdown: (event) => this.pressed(event),
            pointermove: (event) => this.moved(event),
            pointerup: (event) => this.released(event),
            pointercancel: (event) => this.left(event),
            pointerleave: (event) => event.pointerType === "mouse" && this.#drag === null && this.point(null),
            contextmenu: (event) => this.#fingers.size > 0 && event.preventDefault(),
            wheel: (event) => this.turned(event),
            keydown: (event) => this.keyed(event),
        });
        on(window, {
            pagehide: () => this.keep(true),
            hashchange: () => this.linked(),
            keydown: (event) => this.commanded(event),
            dragover: (event) => event.preventDefault(),
            drop: (event) => {
                event.preventDefault();
                this.opened(event.dataTransfer.files);
            },
        });
        element("step").addEventListener("input", ({ target }) => this.go(Number(target.value)));
        element("levels").addEventListener("input", () => this.show());
        element("open").addEventListener("change", async ({ target }) => {
            await this.opened(target.files);
            target.value = "";
        });
        for (const [id, run] of Object.entries(this.#buttons())) element(id).addEventListener("click", run);
    }

    #buttons() {
        return {
            own: () => this.turn(),
            pause: () => this.pause(),
            back: () => this.go(Math.max(0, this.replay.at - 1)),
            on: () => this.go(this.replay.at + 1),
            undo: () => this.deed((work) => work.undo()),
            redo: () => this.deed((work) => work.redo()),
            some: () => this.do(this.random(20)),
            circle: () => this.do(this.circle(48)),
            many: () => this.do(this.random(1000)),
            fit: () => this.fitted(),
            anew: () => this.anew(),
            save: () => this.save(element("kind").value),
            speak: () => this.speak(),
        };
    }

    placeOf(event) {
        const { left, top } = this.picture.canvas.getBoundingClientRect();
        return [event.clientX - left, event.clientY - top];
    }

    pressed(event) {
        if (event.button !== 0) return;
        const place = this.placeOf(event);
        try {
            this.picture.canvas.setPointerCapture(event.pointerId);
        } catch {
            // (a pointer that has left already)
        }
        this.#fingers.set(event.pointerId, place);
        if (this.#fingers.size > 1) {
            // a second finger: what the first began ends, and both move the view
            this.#dropped();
            this.#drag = { ...NOTHING, from: place, isMoved: true };
        } else {
            const drag = this.mode === "example" ? this.#dragExample(place) : this.#dragPlane(place, event);
            this.#drag = { ...drag, from: place, last: place, isMoved: false };
        }
        if (this.mode === "draw") this.point(this.view.toLattice(place));
    }

    #pan() {
        return { move: (place, last) => this.view.pan(place[0] - last[0], place[1] - last[1]), end() {} };
    }

    #dragExample(place) {
        const move = this.example.taken(place, this.view);
        return move ? { move, end() {} } : this.#pan();
    }

    /** Handles a press on a point, which moves it, or removes it if the pointer does not move; elsewhere it moves the view, or adds a
     * point. */
    #dragPlane(place, { pointerType }) {
        const held = this.near(place, NEAR[pointerType] ?? NEAR.mouse), deed = this.work.begin();
        let at = held;
        if (pointerType !== "mouse") this.#holding = setTimeout(() => this.#drag && Object.assign(this.#drag, NOTHING, { isMoved: true }), HOLD);
        return {
            move: (to, last) => {
                if (!held) return this.#pan().move(to, last);
                const next = this.view.toLattice(to);
                // (both calls or none: if the journal is full the point stays)
                if (next.join() === at.join() || !this.work.hasSpace(2)) return;
                this.work.make(deed, [`remove ${at.join(" ")}`, `add ${next.join(" ")}`]);
                at = next;
            },
            end: (event, isMoved) => {
                const point = (held ?? this.view.toLattice(place)).join(" ");
                if (isMoved) this.deed((work) => work.end(deed));
                else if (event) this.do([`${held && !event.shiftKey ? "remove" : "add"} ${point}`]);
            },
        };
    }

    moved(event) {
        const place = this.placeOf(event), drag = this.#drag;
        if (this.#fingers.size > 1) return this.pinched(event.pointerId, place);
        if (drag && (drag.isMoved || Math.hypot(place[0] - drag.from[0], place[1] - drag.from[1]) > STILL)) {
            clearTimeout(this.#holding);
            drag.isMoved = true;
            drag.move(place, drag.last);
            drag.last = place;
        }
        if (this.mode === "draw") this.point(this.view.toLattice(place));
        this.show();
    }

    /** Moves and zooms the view as two fingers do. */
    pinched(finger, place) {
        const other = [...this.#fingers].find(([it]) => it !== finger)?.[1], before = this.#fingers.get(finger);
        if (!other || !before) return;
        const distance = ([x, y]) => Math.max(1, Math.hypot(x - other[0], y - other[1]));
        this.view.zoom(distance(place) / distance(before), other);
        this.view.pan((place[0] - before[0]) / 2, (place[1] - before[1]) / 2);
        this.#fingers.set(finger, place);
        this.show();
    }

    /** Handles a pointer that has left. */
    left(event) {
        this.#fingers.delete(event.pointerId);
        if (this.#fingers.size === 0) this.#dropped();
    }

    released(event) {
        const drag = this.#drag;
        this.#fingers.delete(event.pointerId);
        if (drag === null || this.#fingers.size > 0) return;
        clearTimeout(this.#holding);
        this.#drag = null;
        drag.end(event, drag.isMoved);
    }

    /** Ends a drag as it is: all of it is undone as one. */
    #dropped() {
        clearTimeout(this.#holding);
        const drag = this.#drag;
        this.#drag = null;
        drag?.end(null, drag.isMoved);
    }

    turned(event) {
        event.preventDefault();
        this.view.zoom(event.deltaY < 0 ? 1.2 : 1 / 1.2, this.placeOf(event));
        this.show();
    }

    /** Undoes and redoes by the keys that all programs have for them. */
    commanded(event) {
        const key = event.key.toLowerCase();
        if (!(event.ctrlKey || event.metaKey) || !["z", "y"].includes(key) || this.mode !== "draw") return;
        event.preventDefault();
        element(key === "y" || event.shiftKey ? "redo" : "undo").click();
    }

    keyed(event) {
        if (event.ctrlKey || event.metaKey || event.altKey) return;
        const key = event.key.length === 1 ? event.key.toLowerCase() : event.key;
        const step = STEPS[key]?.map((it) => it * (event.shiftKey ? 10 : 1));
        const push = step && (() => this.#pushed(step));
        const run = key === "s" ? () => this.speak() : this.mode === "example" ? push : this.#keyOnPlane(key, step, event.shiftKey);
        if (!run) return;
        event.preventDefault();
        run();
    }

    /** Returns what a key does where the plane is drawn on, if it does anything. */
    #keyOnPlane(key, step, isShifted) {
        const [x, y] = this.cursor ?? this.view.middle.map(Math.round), unit = Math.max(1, Math.round(SEEN / this.view.scale));
        if (step) return () => this.#crossAt([x + unit * step[0], y + unit * step[1]]);
        const add = () => this.do([`add ${x} ${y}`]), remove = () => this.do([`remove ${x} ${y}`]);
        const undo = () => element("undo").click(), redo = () => element("redo").click();
        const zoom = (factor) => () => (this.view.zoom(factor, this.view.toScreen([x, y])), this.#crossAt([x, y]));
        return {
            Enter: add, " ": add, Delete: remove, Backspace: remove, u: undo, z: undo, r: redo, y: redo,
            "+": zoom(2), "=": zoom(2), "-": zoom(1 / 2), n: () => this.#nextPoint(isShifted ? -1 : 1),
        }[key];
    }

    /** Moves the cross, and the view if the cross would leave it. */
    #crossAt(place) {
        const point = place.map(clamped);
        this.view.reveal(point);
        this.point(point);
        this.show();
    }

    /** Moves the cross to the point after that on which it is, or before it. */
    #nextPoint(by) {
        const { coordinates, size } = this.replay.held, [x, y] = this.cursor ?? [];
        if (size === 0) return;
        let at = 0;
        while (at < size && (coordinates[2 * at] !== x || coordinates[2 * at + 1] !== y)) at++;
        const to = at === size ? (by > 0 ? 0 : size - 1) : (at + by + size) % size;
        this.#crossAt([coordinates[2 * to], coordinates[2 * to + 1]]);
    }

    /** Moves the segment of the example. */
    #pushed(step) {
        this.example.push(step.map((it) => PUSH * it));
        this.show();
    }

    /** Returns calls that add points at random to the visible range, most of them near its middle. */
    random(number) {
        const [width, height] = this.view.size;
        return Array.from({ length: number }, () => {
            const angle = 2 * Math.PI * Math.random(), away = 0.46 * Math.sqrt(Math.random());
            return this.adding([width * (0.5 + away * Math.cos(angle)), height * (0.5 + away * Math.sin(angle))]);
        });
    }

    circle(number) {
        const [width, height] = this.view.size, far = 0.42 * Math.min(width, height);
        return Array.from({ length: number }, (_, i) => {
            const angle = (2 * Math.PI * i) / number;
            return this.adding([width / 2 + far * Math.cos(angle), height / 2 + far * Math.sin(angle)]);
        });
    }

    adding(place) {
        return `add ${this.view.toLattice(place).join(" ")}`;
    }

    fitted() {
        this.view.fit(this.hull.vertexArray());
        this.show();
    }

    anew() {
        this.deed((work) => work.open(emptyJournal()));
        this.fitted();
    }

    /** Opens files: one, or the segments of a journal, or several of points. */
    async opened(files) {
        // (a folder, or a file that is too large, or no longer there, can't be read)
        this.open(await Promise.all(Array.from(files, async (file) => ({ name: file.name, text: await file.text().catch((error) => ({ error })) }))));
    }

    /** Opens texts with their names, in place of all that there is; if one is wrong, that is shown and nothing changes. */
    open(texts) {
        if (texts.length === 0) return;
        this.#tried(texts.map((it) => it.name).join(", "), () => {
            for (const { text: { error } } of texts) if (error) throw error;
            const kinds = new Set(texts.map(({ text }) => kindOf(text) === "journal"));
            if (kinds.size > 1) throw new RangeError("journals and points are not opened together");
            if (kinds.has(true)) this.#openJournals(texts);
            else this.#openPoints(texts);
            this.#shown();
        });
    }

    #openJournals(texts) {
        const segments = texts.map(({ name, text }) => ({ name, journal: readBy(readJournal, name, text) }));
        const [{ name, journal }] = segments, isOne = segments.length === 1;
        this.work.open(isOne ? { ...journal, segments: [{ name, from: 0 }] } : joinJournals(segments));
        if (this.replay.wrong === null) this.work.message = isOne ? "the journal is legal" : `the ${segments.length} segments are a legal journal`;
        else this.work.message = `the journal is wrong: ${this.replay.wrong.expected} is right`;
    }

    #openPoints(texts) {
        const rows = [];
        for (const { name, text } of texts) for (const row of readBy(readRows, name, text)) rows.push(row);
        const { calls, power, rounded } = callsOf(rows);
        this.work.openCalls(calls, power);
        const lattice = power === 0 ? "" : `, times 2^${power}${rounded ? `, ${rounded} of their numbers rounded` : ""}`;
        const refused = this.replay.journal.lines.filter((it) => it.reply === "toomany").length;
        this.work.message = `${rows.length} points opened${lattice}${refused ? `, ${refused} refused: a hull takes no more` : ""}`;
    }

    text() {
        return journalText(this.replay.journal);
    }

    save(kind) {
        const text = kind === "journal" ? this.text() : writeRows(kind, this.replay.held, this.hull.vertices(), this.work.power);
        const link = document.createElement("a");
        link.href = URL.createObjectURL(new Blob([text], { type: kind === "svg" ? "image/svg+xml" : "text/plain" }));
        link.download = `hullbook.${kind}`;
        link.click();
        setTimeout(() => URL.revokeObjectURL(link.href), 1000);
    }
}

/** Reads a text; a fault of it has its name. */
function readBy(read, name, text) {
    try {
        return read(text);
    } catch (error) {
        throw Object.assign(error, { file: name });
    }
}
