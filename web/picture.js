// The picture: a hull with its points, its stored bridges, and what moves above them.
import { pointOf } from "./texts.js";

const LABELS = 400; // up to so many points are drawn as discs, with their multiplicities; more are written as pixels, all at once
const MERGED = 1.5; // vertices nearer to one another, in pixels, are drawn as one

/** Yields the vertices [x0, y0, x1, ..] on the screen, except those that look the same as the one before. */
function* seenOf(vertices, view, least) {
    let [left, top] = [NaN, NaN];
    for (let i = 0; i < vertices.length; i += 2) {
        const at = view.toScreen([vertices[i], vertices[i + 1]]);
        if (Math.abs(at[0] - left) < least && Math.abs(at[1] - top) < least) continue;
        [left, top] = at;
        yield at;
    }
}

export class Picture {
    constructor(canvas, view) {
        this.canvas = canvas;
        this.view = view;
        this.front = this.pen = canvas.getContext("2d");
        this.still = document.createElement("canvas"); // the layer that moves only with the view
        this.dots = document.createElement("canvas"); // points as pixels
        this.drawn = null; // the state that the still layer shows
    }

    resize() {
        const { width, height } = this.canvas.getBoundingClientRect();
        this.ratio = globalThis.devicePixelRatio || 1;
        for (const layer of [this.canvas, this.still, this.dots]) {
            layer.width = Math.max(1, Math.round(width * this.ratio));
            layer.height = Math.max(1, Math.round(height * this.ratio));
            layer.getContext("2d").setTransform(this.ratio, 0, 0, this.ratio, 0, 0);
        }
        this.view.size = [width, height];
        this.style = getComputedStyle(document.documentElement);
        this.pixels = this.drawn = null;
    }

    color(name) {
        return this.style.getPropertyValue(`--${name}`);
    }

    /** Draws all: `scene` draws the still layer, again only for another `state` or view; `over` draws what moves. */
    draw({ state, scene, over }) {
        const shown = JSON.stringify([state, this.view]);
        if (shown !== this.drawn) {
            this.pen = this.still.getContext("2d");
            this.pen.clearRect(0, 0, ...this.view.size);
            scene(this);
            this.pen = this.front;
            this.drawn = shown;
        }
        this.pen.clearRect(0, 0, ...this.view.size);
        this.pen.drawImage(this.still, 0, 0, ...this.view.size);
        over(this);
    }

    grid() {
        const { view } = this;
        if (view.scale < 6) return;
        const [left, top] = view.toLattice([0, 0]), [right, low] = view.toLattice(view.size), lines = [];
        for (let x = left; x <= right; x++) lines.push([[x, top + 1], [x, low - 1]]);
        for (let y = low; y <= top; y++) lines.push([[left - 1, y], [right + 1, y]]);
        this.lines(lines, "grid", 1);
    }

    /** Draws segments of one color; the dashes are lengths of strokes and gaps. */
    lines(segments, color, width, dashes = []) {
        const { pen, view } = this;
        pen.beginPath();
        for (const [from, to] of segments) {
            pen.moveTo(...view.toScreen(from));
            pen.lineTo(...view.toScreen(to));
        }
        pen.setLineDash(dashes);
        pen.strokeStyle = this.color(color);
        pen.lineWidth = width;
        pen.stroke();
        pen.setLineDash([]);
    }

    polygon(vertices, color = "hull", inside = "inside") {
        const { pen } = this;
        pen.beginPath();
        for (const [left, top] of seenOf(vertices, this.view, 0.25)) pen.lineTo(left, top);
        pen.closePath();
        pen.fillStyle = this.color(inside);
        pen.fill();
        pen.strokeStyle = this.color(color);
        pen.lineWidth = 2;
        pen.stroke();
    }

    vertices(vertices, color = "hull") {
        this.discs(seenOf(vertices, this.view, MERGED), 4.5, color);
    }

    discs(places, radius, color) {
        const { pen } = this;
        pen.beginPath();
        for (const [left, top] of places) {
            pen.moveTo(left + radius, top);
            pen.arc(left, top, radius, 0, 2 * Math.PI);
        }
        pen.fillStyle = this.color(color);
        pen.fill();
    }

    /** Draws the stored bridges of a level: the deeper, the thinner. The lower ones are dashed. */
    bridges(bridges, level) {
        for (const chain of ["upper", "lower"]) {
            this.lines(bridges.map((it) => it[chain]), chain, Math.max(0.5, 3 - level / 3), chain === "lower" ? [6, 3] : []);
        }
    }

    /** Draws the points of the set, as the replay of a journal keeps them. */
    points(held) {
        if (held.size > LABELS) return this.plotted(held.coordinates, held.size);
        this.discs(Array.from(held.keys(), (key) => this.view.toScreen(pointOf(key))), 2.5, "point");
        this.pen.font = "12px system-ui, sans-serif";
        for (const [key, times] of held) if (times > 1) this.word(String(times), this.view.toScreen(pointOf(key)));
    }

    word(text, [left, top], color = "text") {
        this.pen.fillStyle = this.color(color);
        this.pen.fillText(text, left + 7, top - 7);
    }

    /** Draws many points, each a square of pixels in an image that is put in place at once. */
    plotted(coordinates, count) {
        const { width, height } = this.dots, { view, ratio } = this, pen = this.dots.getContext("2d");
        this.pixels ??= pen.createImageData(width, height);
        const words = new Uint32Array(this.pixels.data.buffer), ink = this.ink("point"), side = Math.max(2, Math.round(3 * ratio));
        const [x, y] = view.middle, scale = view.scale * ratio, left = (width - side) / 2, top = (height - side) / 2;
        words.fill(0);
        for (let i = 0; i < 2 * count; i += 2) {
            const column = Math.round(left + (coordinates[i] - x) * scale), row = Math.round(top - (coordinates[i + 1] - y) * scale);
            if (column < 0 || row < 0 || column + side > width || row + side > height) continue;
            for (let at = row * width + column, end = at + side * width; at < end; at += width) {
                for (let step = 0; step < side; step++) words[at + step] = ink;
            }
        }
        pen.putImageData(this.pixels, 0, 0);
        this.pen.drawImage(this.dots, 0, 0, ...view.size);
    }

    /** Returns a color as the word of a pixel of it. */
    ink(color) {
        const pen = Object.assign(document.createElement("canvas"), { width: 1, height: 1 }).getContext("2d");
        pen.fillStyle = this.color(color);
        pen.fillRect(0, 0, 1, 1);
        return new Uint32Array(pen.getImageData(0, 0, 1, 1).data.buffer)[0];
    }

    /** Draws a cross, and the lines from it to the tangent points: the one to the right is dashed. */
    pointer(cursor, seen) {
        if (seen !== null) {
            this.lines([[cursor, seen.left]], "left", 2);
            this.lines([[cursor, seen.right]], "right", 2, [7, 4]);
        }
        const [left, top] = this.view.toScreen(cursor);
        this.pen.beginPath();
        for (const [x, y] of [[6, 0], [0, 6]]) {
            this.pen.moveTo(left - x, top - y);
            this.pen.lineTo(left + x, top + y);
        }
        this.pen.lineWidth = 1.5;
        this.pen.strokeStyle = this.color("text");
        this.pen.stroke();
    }
}
