// The position of the lattice on the canvas, in pixels: y goes up.
import { COORDINATE_LIMIT } from "./hull.js";

const SCALE = 8; // pixels for each unit of the lattice, to begin with
const LEAST = 1e-10, GREATEST = 80;

export const clamped = (value) => Math.max(-COORDINATE_LIMIT, Math.min(COORDINATE_LIMIT, value));

export class View {
    constructor() {
        this.scale = SCALE;
        this.middle = [0, 0];
        this.size = [1, 1];
    }

    toScreen([x, y]) {
        return [this.size[0] / 2 + (x - this.middle[0]) * this.scale, this.size[1] / 2 - (y - this.middle[1]) * this.scale];
    }

    /** Returns the position on the lattice of a position on the screen, also between points. */
    exact([left, top]) {
        return [this.middle[0] + (left - this.size[0] / 2) / this.scale, this.middle[1] - (top - this.size[1] / 2) / this.scale];
    }

    /** Returns the point of the lattice next to a position on the screen. */
    toLattice(place) {
        return this.exact(place).map((it) => clamped(Math.round(it)) + 0);
    }

    /** Shows all of the points, [x0, y0, x1, ..], with a margin; the first view if there are none. */
    fit(coordinates, part = 0.8) {
        if (coordinates.length === 0) return Object.assign(this, { scale: SCALE, middle: [0, 0] });
        let [left, right, low, high] = [Infinity, -Infinity, Infinity, -Infinity];
        for (let i = 0; i < coordinates.length; i += 2) {
            [left, right] = [Math.min(left, coordinates[i]), Math.max(right, coordinates[i])];
            [low, high] = [Math.min(low, coordinates[i + 1]), Math.max(high, coordinates[i + 1])];
        }
        this.middle = [(left + right) / 2, (low + high) / 2];
        const wide = this.size[0] / Math.max(1, right - left), tall = this.size[1] / Math.max(1, high - low);
        this.scale = Math.min(40, part * Math.min(wide, tall));
    }

    /** Zooms, with a position of the screen unchanged. */
    zoom(factor, [left, top] = this.size.map((it) => it / 2)) {
        const before = this.scale;
        this.scale = Math.min(GREATEST, Math.max(LEAST, this.scale * factor));
        const moved = 1 / before - 1 / this.scale;
        this.middle = [this.middle[0] + (left - this.size[0] / 2) * moved, this.middle[1] - (top - this.size[1] / 2) * moved];
    }

    /** Moves the view so far that a point is in it, with a margin. */
    reveal(point, margin = 20) {
        const beyond = this.toScreen(point).map((at, axis) => {
            const edge = Math.min(margin, this.size[axis] / 2);
            return Math.max(0, at - this.size[axis] + edge) + Math.min(0, at - edge);
        });
        this.pan(-beyond[0], -beyond[1]);
    }

    /** Moves the view by so many pixels. */
    pan(left, top) {
        this.middle = [this.middle[0] - left / this.scale, this.middle[1] + top / this.scale].map(clamped);
    }
}
