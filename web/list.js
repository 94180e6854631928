// The journal as a list of which only the visible lines are in the document. Pressing a line goes to its position.
import { lineText } from "./journal.js";

const ROW = 20; // pixels
const TALLEST = 2e6; // pixels that every browser supports; in a longer list the bar represents the lines in proportion
const KEYS = { ArrowUp: -1, ArrowDown: 1, PageUp: -20, PageDown: 20, Home: -Infinity, End: Infinity };

export class List {
    constructor(box, go) {
        this.box = box;
        [this.tall, this.rows] = ["div", "ol"].map((name) => box.appendChild(document.createElement(name)));
        this.replay = null;
        box.addEventListener("scroll", () => this.draw());
        box.addEventListener("keydown", (event) => {
            const step = KEYS[event.key];
            if (step === undefined) return;
            event.preventDefault();
            go(Math.max(0, Math.min(this.replay.journal.lines.length, this.replay.at + step)));
        });
        this.rows.addEventListener("click", ({ target }) => {
            const row = target.closest("li");
            if (row) go(Number(row.dataset.index) + 1);
        });
        new ResizeObserver(() => this.draw()).observe(box);
    }

    /** Shows the lines of a replay, with the one that was made last, or the wrong one, in the middle. */
    show(replay) {
        this.replay = replay;
        const { length } = replay.journal.lines, height = this.box.clientHeight, shown = replay.wrong?.index ?? replay.at - 1;
        this.tall.style.height = `${Math.min(TALLEST, ROW * length)}px`;
        const hidden = ROW * length - height, wanted = Math.max(0, Math.min(hidden, ROW * shown - height / 2));
        this.box.scrollTop = ROW * length <= TALLEST ? wanted : (wanted / hidden) * (TALLEST - height);
        this.draw();
    }

    /** Returns how many pixels of the list are above the visible ones, if it were as tall as it is long. */
    #above() {
        const { length } = this.replay.journal.lines, height = this.box.clientHeight, { scrollTop } = this.box;
        return ROW * length <= TALLEST ? scrollTop : (scrollTop / (TALLEST - height)) * (ROW * length - height);
    }

    draw() {
        if (this.replay === null) return;
        const { at, journal: { lines }, wrong } = this.replay, above = this.#above(), first = Math.floor(above / ROW);
        const number = Math.max(0, Math.min(lines.length - first, Math.ceil(this.box.clientHeight / ROW) + 1));
        while (this.rows.children.length < number) this.rows.append(document.createElement("li"));
        while (this.rows.children.length > number) this.rows.lastChild.remove();
        this.rows.style.transform = `translateY(${this.box.scrollTop - (above - first * ROW)}px)`;
        for (let i = 0; i < number; i++) this.row(this.rows.children[i], first + i, at, wrong);
    }

    row(row, index, at, wrong) {
        const line = this.replay.journal.lines[index], isWrong = wrong?.index === index;
        row.className = isWrong ? "wrong" : index === at - 1 ? "last" : index >= at ? "later" : "";
        row.textContent = row.title = `${isWrong ? "✗ " : ""}${lineText(line)}${isWrong ? ` (should be: ${wrong.expected})` : ""}`;
        row.dataset.index = index;
        row.ariaCurrent = index === at - 1 ? "step" : null;
        row.setAttribute("aria-posinset", index + 1);
        row.setAttribute("aria-setsize", this.replay.journal.lines.length);
    }
}
