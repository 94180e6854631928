// A journal with all that was done to it: each deed can be undone and redone. No document is needed for it.
import { Replay, emptyJournal, inverse, lineText } from "./journal.js";

const inverses = (lines) => lines.map(inverse).filter((it) => it !== null).reverse();

/** What a deed left: for calls those that undo them, for a step the position before it, else all that was there: { calls, at or was
 * }. */
export class Work {
    #Hull;
    #done = [];
    #undone = [];
    /** Counts what changed the hull or the journal. */
    state = 0;
    /** The last call, or why there was none. */
    message = "";

    constructor(Hull, was = { journal: emptyJournal(), power: 0 }) {
        this.#Hull = Hull;
        this.#take(was);
    }

    /** Returns a journal, the position in it, and the power of two that its points were multiplied by. */
    get here() {
        return { journal: this.replay.journal, at: this.replay.at, power: this.power };
    }

    get isAtTheEnd() {
        return this.replay.at === this.replay.journal.lines.length;
    }

    #take({ journal, at = journal.lines.length, power }) {
        this.hull?.free();
        this.hull = new this.#Hull(journal.limit);
        this.replay = new Replay(this.hull, journal);
        this.power = power;
        this.#to(at);
    }

    #to(at) {
        this.replay.go(at);
        this.state += 1;
        const { journal } = this.replay;
        this.message = this.replay.at > 0 ? lineText(journal.lines[this.replay.at - 1]) : "";
    }

    /** Whether the journal has space for so many calls; if not, reports that. */
    hasSpace(calls) {
        const { at, journal } = this.replay;
        if (at + calls <= journal.capacity) return true;
        this.message = "the journal is full: save it, and begin a new one";
        return false;
    }

    #make(calls) {
        const lines = [];
        try {
            for (const call of calls) lines.push(this.replay.call(call));
            this.message = lines.length ? lineText(lines.at(-1)) : "";
        } catch (error) {
            this.message = error.message;
        }
        this.state += lines.length > 0;
        return lines;
    }

    /** Begins a deed of calls that is not finished yet. */
    begin() {
        return { was: this.here, isCut: !this.isAtTheEnd, lines: [] };
    }

    /** Makes calls of a deed. From an earlier position they continue in a journal of their own: the later lines are in the one
     * before. */
    make(deed, calls) {
        const { replay } = this, { wrong } = replay, { was } = deed;
        if (deed.isCut && replay.journal === was.journal) {
            const { lines, ...head } = was.journal;
            replay.journal = { ...head, lines: lines.slice(0, was.at) };
            replay.wrong = null;
        }
        for (const line of this.#make(calls)) deed.lines.push(line);
        if (deed.lines.length === 0 && deed.isCut) Object.assign(replay, { journal: was.journal, wrong });
    }

    end({ was, isCut, lines }) {
        if (lines.length === 0) return;
        const calls = inverses(lines);
        if (isCut) this.#remember({ was });
        else if (calls.length > 0) this.#remember({ calls });
    }

    #remember(deed) {
        this.#done.push(deed);
        this.#undone = [];
    }

    /** Makes calls as one deed. */
    do(calls) {
        const deed = this.begin();
        this.make(deed, calls);
        this.end(deed);
    }

    /** Writes questions, which change nothing, only after all calls: from an earlier position they would cut the later ones off. */
    ask(calls) {
        if (this.isAtTheEnd && this.hasSpace(calls.length)) this.#make(calls);
    }

    /** Takes a journal in place of the present one. */
    open(journal, power = 0) {
        const was = this.here;
        this.#take({ journal, power });
        this.#remember({ was });
    }

    /** Takes the points that calls add in place of all that there was. */
    openCalls(calls, power) {
        const was = this.here;
        this.#take({ journal: emptyJournal(), power });
        this.#make(calls);
        this.#remember({ was });
    }

    /** Goes to a number of calls. Consecutive steps are undone as one. */
    go(to) {
        const { at } = this.replay, last = this.#done.at(-1);
        this.#to(to);
        if (this.replay.at === at) return;
        this.#undone = [];
        if (last?.at === undefined) this.#done.push({ at });
        else if (last.at === this.replay.at) this.#done.pop();
    }

    undo() {
        this.#turn(this.#done, this.#undone);
    }

    redo() {
        this.#turn(this.#undone, this.#done);
    }

    /** Undoes the last deed of one list, and puts into the other what does it again. */
    #turn(from, to) {
        const deed = from.at(-1), back = deed && this.#back(deed);
        if (!back) return;
        from.pop();
        to.push(back);
    }

    #back({ calls, at, was }) {
        const { here } = this;
        if (was) this.#take(was);
        else if (at !== undefined) this.#to(at);
        else return this.hasSpace(calls.length) ? { calls: inverses(this.#make(calls)) } : null;
        return was ? { was: here } : { at: here.at };
    }

    /** Returns what a page stores to continue here: the deeds of `kept` are those of this. */
    get deeds() {
        return { done: this.#done, undone: this.#undone };
    }

    /** Continues with deeds that were stored. */
    takeUp({ done, undone }) {
        [this.#done, this.#undone] = [done, undone];
    }
}
