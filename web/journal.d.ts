// The types of journal.js: journals of the program `hullbook`, read, judged and replayed.
import type { Hull } from "./hull.js";

/** The greatest number of lines of a journal. */
export const CAPACITY_LIMIT: number;

/** A text that is not a journal: the first line that is wrong, counted from 1, why, what was found and what was expected. */
export class TextError extends Error {
    constructor(line: number, why: string, found?: string, expected?: string);
    readonly line: number;
    readonly found: string;
    readonly expected: string;
}

/** A call with its reply, in the words of the text. */
export interface Line {
    number: bigint;
    seat: number;
    call: string;
    reply: string;
}

export interface Journal {
    version: number;
    first: bigint;
    limit: number;
    capacity: number;
    lines: Line[];
    /** The segments of which it was joined: their names, and the index of the first line of each. */
    segments?: { name: string; from: number }[];
}

/** Returns a journal with no line. */
export function emptyJournal(limit?: number): Journal;
/** Returns the number of a journal's line, counted from 0. */
export function numberOf(journal: Journal, index: number): bigint;
/** Returns the text of a line, without its end. */
export function lineText(line: Line): string;
/** Returns the text of a journal. */
export function journalText(journal: Journal): string;
/** Reads a journal; throws a TextError if the text is not one. Replies are not judged. */
export function readJournal(text: string): Journal;
/** Joins the segments of a journal, in any order; throws a RangeError if they do not continue one another. */
export function joinJournals(segments: { name: string; journal: Journal }[]): Journal;
/** Makes a call, and returns its reply in the words of the text. */
export function serve(hull: Hull, call: string): string;
/** Returns the call that reverts a change, or null if there was none. */
export function inverse(line: Pick<Line, "call" | "reply">): string | null;

/** A hull that follows a journal's lines, as far as they are right. */
export class Replay {
    constructor(hull: Hull, journal: Journal);
    journal: Journal;
    /** How many lines were served. */
    at: number;
    /** The first wrong line and the one that was expected; null if none was met. */
    wrong: { index: number; line: Line; expected: string } | null;
    /** The points: the multiplicity of "x y". */
    held: Map<string, number>;
    /** Makes a call after the last line served; lines after it are cut off. */
    call(call: string, seat?: number): Line;
    /** Goes forward or back until so many lines were served, or to the first wrong one; returns how many were. */
    go(to: number): number;
}

/** The verdict on a journal: "legal", or "illegal" with the index of its first wrong line. */
export function judge(hull: Hull, journal: Journal): { word: "legal" } | { word: "illegal"; index: number };
