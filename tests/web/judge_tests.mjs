// The page's judge beside the program's, over a plain hull: judge_tests.mjs [PROGRAM]. Each journal has the verdict that the rules
// give it, by hand; if the program is named, its `check` gives the same.
import { strict as assert } from "node:assert";
import { execFileSync } from "node:child_process";
import { mkdtempSync, rmSync, writeFileSync } from "node:fs";
import { tmpdir } from "node:os";
import { TooMany } from "../../web/hull.js";
import { Replay, TextError, judge, readJournal } from "../../web/journal.js";
import { Plain } from "./plain.mjs";
import { end, tried } from "./tried.mjs";

/** The plain hull, which refuses as that of hull.js does. */
class Refusing extends Plain {
    add(x, y) {
        const times = super.add(x, y);
        if (times === 0) throw new TooMany("too many");
        return times;
    }
}

const head = (version, more = "first 0 limit 3 capacity 9") => `hullbook journal ${version} ${more}\n`;
const text = (start, ...lines) => `${start}${lines.map((it, i) => `${i} ${it}\n`).join("")}end ${lines.length}\n`;
// a name, the journal, and the verdict: legal, illegal with the line of the text from 1, or null if the text is no journal. To the program
// a text with a reply of another version is no journal either, but to the judge it is wrong: such a row has the program's verdict, too
const journals = [
    ["an empty one", text(head(3)), "legal"],
    ["a point twice, counted", text(head(3), "0 add 1 1 = added", "0 add 1 1 = again 2", "0 count = count 1"), "legal"],
    ["a point twice, not counted", text(head(2), "0 add 1 1 = added", "0 add 1 1 = already", "0 remove 1 1 = removed", "0 count = count 0"), "legal"],
    ["not counted in version 1", text(head(1), "0 add 1 1 = added", "0 add 1 1 = already"), "legal"],
    ["counted where it should not be", text(head(2), "0 add 1 1 = added", "0 add 1 1 = again 2"), "illegal 3", null],
    ["not counted where it should be", text(head(3), "0 add 1 1 = added", "0 add 1 1 = already"), "illegal 3", null],
    ["memory refused to a new point", text(head(3), "0 add 1 1 = nomemory", "0 count = count 0"), "legal"],
    ["memory refused to one that is there", text(head(3), "0 add 1 1 = added", "0 add 1 1 = nomemory"), "illegal 3"],
    ["memory refused at the limit", text(head(3, "first 0 limit 1 capacity 9"), "0 add 1 1 = added", "0 add 2 2 = nomemory"), "illegal 3"],
    ["memory refused to vertices", text(head(3), "0 add 1 1 = added", "0 vertices = nomemory"), "legal"],
    ["memory refused to no vertices", text(head(3), "0 vertices = nomemory"), "illegal 2"],
    ["memory refused to a count", text(head(3), "0 add 1 1 = added", "0 count = nomemory"), "illegal 3"],
    ["a full one", text(head(3, "first 0 limit 3 capacity 2"), "0 count = count 0", "0 count = count 0"), "legal"],
    ["one line too many", text(head(3, "first 0 limit 3 capacity 2"), "0 count = count 0", "0 count = count 0", "0 count = count 0"), "illegal 4"],
    ["the last seat", text(head(3), "63 count = count 0"), "legal"],
    ["a seat too many", text(head(3), "64 count = count 0"), null],
    ["a number left out", `${head(3)}0 0 count = count 0\n2 0 count = count 0\nend 2\n`, "illegal 3"],
    ["numbers that begin anew", `${head(3, `first ${2n ** 64n - 1n} limit 3 capacity 9`)}${2n ** 64n - 1n} 0 count = count 0\n0 0 count = count 0\nend 2\n`, "legal"],
    ["too many points", text(head(3, "first 0 limit 1 capacity 9"), "0 add 1 1 = added", "0 add 2 2 = toomany", "0 place 2 2 = outside"), "legal"],
    ["a wrong vertex", text(head(3), "0 add 1 1 = added", "0 vertices = list 1 1 2"), "illegal 3"],
    ["a coordinate too great", text(head(3), "0 add 1099511627777 0 = added"), null],
    ["no end line", head(3), null],
];

function verdict(journal) {
    try {
        const read = readJournal(journal), { word, index } = judge(new Refusing(read.limit), read);
        return word === "legal" ? word : `${word} ${index + 2}`;
    } catch (error) {
        if (error instanceof TextError) return null;
        throw error;
    }
}

for (const [name, journal, wanted] of journals) {
    await tried(name, () => assert.equal(verdict(journal), wanted));
}
// a wrong line leaves no trace: what was before it is there, and the replay goes back and forward again
for (const line of ["0 add 2 2 = again 2", "0 add 1 1 = added", "0 remove 1 1 = left 4", "0 remove 5 5 = removed"]) {
    await tried(`after the wrong line ${line}`, () => {
        const journal = readJournal(text(head(3), "0 add 1 1 = added", "0 add 1 1 = again 2", line, "0 count = count 1"));
        const hull = new Refusing(3), replay = new Replay(hull, journal);
        for (let round = 0; round < 3; round++) {
            assert.equal(replay.go(4), 2);
            assert.equal(replay.wrong.index, 2);
            assert.deepEqual([[...hull.held], [...replay.held]], [[["1 1", 2]], [["1 1", 2]]]);
            assert.equal(replay.go(-round), 0);
            assert.deepEqual([hull.held.size, replay.held.size], [0, 0]);
        }
    });
}
await tried("a full journal takes no call", () => {
    const replay = new Replay(new Refusing(3), readJournal(text(head(3, "first 0 limit 3 capacity 1"))));
    replay.call("add 1 1");
    assert.throws(() => replay.call("add 2 2"), RangeError);
});

const program = process.argv[2];
if (program) {
    const folder = mkdtempSync(`${tmpdir()}/judge`), file = `${folder}/journal`;
    for (const [name, journal, here, wanted = here] of journals) {
        await tried(`the program on ${name}`, () => {
            writeFileSync(file, journal);
            let said;
            try {
                said = execFileSync(program, ["check", file], { encoding: "utf8", stdio: ["ignore", "pipe", "pipe"] });
            } catch (error) {
                said = error.stdout;
            }
            assert.equal(said.trim(), wanted ?? "");
        });
    }
    rmSync(folder, { recursive: true });
}
console.log(`the judge of journals: ${program ? "as the program says" : "the program is not there"}`);
end();
