// How the tests of web/ in Node are reported and counted. One that hangs fails too: a thread beside them ends the process, since no timer
// of this thread runs as long as a call does not return.
import { Worker } from "node:worker_threads";

// how long one test may take, on the slowest of machines
const MINUTES = Number(process.env.TEST_MINUTES ?? 8);
const WATCHES = `
    const { parentPort, workerData } = require("node:worker_threads"), { writeSync } = require("node:fs");
    let timer;
    parentPort.on("message", ({ name, passed, failed }) => {
        clearTimeout(timer);
        timer = setTimeout(() => {
            writeSync(1, name + ": FAILED, it did not end in " + workerData + " minutes\\n" + passed + " passed, " + (failed + 1) + " failed\\n");
            process.kill(process.pid, "SIGKILL");
        }, 60000 * workerData);
    });`;
const watchdog = new Worker(WATCHES, { eval: true, execArgv: [], workerData: MINUTES });
watchdog.unref();
let passed = 0, failed = 0;

/** Runs a test, and reports it with what it returns, or with what it threw. */
export async function tried(name, run) {
    watchdog.postMessage({ name, passed, failed });
    try {
        const said = await run();
        passed++;
        console.log(`${name}: ok${said ? `, ${said}` : ""}`);
    } catch (error) {
        failed++;
        console.log(`${name}: FAILED, ${String(error.stack).split("\n").slice(0, 12).join(" ")}`);
    }
}

/** Writes the last line, and ends the process. */
export function end() {
    console.log(`${passed} passed, ${failed} failed`);
    process.exit(failed === 0 ? 0 : 1);
}
