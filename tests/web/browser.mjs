// A browser with no window in which a page is opened, pressed, dragged, typed into and read: Chromium by its pipe, Firefox by Marionette,
// the protocol below WebDriver. Every press is an event of the browser's own, as of a mouse, a finger or a key.
import { spawn } from "node:child_process";
import { mkdtempSync, rmSync } from "node:fs";
import { tmpdir } from "node:os";
import { ChromiumLink } from "./chromium.mjs";
import { FirefoxLink } from "./firefox.mjs";

const LINKS = { chromium: ChromiumLink, firefox: FirefoxLink };
const PATIENCE = 120000; // milliseconds, also on a machine with much else to do

export const wait = (milliseconds) => new Promise((done) => setTimeout(done, milliseconds));

/** A tab with a page in it. */
export class Tab {
    /** Opens a page. `how` has the browser ("chromium"), its program, whether it is a phone, and words and prefs for it. */
    static async open(url, size, { browser = "chromium", program = process.env[browser.toUpperCase()] || browser, ...how } = {}) {
        const tab = new Tab(), Link = LINKS[browser], folder = mkdtempSync(`${tmpdir()}/page-`);
        Object.assign(tab, { browser, folder, isPhone: how.isPhone ?? false });
        const { words, stdio } = Link.command(folder, size, how);
        tab.process = spawn(program, words, { stdio, env: { ...process.env, HOME: folder, MOZ_HEADLESS: "1" } });
        tab.link = await Link.to(tab.process, folder);
        await tab.size(size);
        await tab.link.navigate(url);
        if (!how.isDead) await tab.until("Boolean(globalThis.page)");
        return tab;
    }

    /** Returns the value of an expression in the page, awaited if it is a promise. */
    value(expression) {
        return this.link.value(expression);
    }

    async until(expression) {
        for (const end = Date.now() + PATIENCE; Date.now() < end; await wait(30)) {
            if (await this.value(expression).catch(() => false)) return;
        }
        throw new Error(`it never came that ${expression}`);
    }

    /** Two frames of the page, if that draws at all. */
    settled() {
        return this.value("new Promise((done) => requestAnimationFrame(() => requestAnimationFrame(() => done(true))))");
    }

    async size(size) {
        this.shown = size;
        await this.link.size(size, this.isPhone);
    }

    /** The place of an element's middle, once it is scrolled into sight. */
    async middle(id) {
        const isMoved = await this.value(`(() => {
            const before = scrollY;
            document.getElementById(${JSON.stringify(id)}).scrollIntoView({ block: "nearest" });
            return scrollY !== before;
        })()`);
        // (until what the browser itself has of it has moved, too)
        await this.settled().then(() => wait(isMoved ? 100 : 0));
        return this.value(`(() => {
            const { left, top, width, height } = document.getElementById(${JSON.stringify(id)}).getBoundingClientRect();
            return [left + width / 2, top + height / 2];
        })()`);
    }

    async move(at) {
        await this.link.mouse([["move", at]]);
    }

    async click(at, { shift = false } = {}) {
        await this.link.mouse([["move", at], ["down"], ["up"]], shift);
    }

    async drag(from, to) {
        const steps = [1, 2, 3, 4, 5].map((i) => ["move", from.map((it, axis) => it + ((to[axis] - it) * i) / 5)]);
        await this.link.mouse([["move", from], ["down"], ...steps, ["up"]]);
    }

    /** Fingers, each by the places where it is step by step; a null lifts it, or is before it comes, and a number is a rest in milliseconds. */
    async touch(...fingers) {
        await this.link.touch(fingers);
    }

    async tap(at) {
        await this.touch([at, null]);
    }

    /** A finger that goes elsewhere and rests there, so that nothing flies on. */
    async slide(from, to) {
        await this.touch([from, from.map((it, i) => (it + to[i]) / 2), to, 150, to, null]);
        await this.settled();
    }

    /** A finger that stays a while, and then goes elsewhere. */
    async hold(from, to, milliseconds) {
        await this.touch([from, milliseconds, to, null]);
        await this.settled();
    }

    /** A press by what the device has: a finger on a phone, else the mouse. */
    async press(id) {
        const at = await this.middle(id);
        await this.value(`(globalThis.isPressed = false, document.getElementById(${JSON.stringify(id)}).addEventListener("click", () => (globalThis.isPressed = true), { once: true }), true)`);
        await (this.isPhone ? this.tap(at) : this.click(at));
        await this.until("globalThis.isPressed");
        await this.settled();
    }

    async wheel(at, down) {
        await this.link.wheel(at, down);
    }

    async key(key, ...held) {
        await this.link.key(key, held);
    }

    /** Chooses files in an input, as its dialog does. */
    async choose(id, files) {
        await this.link.choose(id, files);
    }

    /** Lets files fall on the page, by their names and texts. */
    async drop(files) {
        await this.value(`(() => {
            const transfer = new DataTransfer();
            for (const [name, text] of ${JSON.stringify(Object.entries(files))}) transfer.items.add(new File([text], name));
            const event = new DragEvent("drop", { dataTransfer: transfer, bubbles: true, cancelable: true });
            document.getElementById("plane").dispatchEvent(event);
            return event.defaultPrevented;
        })()`);
    }

    async reload() {
        await this.link.reload();
        await this.until("Boolean(globalThis.page)");
    }

    async go(url) {
        await this.link.navigate(url);
    }

    /** The page as a picture, with light or dark colors. */
    async picture(scheme) {
        await this.link.scheme(scheme);
        await this.settled();
        await wait(100);
        return Buffer.from(await this.link.picture(), "base64");
    }

    async text(id) {
        await this.settled();
        return this.value(`document.getElementById(${JSON.stringify(id)}).textContent`);
    }

    async close() {
        await this.link.close();
        const ended = this.process.exitCode !== null || new Promise((done) => this.process.once("exit", done));
        await Promise.race([ended, wait(3000)]);
        this.process.kill("SIGKILL");
        await wait(200);
        rmSync(this.folder, { recursive: true, force: true, maxRetries: 10, retryDelay: 100 });
    }
}
