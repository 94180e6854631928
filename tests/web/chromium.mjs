// Chromium by its pipe: texts of JSON, each ended by a byte of 0.
const WORDS = ["--headless=new", "--no-sandbox", "--disable-gpu", "--no-first-run", "--hide-scrollbars", "--remote-debugging-pipe"];
const SHIFT = 8;
const HELD = { Control: 2, Shift: SHIFT, Meta: 4 };

export class ChromiumLink {
    #waiting = new Map();
    #sent = 0;
    #kept = Buffer.alloc(0);

    static command(folder, [width, height], { words = [] }) {
        const all = [...WORDS, `--user-data-dir=${folder}`, `--window-size=${width},${height}`, ...words];
        return { words: all, stdio: ["ignore", "ignore", "ignore", "pipe", "pipe"] };
    }

    static async to(process) {
        const link = new ChromiumLink();
        link.out = process.stdio[3];
        process.stdio[4].on("data", (chunk) => link.#take(chunk));
        const { targetId } = await link.call("Target.createTarget", { url: "about:blank" });
        link.session = (await link.call("Target.attachToTarget", { targetId, flatten: true })).sessionId;
        await link.ask("Runtime.enable");
        await link.ask("Page.enable");
        await link.ask("DOM.enable");
        return link;
    }

    #take(chunk) {
        this.#kept = Buffer.concat([this.#kept, chunk]);
        for (let end; (end = this.#kept.indexOf(0)) >= 0; this.#kept = this.#kept.subarray(end + 1)) {
            const said = JSON.parse(this.#kept.subarray(0, end));
            this.#waiting.get(said.id)?.(said);
            this.#waiting.delete(said.id);
        }
    }

    call(method, params = {}, sessionId = undefined) {
        const id = ++this.#sent;
        return new Promise((done, failed) => {
            this.#waiting.set(id, (said) => (said.error ? failed(new Error(`${method}: ${said.error.message}`)) : done(said.result)));
            this.out.write(`${JSON.stringify({ id, method, params, sessionId })}\0`);
        });
    }

    ask(method, params) {
        return this.call(method, params, this.session);
    }

    async navigate(url) {
        await this.ask("Page.navigate", { url });
    }

    async reload() {
        await this.value("globalThis.page = null");
        await this.ask("Page.reload");
    }

    async size([width, height], isPhone) {
        await this.ask("Emulation.setDeviceMetricsOverride", { width, height, deviceScaleFactor: isPhone ? 2 : 1, mobile: isPhone });
        await this.ask("Emulation.setTouchEmulationEnabled", { enabled: isPhone });
    }

    async value(expression) {
        const words = { expression, awaitPromise: true, returnByValue: true };
        const { result, exceptionDetails } = await this.ask("Runtime.evaluate", words);
        if (exceptionDetails) throw new Error(exceptionDetails.exception?.description || exceptionDetails.text);
        return result.value;
    }

    async mouse(steps, shift = false) {
        const modifiers = shift ? SHIFT : 0;
        let isDown = false;
        for (const [step, at] of steps) {
            if (at) [this.x, this.y] = at;
            if (step !== "move") isDown = step === "down";
            const type = { move: "mouseMoved", down: "mousePressed", up: "mouseReleased" }[step], isPress = step !== "move";
            const words = { type, x: this.x, y: this.y, modifiers, button: isDown || isPress ? "left" : "none", buttons: isDown ? 1 : 0, clickCount: isPress ? 1 : 0 };
            await this.ask("Input.dispatchMouseEvent", words);
        }
    }

    async touch(fingers) {
        // (a finger hits what the last picture has: one is made of the page as it is)
        await this.ask("Page.captureScreenshot", { format: "png", clip: { x: 0, y: 0, width: 1, height: 1, scale: 1 } });
        let before = [];
        for (let i = 0; i < Math.max(...fingers.map((it) => it.length)); i++) {
            if (typeof fingers[0][i] === "number") {
                await new Promise((done) => setTimeout(done, fingers[0][i]));
                continue;
            }
            const touchPoints = fingers.flatMap((it, id) => (it[i] ? [{ x: it[i][0], y: it[i][1], id }] : []));
            const type = touchPoints.length > before.length ? "touchStart" : touchPoints.length < before.length ? "touchEnd" : "touchMove";
            if (touchPoints.length || before.length) await this.ask("Input.dispatchTouchEvent", { type, touchPoints });
            before = touchPoints;
        }
    }

    async wheel([x, y], deltaY) {
        await this.ask("Input.dispatchMouseEvent", { type: "mouseWheel", x, y, deltaX: 0, deltaY });
    }

    async key(key, held) {
        const modifiers = held.reduce((sum, it) => sum + HELD[it], 0);
        for (const type of ["keyDown", "keyUp"]) await this.ask("Input.dispatchKeyEvent", { type, key, code: key, modifiers });
    }

    async choose(id, files) {
        const { result } = await this.ask("Runtime.evaluate", { expression: `document.getElementById(${JSON.stringify(id)})` });
        await this.ask("DOM.setFileInputFiles", { files, objectId: result.objectId });
    }

    async downloadsTo(folder) {
        await this.call("Browser.setDownloadBehavior", { behavior: "allow", downloadPath: folder });
    }

    async scheme(scheme) {
        await this.ask("Emulation.setEmulatedMedia", { features: [{ name: "prefers-color-scheme", value: scheme }] });
    }

    async picture() {
        return (await this.ask("Page.captureScreenshot", { format: "png" })).data;
    }

    async close() {
        await this.call("Browser.close").catch(() => {});
    }
}
