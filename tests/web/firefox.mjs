// Firefox by Marionette: arrays of JSON over a socket, each after its length and a colon.
import { readFileSync, writeFileSync } from "node:fs";
import { connect } from "node:net";

const PREFS = {
    "marionette.port": 0, "browser.shell.checkDefaultBrowser": false, "browser.startup.homepage_override.mstone": "ignore", "datareporting.policy.dataSubmissionEnabled": false,
    "browser.download.folderList": 2, "browser.download.useDownloadDir": true, "browser.download.alwaysOpenPanel": false, "app.update.auto": false,
    "browser.helperApps.neverAsk.saveToDisk": "text/plain,image/svg+xml", "browser.download.always_ask_before_handling_new_types": false,
    "dom.w3c_touch_events.enabled": 1, "layout.css.prefers-color-scheme.content-override": 1, "remote.prefs.recommended": true, "toolkit.startup.max_resumed_crashes": -1,
    "privacy.reduceTimerPrecision": false, "browser.aboutwelcome.enabled": false, "browser.tabs.remote.autostart": true, "network.captive-portal-service.enabled": false,
};
const KEYS = { ArrowLeft: "\ue012", ArrowUp: "\ue013", ArrowRight: "\ue014", ArrowDown: "\ue015", Enter: "\ue007", Delete: "\ue017", Home: "\ue011", End: "\ue010", Control: "\ue009", Shift: "\ue008" };
const ELEMENT = "element-6066-11e4-a52e-4f735466cecf";

export class FirefoxLink {
    #waiting = new Map();
    #sent = 0;
    #kept = Buffer.alloc(0);

    static command(folder, [width, height], { words = [], prefs = {} }) {
        const all = Object.entries({ ...PREFS, "browser.download.dir": folder, ...prefs });
        writeFileSync(`${folder}/user.js`, all.map(([name, value]) => `user_pref(${JSON.stringify(name)}, ${JSON.stringify(value)});\n`).join(""));
        const opened = ["--headless", "--no-remote", "--profile", folder, "--marionette", "--remote-allow-system-access", "--width", width, "--height", height];
        return { words: [...opened.map(String), ...words, "about:blank"], stdio: ["ignore", "ignore", "ignore"] };
    }

    /** Joins the browser once it has written the number of its port. */
    static async to(process, folder) {
        const link = new FirefoxLink();
        for (let i = 0; ; i++) {
            try {
                const port = Number(readFileSync(`${folder}/MarionetteActivePort`, "utf8"));
                if (port) {
                    await link.#join(port);
                    break;
                }
            } catch (error) {
                if (i > 600 || process.exitCode !== null) throw error;
            }
            await new Promise((done) => setTimeout(done, 50));
        }
        await link.ask("WebDriver:NewSession", { capabilities: { alwaysMatch: { unhandledPromptBehavior: "accept" } } });
        await link.ask("WebDriver:SetTimeouts", { script: 120000, pageLoad: 60000 });
        return link;
    }

    #join(port) {
        return new Promise((done, failed) => {
            this.socket = connect(port, "127.0.0.1").once("error", failed);
            this.#waiting.set("hello", done);
            this.socket.on("data", (chunk) => this.#take(chunk));
        });
    }

    #take(chunk) {
        this.#kept = Buffer.concat([this.#kept, chunk]);
        for (let colon; (colon = this.#kept.indexOf(58)) > 0; ) {
            const end = colon + 1 + Number(this.#kept.subarray(0, colon));
            if (this.#kept.length < end) return;
            const said = JSON.parse(this.#kept.subarray(colon + 1, end));
            this.#kept = this.#kept.subarray(end);
            const id = Array.isArray(said) ? said[1] : "hello";
            this.#waiting.get(id)?.(said);
            this.#waiting.delete(id);
        }
    }

    ask(name, words = {}) {
        const id = ++this.#sent, text = JSON.stringify([0, id, name, words]);
        return new Promise((done, failed) => {
            this.#waiting.set(id, ([, , error, result]) => (error ? failed(new Error(`${name}: ${error.error}: ${error.message}`)) : done(result)));
            this.socket.write(`${Buffer.byteLength(text)}:${text}`);
        });
    }

    async navigate(url) {
        await this.ask("WebDriver:Navigate", { url });
    }

    async reload() {
        await this.ask("WebDriver:Refresh");
    }

    /** Runs a script in the browser itself, not in the page. */
    async within(script, ...args) {
        await this.ask("Marionette:SetContext", { value: "chrome" });
        try {
            return (await this.ask("WebDriver:ExecuteScript", { script, args })).value;
        } finally {
            await this.ask("Marionette:SetContext", { value: "content" });
        }
    }

    async size([width, height]) {
        await this.ask("WebDriver:SetWindowRect", { width: width + 40, height: height + 160 });
        await this.within(`const { style } = gBrowser.selectedBrowser;
            for (const [name, value] of [["width", arguments[0]], ["height", arguments[1]]]) for (const which of ["", "min-", "max-"]) style.setProperty(which + name, value + "px");`, width, height);
        for (let i = 0; i < 100; i++) {
            const [w, h] = await this.value("[innerWidth, innerHeight]");
            if (w === width && h === height) return;
            await new Promise((done) => setTimeout(done, 30));
        }
        throw new Error(`the page is ${await this.value("[innerWidth, innerHeight].join()")}, and not ${width},${height}`);
    }

    async value(expression) {
        const script = `const [expression, done] = arguments;
            Promise.resolve().then(() => window.eval(expression)).then((value) => done({ value }), (error) => done({ error: String(error) + error.stack }));`;
        const { value: { value, error } } = await this.ask("WebDriver:ExecuteAsyncScript", { script, args: [expression] });
        if (error) throw new Error(error);
        return value ?? undefined;
    }

    perform(...sources) {
        return this.ask("WebDriver:PerformActions", { actions: sources });
    }

    async mouse(steps, shift = false) {
        const moved = ([x, y]) => ({ type: "pointerMove", x: Math.round(x), y: Math.round(y), duration: 0, origin: "viewport" });
        const actions = steps.map(([step, at]) => (step === "move" ? moved(at) : { type: step === "down" ? "pointerDown" : "pointerUp", button: 0 }));
        const held = (type) => this.perform({ type: "key", id: "keyboard", actions: [{ type, value: KEYS.Shift }] });
        if (shift) await held("keyDown");
        await this.perform({ type: "pointer", id: "mouse", parameters: { pointerType: "mouse" }, actions });
        if (shift) await held("keyUp");
    }

    async touch(fingers) {
        const length = Math.max(...fingers.map((it) => it.length));
        const sources = fingers.map((places, finger) => {
            const actions = [], pause = (duration = 0) => actions.push({ type: "pause", duration });
            let isDown = false;
            for (let i = 0; i < length; i++) {
                const at = places[i];
                if (typeof at === "number") {
                    pause(at);
                    continue;
                }
                if (at) actions.push({ type: "pointerMove", x: Math.round(at[0]), y: Math.round(at[1]), duration: 0, origin: "viewport" });
                else pause();
                if (Boolean(at) === isDown) pause();
                else actions.push({ type: at ? "pointerDown" : "pointerUp", button: 0 });
                isDown = Boolean(at);
            }
            return { type: "pointer", id: `finger${finger}`, parameters: { pointerType: "touch" }, actions };
        });
        await this.perform(...sources);
    }

    async wheel([x, y], deltaY) {
        await this.perform({ type: "wheel", id: "wheel", actions: [{ type: "scroll", x: Math.round(x), y: Math.round(y), deltaX: 0, deltaY, duration: 0, origin: "viewport" }] });
    }

    async key(key, held) {
        const all = [...held, key].map((it) => KEYS[it] ?? it);
        const actions = [...all.map((value) => ({ type: "keyDown", value })), ...[...all].reverse().map((value) => ({ type: "keyUp", value }))];
        await this.perform({ type: "key", id: "keyboard", actions });
    }

    async choose(id, files) {
        const { value } = await this.ask("WebDriver:FindElement", { using: "css selector", value: `#${id}` });
        await this.ask("WebDriver:ElementSendKeys", { id: value[ELEMENT], text: files.join("\n") });
    }

    async downloadsTo(folder) {
        await this.within(`Services.prefs.setStringPref("browser.download.dir", arguments[0])`, folder);
    }

    async scheme(scheme) {
        await this.within(`Services.prefs.setIntPref("layout.css.prefers-color-scheme.content-override", arguments[0])`, scheme === "dark" ? 0 : 1);
    }

    async picture() {
        return (await this.ask("WebDriver:TakeScreenshot", { full: false })).value;
    }

    async close() {
        await this.ask("Marionette:Quit", { flags: ["eForceQuit"] }).catch(() => {});
        this.socket.destroy();
    }
}
