// Opens pages in headless Firefox, by its own protocol Marionette: texts behind their length, over a socket.
// Usage: node firefox.mjs FIREFOX TOP FOLDER     FOLDER takes what the check makes
import fs from "fs";
import net from "net";
import path from "path";
import {execFileSync, spawn} from "child_process";

const [, , FIREFOX, TOP, FOLDER] = process.argv;
const MOST_WAIT = 120000; // milliseconds until the browser is there, and for an answer
const LESSONS = ["kill", "killed-server", "windows"];
const LINES = `return [...document.querySelectorAll("#event pre .line")].map(it => it.textContent).join("\\n")`;

/** A port that nothing listens on.
 * @returns {Promise<number>} */
function freePort() {
  return new Promise(resolve => {
    const server = net.createServer().listen(0, "127.0.0.1", () => {
      const {port} = /** @type {any} */ (server.address());
      server.close(() => resolve(port));
    });
  });
}

/** A browser that answers commands over a socket. */
class Marionette {
  /** @param {net.Socket} socket */
  constructor(socket) {
    this.socket = socket;
    this.last = 0;
    this.rest = Buffer.alloc(0);
    /** @type {Map<number, (told: any) => void>} */
    this.waiting = new Map();
    socket.on("data", piece => this.hear(piece));
  }

  /** @param {Buffer} piece */
  hear(piece) {
    this.rest = Buffer.concat([this.rest, piece]);
    for (;;) {
      const colon = this.rest.indexOf(58), length = Number(this.rest.subarray(0, Math.max(0, colon)).toString());
      if (colon < 0 || this.rest.length < colon + 1 + length) return;
      const message = JSON.parse(this.rest.subarray(colon + 1, colon + 1 + length).toString());
      this.rest = this.rest.subarray(colon + 1 + length);
      const take = Array.isArray(message) ? this.waiting.get(message[1]) : undefined;
      if (take) take(message);
    }
  }

  /** @param {string} name @param {any} [words] @returns {Promise<any>} */
  tell(name, words = {}) {
    const id = this.last += 1, text = JSON.stringify([0, id, name, words]);
    return new Promise((resolve, reject) => {
      const timer = setTimeout(() => reject(new Error(`no answer to ${name} in time`)), MOST_WAIT);
      this.waiting.set(id, ([, , error, value]) => {
        clearTimeout(timer);
        if (error) reject(new Error(`${name}: ${error.message}`));
        else resolve(value);
      });
      this.socket.write(`${Buffer.byteLength(text)}:${text}`);
    });
  }

  /** What a script in the page gives.
   * @param {string} script */
  async run(script) {
    return (await this.tell("WebDriver:ExecuteScript", {script, args: []})).value;
  }

  /** @param {string} key */
  press(key) {
    return this.run(`window.dispatchEvent(new KeyboardEvent("keydown", {key: "${key}"}))`);
  }
}

/** @param {number} port @returns {Promise<net.Socket>} */
async function connected(port) {
  for (const until = Date.now() + MOST_WAIT; Date.now() < until;) {
    const socket = await new Promise(resolve => {
      const it = net.connect(port, "127.0.0.1", () => resolve(it)).on("error", () => resolve(null));
    });
    if (socket) return socket;
    await new Promise(done => setTimeout(done, 300));
  }
  throw new Error("firefox does not listen");
}

/** Steps through a lesson, and compares each event with its trace.
 * @param {Marionette} browser @param {string} name @param {string[]} wrong */
async function stepThrough(browser, name, wrong) {
  const files = ["script", "schedule", "trace"].map(file => path.join(TOP, "examples", name, file)), page = path.join(FOLDER, `${name}.html`);
  const events = fs.readFileSync(files[2], "utf8").split(/\n(?! )/).filter(Boolean);
  fs.writeFileSync(page, execFileSync(path.join(TOP, "tools/page"), files));
  await browser.tell("WebDriver:Navigate", {url: `file://${page}`});
  for (const [i, event] of events.entries()) {
    await browser.press("ArrowRight");
    const shown = await browser.run(LINES);
    if (shown !== event.trimEnd()) wrong.push(`${name}: event ${i + 1} is shown as ${shown}`);
  }
  const drawn = await browser.run(`return Math.max(...[...document.querySelectorAll("#numbers text")].map(it => Number(it.textContent)))`);
  if (drawn !== events.length) wrong.push(`${name}: the chart is drawn to event ${drawn}, not to ${events.length}`);
  return events.length;
}

async function main() {
  const port = await freePort(), profile = path.join(FOLDER, "firefox");
  fs.mkdirSync(profile);
  fs.writeFileSync(path.join(profile, "user.js"), `user_pref("marionette.port", ${port});\n`);
  const child = spawn(FIREFOX, ["--headless", "--marionette", "--no-remote", "--profile", profile], {stdio: "ignore", env: {...process.env, HOME: FOLDER}});
  const ended = new Promise(resolve => child.once("exit", resolve));
  const wrong = /** @type {string[]} */ ([]);
  try {
    const browser = new Marionette(await connected(port));
    await browser.tell("WebDriver:NewSession", {});
    let sum = 0;
    for (const name of LESSONS) sum += await stepThrough(browser, name, wrong);
    console.log(`tools/browser-check: firefox opens ${LESSONS.length} lessons and steps through their ${sum} events`);
    await browser.tell("Marionette:Quit", {flags: ["eForceQuit"]});
  } finally {
    child.kill();
    await ended;
  }
  for (const text of wrong) console.error(`tools/browser-check: firefox: ${text}`);
  process.exit(wrong.length ? 1 : 0);
}

main().catch(error => {
  console.error(`tools/browser-check: firefox: ${error.stack}`);
  process.exit(1);
});
