// Tries the page in headless Chromium: the pages of lessons and of a long run, and editing by tools/serve.
// Usage: node browser.mjs CHROMIUM TOP FOLDER [SHOTS]     FOLDER takes what the check makes, SHOTS the screenshots
import fs from "fs";
import path from "path";
import {execFileSync, spawn} from "child_process";
import {performance} from "perf_hooks";
import {Run} from "./fold.mjs";

const [, , CHROMIUM, TOP, FOLDER, SHOTS] = process.argv;
const MOST_WAIT = 1000 * Number(process.env.BROWSER_SECONDS || 30); // milliseconds for an answer of the browser
const MOST_OPEN = 3000; // of the long run
const MOST_STEP = 50;
const STEPS = 10; // that are timed together
const LONGEST = 65536; // events
const CLIENTS = 6; // of the long run

/** A browser that is told by messages over two pipes, each ended by a byte 0. */
class Browser {
  constructor() {
    const words = ["--headless=new", "--remote-debugging-pipe", "--no-first-run", "--disable-gpu", "--disable-extensions",
      "--disable-background-networking", `--user-data-dir=${path.join(FOLDER, "profile")}`];
    if (process.getuid && process.getuid() === 0) words.push("--no-sandbox");
    this.child = spawn(CHROMIUM, words, {stdio: ["ignore", "ignore", "ignore", "pipe", "pipe"]});
    this.last = 0;
    this.session = "";
    /** @type {Map<number, (told: any) => void>} */
    this.waiting = new Map();
    /** @type {Map<string, (told: any) => void>} */
    this.events = new Map();
    /** @type {string[]} */
    this.thrown = [];
    /** @type {string[]} */
    this.asked = []; // the addresses that pages asked for
    let rest = "";
    /** @type {any} */ (this.child.stdio[4]).on("data", (/** @type {Buffer} */ piece) => {
      const messages = (rest + piece.toString("utf8")).split("\0");
      rest = messages.pop() || "";
      messages.forEach(text => this.hear(JSON.parse(text)));
    });
  }

  /** @param {any} message */
  hear(message) {
    const take = message.id ? this.waiting.get(message.id) : this.events.get(message.method);
    if (take) take(message);
    if (message.method === "Runtime.exceptionThrown") this.thrown.push(message.params.exceptionDetails.exception.description);
    if (message.method === "Network.requestWillBeSent") this.asked.push(message.params.request.url);
  }

  /** @param {string} method @param {any} [params] @returns {Promise<any>} */
  tell(method, params = {}) {
    const id = this.last += 1;
    return new Promise((resolve, reject) => {
      const timer = setTimeout(() => reject(new Error(`no answer to ${method} in time`)), MOST_WAIT);
      this.waiting.set(id, told => {
        clearTimeout(timer);
        if (told.error) reject(new Error(`${method}: ${told.error.message}`));
        else resolve(told.result);
      });
      const message = this.session ? {id, method, params, sessionId: this.session} : {id, method, params};
      /** @type {any} */ (this.child.stdio[3]).write(JSON.stringify(message) + "\0");
    });
  }

  async open() {
    const {targetId} = await this.tell("Target.createTarget", {url: "about:blank"});
    const {sessionId} = await this.tell("Target.attachToTarget", {targetId, flatten: true});
    this.session = sessionId;
    await this.tell("Page.enable");
    await this.tell("Runtime.enable");
    await this.tell("Network.enable");
    await this.tell("Performance.enable", {timeDomain: "threadTicks"});
    await this.tell("Emulation.setDeviceMetricsOverride", {width: 1500, height: 950, deviceScaleFactor: 1, mobile: false});
  }

  /** Opens an address; gives the milliseconds until its page stood there: of the page's thread, and of the clock.
   * @param {string} address */
  async go(address) {
    const loaded = new Promise(resolve => this.events.set("Page.loadEventFired", resolve));
    await this.tell("Page.navigate", {url: "about:blank"});
    await loaded;
    const before = await this.taken();
    const there = new Promise(resolve => this.events.set("Page.loadEventFired", resolve)), begun = performance.now();
    await this.tell("Page.navigate", {url: address});
    await there;
    await this.run("new Promise(done => requestAnimationFrame(() => setTimeout(done)))");
    const clock = performance.now() - begun, now = await this.taken();
    return {clock, thread: now < before ? now : now - before}; // the thread may be that of a new process
  }

  /** The value of an expression in the page.
   * @param {string} expression */
  async run(expression) {
    const told = await this.tell("Runtime.evaluate", {expression, returnByValue: true, awaitPromise: true});
    if (told.exceptionDetails) throw new Error(`${expression}: ${told.exceptionDetails.exception.description}`);
    return told.result.value;
  }

  /** The milliseconds of a processor that the page's own thread has taken. */
  async taken() {
    const {metrics} = await this.tell("Performance.getMetrics");
    return 1000 * metrics.find((/** @type {any} */ it) => it.name === "ThreadTime").value;
  }

  /** @param {string} key @param {number} [times] */
  async press(key, times = 1) {
    const words = key === "Tab" ? {key, code: key, windowsVirtualKeyCode: 9} : {key};
    for (let i = 0; i < times; i++) {
      await this.tell("Input.dispatchKeyEvent", {type: "keyDown", ...words});
      await this.tell("Input.dispatchKeyEvent", {type: "keyUp", ...words});
    }
  }

  /** Clicks in the middle of the first element that a selector finds.
   * @param {string} selector */
  async click(selector) {
    const where = await this.run(`(() => { const it = document.querySelector(${JSON.stringify(selector)}); if (!it) return null;
      it.scrollIntoView({block: "nearest"}); const box = it.getBoundingClientRect(); return [box.x + box.width / 2, box.y + box.height / 2]; })()`);
    if (!where) throw new Error(`nothing to click at ${selector}`);
    for (const type of ["mousePressed", "mouseReleased"]) {
      await this.tell("Input.dispatchMouseEvent", {type, x: where[0], y: where[1], button: "left", clickCount: 1});
    }
  }

  /** @param {string} name */
  async shot(name) {
    if (!SHOTS) return;
    await this.run("new Promise(done => requestAnimationFrame(() => requestAnimationFrame(done)))");
    const {data} = await this.tell("Page.captureScreenshot", {format: "png"});
    fs.writeFileSync(path.join(SHOTS, `${name}.png`), Buffer.from(data, "base64"));
  }

  async close() {
    this.session = "";
    const ended = new Promise(resolve => this.child.once("exit", resolve));
    await this.tell("Browser.close");
    await ended;
  }
}

/** @type {string[]} */
const wrong = [];

/** @param {boolean} isRight @param {string} text */
function expect(isRight, text) {
  if (!isRight) wrong.push(text);
}

/** @param {string} name */
function textOf(name) {
  return fs.readFileSync(path.join(TOP, name), "utf8");
}

/** The events of a trace, each as its text.
 * @param {string} trace */
function eventsOf(trace) {
  return trace.split(/\n(?! )/).filter(Boolean);
}

/** Writes the page of a run into the folder; gives its address.
 * @param {string} name @param {string[]} files */
function pageOf(name, files) {
  const file = path.join(FOLDER, `${name}.html`);
  fs.writeFileSync(file, execFileSync(path.join(TOP, "tools/page"), files, {maxBuffer: 1 << 28}));
  return `file://${file}`;
}

/** The lines of the present event, as the page shows them. */
const LINES = `[...document.querySelectorAll("#event pre .line")].map(it => it.textContent).join("\\n")`;

/** What is wrong with the cards: a row without a part, a row that is not changed above one that is, or a change out of view. */
const CARDS = `(() => {
  const found = [], changed = ".new, .gone", room = document.querySelector("#tasks").getBoundingClientRect();
  for (const row of document.querySelectorAll("#tasks .row")) if (!row.querySelector(".chip, .lines")) found.push("an empty row " + row.textContent);
  for (const task of document.querySelectorAll(".task")) {
    const marks = [...task.querySelectorAll(".row")].map(row => row.querySelector(changed) ? 1 : 0);
    if (marks.some((mark, i) => mark > (i ? marks[i - 1] : 1))) found.push("a change below a row that is the same");
  }
  const first = document.querySelector("#tasks .new, #tasks .gone"), box = first && first.getBoundingClientRect();
  if (box && (box.top < room.top || box.bottom > room.bottom)) found.push("a change out of view, " + first.textContent);
  return found.join("; ");
})()`;

/** Steps through a lesson by keys, there and back, and compares each event with the trace, by what is seen and by what is
 * told to who does not see; and what the operation of a raw task was that asks the kernel for nothing.
 * @param {Browser} browser @param {string} name */
async function stepThrough(browser, name) {
  const [script, schedule, trace] = ["script", "schedule", "trace"].map(file => textOf(`examples/${name}/${file}`));
  const events = eventsOf(trace), {did} = new Run(script, schedule, trace), operations = script.split("\n");
  for (let at = 1; at <= events.length; at++) {
    await browser.press("ArrowRight");
    const shown = await browser.run(LINES), cards = await browser.run(CARDS), told = await browser.run(`document.querySelector("#live").textContent`);
    expect(shown === events[at - 1], `${name}: event ${at} is shown as ${shown}`);
    expect(!cards, `${name}: the cards of event ${at} have ${cards}`);
    expect(told.includes(`event ${at} of ${events.length}: `) && told.includes(events[at - 1].split("\n")[0]), `${name}: event ${at} is told as ${told}`);
    const done = did[at] ? `the operation was ${operations[did[at] - 1].replace(/#.*/, "").trim()}` : "";
    const said = await browser.run(`(document.querySelector("#event .quiet") || {textContent: ""}).textContent`);
    expect(said === done, `${name}: of event ${at} it is said "${said}", where "${done}" is due`);
  }
  await browser.press("ArrowLeft", events.length - 1);
  expect(await browser.run(LINES) === events[0], `${name}: ${events.length - 1} events back is not the first`);
  await browser.press("End");
  expect(await browser.run(LINES) === events[events.length - 1], `${name}: the key End leads to another event`);
  await browser.click("#first");
  expect((await browser.run(`document.querySelector("#event").textContent`)).startsWith("before the first"), `${name}: the first button leads elsewhere`);
}

/** Filters of a lesson: one task, and no idle events.
 * @param {Browser} browser @param {string} name */
async function filter(browser, name) {
  const events = eventsOf(textOf(`examples/${name}/trace`)), texts = ["script", "schedule", "trace"].map(file => textOf(`examples/${name}/${file}`));
  const idle = new Run(texts[0], texts[1], texts[2]).isIdle.reduce((sum, it) => sum + it, 0); // tools/page-check compares which these are
  const numbers = `document.querySelectorAll("#numbers text").length`;
  expect(await browser.run(numbers) === events.length, `${name}: the chart has not ${events.length} events`);
  await browser.click("#idle");
  expect(await browser.run(numbers) === events.length - idle, `${name}: ${idle} idle events are not hidden`);
  await browser.click("#idle");
  await browser.run(`(() => { const box = document.querySelector("#task"); box.value = "1"; box.onchange(); })()`);
  const own = await browser.run(`[...document.querySelectorAll("#numbers text")].map(it => Number(it.textContent))`);
  const named = events.filter(text => /\bt1\b/.test(text)).length;
  expect(own.length >= named && own.length <= events.length, `${name}: ${own.length} events are shown of task 1, which ${named} name`);
  await browser.run(`(() => { const box = document.querySelector("#task"); box.value = "0"; box.onchange(); })()`);
}

/** Picks calls by keys alone: Enter goes over the calls of the present event, Tab from one to the next in the chart. Arrows
 * move from a number field too.
 * @param {Browser} browser @param {string} name @param {number} at */
async function pickByKeys(browser, name, at) {
  const lines = eventsOf(textOf(`examples/${name}/trace`))[at - 1].split("\n"), picked = `document.querySelector("#call").value`;
  const calls = [...new Set(lines.map(line => (line.match(/^ {2}call (\d+) /) || [])[1]).filter(Boolean))];
  await browser.run(`location.hash = "#at=${at}"; new Promise(done => setTimeout(done, 300))`);
  for (const call of [...calls, ""]) {
    await browser.press("Enter");
    const shown = await browser.run(picked);
    expect(shown === call, `${name}: Enter picks call "${shown}" of event ${at}, where "${call}" is due`);
  }
  const focused = `(document.activeElement.closest("#chart [data-call]") || {dataset: {}}).dataset.call || ""`;
  await browser.run(`document.querySelector("#chart").focus()`);
  for (const call of calls) {
    await browser.press("Tab");
    expect(await browser.run(focused) === call, `${name}: Tab does not go to call ${call} of event ${at} in the chart`);
    await browser.press("Enter");
    expect(await browser.run(picked) === call, `${name}: call ${call} is not picked in the chart by Enter`);
    expect((await browser.run(`document.querySelector("#story h2").textContent`)).startsWith(`call ${call}: `), `${name}: another story than that of call ${call}`);
    expect(await browser.run(focused) === call, `${name}: picking call ${call} takes the focus from it`);
  }
  await browser.shot(`picked-${name}`);
  await browser.run(`document.querySelector("#number").focus()`);
  await browser.press("ArrowRight");
  expect((await browser.run(LINES)).split("\n")[0] === eventsOf(textOf(`examples/${name}/trace`))[at].split("\n")[0], `${name}: the right arrow does nothing in a number field`);
  await browser.run("document.activeElement.blur()");
  await browser.press("Escape");
}

/** Clicks a call in the chart, and reads its story.
 * @param {Browser} browser @param {string} name @param {number} call @param {string} place */
async function story(browser, name, call, place) {
  await browser.press("End");
  await browser.click(`#chart [data-call="${call}"] text`);
  const told = await browser.run(`document.querySelector("#story").innerText`);
  const own = textOf(`examples/${name}/trace`).split("\n").filter(line => line.startsWith(`  call ${call} `));
  expect(own.length > 0 && own.every(line => told.includes(line.trim())), `${name}: the story of call ${call} lacks one of its lines: ${told}`);
  expect(told.includes(place), `${name}: call ${call} is not told as "${place}": ${told}`);
  await browser.run(`document.querySelector("#only").click()`);
  const shown = await browser.run(`document.querySelectorAll("#numbers text").length`);
  expect(shown === await browser.run(`document.querySelectorAll("#story .at").length`), `${name}: ${shown} events are shown of call ${call} alone`);
  await browser.run(`document.querySelector("#only").click()`);
  await browser.press("p");
  const link = await browser.run(`document.querySelector("#link").getAttribute("href")`), lines = await browser.run(LINES);
  const at = await browser.run("location.href.split('#')[0]");
  await browser.go(at + link);
  expect(await browser.run(LINES) === lines, `${name}: the link ${link} opens another place`);
  await browser.press("Escape");
}

// A place of each lesson, with what its cards must say there.
const LESSONS = [
  {name: "kill", at: 8, call: 4, end: "over, its caller was killed", place: "waits for t2 server, its caller was killed",
    says: ["4 515 from third.0, forgotten", "0 \u2192 t1 client, 1 active", "receive"]},
  {name: "killed-server", at: 9, call: 3, end: "over", place: "waits for t1 server",
    says: ["1 waits: answer 3", "0 parallel, phone 0", "1 session 0, phone 1, fibril 1"]},
  {name: "share-out", at: 6, call: 1, end: "over", place: "answered; the answer waits for t1 client",
    says: ["8192 1 page, RW, store 1, shared with client", "1 EOK (0) 8192"]},
  {name: "windows", at: 14, call: 3, end: "over", place: "answered; the answer waits for t2 left",
    says: ["t1 disk block server", "4096 1 page, RW, store 1, shared with left", "4 SHARE_OUT (5) from right.1", "3 EOK (0) 4096"]},
  {name: "respawned-server", at: 18, call: 3, end: "over", place: "over",
    says: ["t3 first raw, ended", "t4 second raw", "0 hungup", "0 \u2192 t1 ns", "1 slammed"]},
  {name: "dispatch", at: 6, call: 1, end: "over", place: "answered; the answer waits for t1 client",
    says: ["t2 server raw", "r20 600", "jump 1", "1 EOK (0) 7"]},
  {name: "child-value", at: 14, call: 2, end: "over", place: "answered; the answer waits for t2 parent",
    says: ["t1 ns naming service", "2 EOK (0) 1 42", "0 \u2192 t1 ns, 1 active"]},
];

/** Opens every lesson: its first and its last event are those of its trace, and nothing is found wrong with it.
 * @param {Browser} browser */
async function tryAllLessons(browser) {
  const names = fs.readdirSync(path.join(TOP, "examples")).filter(name => fs.existsSync(path.join(TOP, "examples", name, "trace")));
  for (const name of names) {
    const events = eventsOf(textOf(`examples/${name}/trace`));
    await browser.go(pageOf(name, ["script", "schedule", "trace"].map(file => path.join(TOP, "examples", name, file))));
    await browser.press("ArrowRight");
    expect(await browser.run(LINES) === events[0], `${name}: the first event is another one`);
    await browser.press("End");
    expect(await browser.run(LINES) === events[events.length - 1], `${name}: the last event is another one`);
    expect(await browser.run(`document.querySelector("#faults").hidden`), `${name}: the page finds a fault in its trace`);
    await browser.shot(`end-${name}`);
  }
  return names.length;
}

/** @param {Browser} browser */
async function tryLessons(browser) {
  for (const {name, at, call, end, place, says} of LESSONS) {
    const address = pageOf(name, ["script", "schedule", "trace"].map(file => path.join(TOP, "examples", name, file)));
    await browser.go(address);
    await stepThrough(browser, name);
    await filter(browser, name);
    await story(browser, name, call, end);
    await pickByKeys(browser, name, at);
    await browser.go(`${address}#at=${at}&call=${call}`);
    const cards = await browser.run(`document.querySelector("#tasks").innerText.replace(/\\s+/g, " ")`);
    for (const text of says) expect(cards.includes(text), `${name}: no card says "${text}" at event ${at}: ${cards}`);
    const told = await browser.run(`document.querySelector("#story").innerText`);
    expect(told.includes(place), `${name}: call ${call} is not told as "${place}" at event ${at}: ${told}`);
    await browser.shot(name);
  }
  const own = browser.asked.filter(address => !/^(?:file|about|data):/.test(address));
  expect(!own.length, `a page of a lesson asks for ${own}`);
}

/** A page of texts that try to be more than texts: none of them becomes an element, or runs.
 * @param {Browser} browser */
async function tryHostileTexts(browser) {
  const evil = "</script><img src=x onerror=document.title='evil'>", files = ["script", "schedule", "trace"].map(name => path.join(FOLDER, name));
  fs.writeFileSync(files[0], `# ${evil}\ntask a ${evil}\n`);
  fs.writeFileSync(files[1], `step a # ${evil}\nstep a\n`);
  fs.writeFileSync(files[2], `t1 ${evil}\n  phone t1.0 "${evil}\n  = ${evil}\nt1 nothing\n  = EOK\n  t1/1 ${evil}\n`);
  await browser.go(`${pageOf("hostile", files)}#at=1&call=1"${evil}`);
  await browser.press("End");
  expect((await browser.run("document.body.innerText")).includes(evil), "a page does not show a text that tries to be an element");
  expect(await browser.run("document.images.length === 0 && document.title !== 'evil'"), "a text of a run became an element of its page");
}

/** A script in which clients call one server again and again, and a schedule of rounds. */
function longRun() {
  const clients = Array.from({length: CLIENTS}, (_, i) => `client${i + 1}`);
  const forAll = (/** @type {(name: string) => string} */ lines) => clients.map(lines).join("");
  const script = "task server raw\nreceive\nanswer r2 EOK\njump 0\n" + forAll(name => `task ${name} raw\ncall 0 600 1\nreceive\njump 0\n`)
    + forAll(name => `wire ${name} 0 server\n`);
  const round = forAll(name => `step ${name}\n`) + "step server x 3\n".repeat(CLIENTS) + forAll(name => `step ${name} x 2\n`);
  const rounds = Math.floor(LONGEST / (6 * CLIENTS)), rest = LONGEST - 6 * CLIENTS * rounds;
  return {script, schedule: round.repeat(rounds) + (rest ? `step server x ${rest}\n` : "")};
}

/** The milliseconds of a step from a place, with its layout and painting: of the page's thread, and of the clock.
 * @param {Browser} browser @param {number} at @param {string} key */
async function stepsFrom(browser, at, key) {
  await browser.run(`location.hash = "#at=${at}"; new Promise(done => setTimeout(done, 300))`);
  const before = await browser.taken(), begun = performance.now();
  await browser.run(`(async () => {
    for (let i = 0; i < ${STEPS}; i++) {
      window.dispatchEvent(new KeyboardEvent("keydown", {key: "${key}"}));
      await new Promise(done => requestAnimationFrame(() => setTimeout(done)));
    }
  })()`);
  return {thread: (await browser.taken() - before) / STEPS, clock: (performance.now() - begun) / STEPS};
}

/** Opens the longest run, and steps there. What is compared with the limits is the time of the page's own thread, the
 * least of three openings and at each of three places the least of steps on and steps back: the clock counts the other
 * work of the machine too.
 * @param {Browser} browser */
async function tryLongRun(browser) {
  const {script, schedule} = longRun(), files = [path.join(FOLDER, "script"), path.join(FOLDER, "schedule")];
  fs.writeFileSync(files[0], script);
  fs.writeFileSync(files[1], schedule);
  const address = pageOf("long", files), opened = [], steps = [];
  for (let i = 0; i < 3; i++) opened.push(await browser.go(`${address}#at=40000`));
  for (const at of [100, 40000, LONGEST - 36]) {
    const here = [await stepsFrom(browser, at, "ArrowRight"), await stepsFrom(browser, at, "ArrowLeft")], least = Math.min(...here.map(it => it.thread));
    expect(least <= MOST_STEP, `a step behind event ${at} takes ${least} ms`);
    steps.push(...here);
  }
  const open = {thread: Math.min(...opened.map(it => it.thread)), clock: Math.min(...opened.map(it => it.clock))}, middle = steps.sort((a, b) => a.thread - b.thread)[steps.length >> 1];
  expect(open.thread <= MOST_OPEN, `the run of ${LONGEST} events opens in ${Math.round(open.thread)} ms`);
  await browser.press("End");
  const shown = await browser.run(`document.querySelector("#event").innerText`);
  expect(shown.includes(`event ${LONGEST} of ${LONGEST}`), `the last event is shown as ${shown}`);
  await browser.go(`${address}#at=40001&call=6667`);
  await browser.shot("long");
  const told = (/** @type {{thread: number, clock: number}} */ it) => `${it.thread.toFixed(1)} ms, ${it.clock.toFixed(1)} ms by the clock`;
  return `${LONGEST} events open in ${told(open)}; a step takes ${told(middle)}`;
}

/** The line of the editor's text is put in the place of a field, as a reader types.
 * @param {Browser} browser @param {string} field @param {string} text */
function type(browser, field, text) {
  return browser.run(`(() => { const it = document.querySelector("${field}"); it.value = ${JSON.stringify(text)}; it.oninput(); })()`);
}

/** Waits until an expression is true in the page; while another page comes, it is not.
 * @param {Browser} browser @param {string} expression */
async function until(browser, expression) {
  for (let i = 0; i < 200; i++) {
    if (await browser.run(`Boolean(${expression})`).catch(() => false)) return;
    await new Promise(done => setTimeout(done, 100));
  }
  throw new Error(`it never holds: ${expression}`);
}

/** Opens a lesson from the list, runs a script with a fault, and then a schedule with a kill.
 * @param {Browser} browser @param {string} address */
async function edit(browser, address) {
  await browser.go(address);
  await browser.run(`(() => { const box = document.querySelector("#lessons"); box.value = "lesson/first-call"; box.onchange(); })()`);
  const isOpen = (/** @type {string} */ name) => `location.pathname === "/lesson/${name}" && document.readyState === "complete"`;
  await until(browser, isOpen("first-call"));
  await browser.click("#next");
  await until(browser, isOpen("empty"));
  const said = await browser.run(`document.querySelector("#lesson").textContent + document.querySelector("#solution").textContent`);
  expect(said.includes("Nothing there yet") && said.includes("Nothing is missed"), `the lesson and its answer are told as ${said}`);
  await browser.run("history.back()");
  await until(browser, isOpen("first-call"));
  const script = textOf("examples/first-call/script");
  await browser.click("#edit");
  await type(browser, "#newscript", script.replace("receive", "recieve"));
  await browser.click("#run");
  await until(browser, `document.querySelector("#told b")`);
  const told = await browser.run(`document.querySelector("#told").innerText`), line = script.split("\n").indexOf("receive") + 1;
  expect(told.includes(`script line ${line}: unknown operation`) && told.includes("begins no line of a script"), `the fault is told as ${told}`);
  expect(await browser.run(`document.querySelector("#scriptnumbers .fault").textContent`) === String(line), "the fault marks another line");
  await browser.shot("fault");
  await type(browser, "#newscript", script);
  await type(browser, "#newschedule", textOf("examples/first-call/schedule").replace("\n", "\nkill b\n"));
  await browser.click("#run");
  await until(browser, `document.querySelector("#editor").hidden`);
  await browser.press("ArrowRight", 2);
  const shown = await browser.run(LINES);
  expect(shown === "kill t2\n  phone t1.0 slammed\n  call 1 answered EHANGUP 0 0 0 0 0 by kernel", `the kill is shown as ${shown}`);
  await browser.shot("edited");
}

/** Searches in a lesson: a goal at fault, one that no schedule meets, and two that are met, whose runs are opened: the one
 * that is looked for where no goal is named is lost.
 * @param {Browser} browser @param {string} address */
async function search(browser, address) {
  await browser.go(`${address}lesson/mutex-order`);
  await browser.click("#edit");
  const ask = (/** @type {string} */ goal) => browser.run(`document.querySelector("#goal").value = ${JSON.stringify(goal)}`);
  for (const [goal, due] of [["stuck nobody", "goal word 2: unknown name"], ["b: = answer * EPERM", "none, of any length"]]) {
    await ask(goal);
    await browser.click("#search");
    await until(browser, `document.querySelector("#told b")`);
    const told = await browser.run(`document.querySelector("#told").innerText`);
    expect(told.startsWith(due), `the goal ${goal} is told as ${told}`);
  }
  for (const goal of ["", "b: = answer"]) {
    if (goal) await browser.click("#edit");
    await ask(goal);
    await browser.click("#search");
    await until(browser, `document.querySelector("#editor").hidden`);
    const found = await browser.run(`document.querySelector("#schedule").textContent`);
    expect(found.includes(`# ${goal || "lost"}: `), `for the goal '${goal}' the schedule found is ${found}`);
  }
  await browser.press("End");
  const shown = await browser.run(LINES);
  expect(shown.includes("= answer 1 EOK 0 0 0 0 0"), `the last event of what was found is shown as ${shown}`);
}

/** Predicts in a lesson: what is to come is hidden, a task is named, and the answer opens by a second click.
 * @param {Browser} browser @param {string} address */
async function predict(browser, address) {
  await browser.go(`${address}lesson/kill`);
  const numbers = `[...document.querySelectorAll("#numbers text")].map(it => it.textContent).join()`;
  expect(await browser.run(numbers) === "", "what is to come is drawn before the first event");
  await browser.shot("predict");
  await browser.press("1");
  expect(await browser.run(numbers) === "1", "a guess is no step");
  const ends = await browser.run(`Math.max(...[...document.querySelectorAll("#rows svg > g:first-child line")].map(it => Number(it.getAttribute("y2"))))`);
  expect(ends <= 22, `the lines of the tasks go ${ends} pixels down, behind the first event, and tell who is killed when`);
  expect((await browser.run(`document.querySelector("#ask").textContent`)).startsWith("Right: t1 client."), "a right guess is not told so");
  await browser.press("4");
  const told = await browser.run(`document.querySelector("#ask").textContent`);
  expect(told.startsWith("No: it was t2 server."), `a wrong guess is told as ${told}`);
  const isOpen = `document.querySelector("#answer").open`;
  await browser.click("#answer summary");
  expect(!await browser.run(isOpen), "the answer opens by one click");
  await browser.click("#answer summary");
  expect(await browser.run(isOpen), "the answer does not open by a second click");
  await browser.press("h");
  expect((await browser.run(numbers)).split(",").length > 2, "the key h shows nothing");
  await browser.go(`${address}lesson/kill#at=15`);
  expect(!await browser.run(isOpen), "the answer is open before the last event");
  await browser.press("ArrowRight");
  expect(await browser.run(isOpen), "the answer does not open behind the last event");
  await browser.press("?");
  const keys = await browser.run(`document.querySelector("#help[open]") ? document.querySelector("#help").innerText : ""`);
  for (const key of ["right arrow", "Home", "Enter", "Tab, then Enter", "c, then a number", "n, p", "1 to 9"]) expect(keys.includes(key), `the key ? does not tell of ${key}`);
  await browser.shot("keys");
  await browser.press("Escape");
}

/** Drives a run by hand, compares it with the one before, follows its link without a server, and undoes it.
 * @param {Browser} browser @param {string} address */
async function driveByHand(browser, address) {
  await browser.go(`${address}lesson/first-call#at=1`);
  await browser.click(`[data-drive="kill b"]`);
  await until(browser, `document.querySelector("#title").textContent === "first-call, changed"`);
  const killed = "kill t2\n  phone t1.0 slammed\n  call 1 answered EHANGUP 0 0 0 0 0 by kernel";
  expect(await browser.run(LINES) === killed, `the kill is shown as ${await browser.run(LINES)}`);
  const beside = await browser.run(`[...document.querySelectorAll("#versus pre")].slice(0, 2).map(it => it.textContent).join("|")`);
  expect(beside === "2 t2 receive\n  call 1 received t2\n  = received 1 512 7 0 0 0 0 from t1.0|2 " + killed, `two runs are shown as ${beside}`);
  await browser.click(`[data-drive="step a"]`);
  await until(browser, `document.querySelector("#number").value === "3"`);
  const lines = await browser.run(LINES);
  expect(lines.endsWith("= answer 1 EHANGUP 0 0 0 0 0"), `a step by hand is shown as ${lines}`);
  await until(browser, `document.querySelector("#link").href.includes("run=")`);
  await browser.shot("driven");
  const link = await browser.run(`document.querySelector("#link").getAttribute("href")`);
  await browser.press("u");
  expect(await browser.run(LINES) === killed, "undo leads to another run");
  await browser.go(`${pageOf("other", ["script", "schedule", "trace"].map(file => path.join(TOP, "examples/kill", file)))}${link}`);
  await until(browser, `document.querySelector("#title").textContent === "first-call, changed"`);
  expect(await browser.run(LINES) === lines, `the link shows ${await browser.run(LINES)}`);
  await saved(browser);
  await dropped(browser);
  await hangUpAndSpawn(browser, address);
}

/** Hangs up a phone by hand, and makes a task from a template.
 * @param {Browser} browser @param {string} address */
async function hangUpAndSpawn(browser, address) {
  const tries = [["first-call", 1, "hangup a 0", "t1 hangup 0\n  call 2 accepted t1.0 method 0 to t2\n  phone t1.0 hungup\n  = EOK"],
    ["workers", 0, "spawn worker worker1", "spawn t3\n  phone t3.0 connected t1"]];
  for (const [lesson, at, line, due] of tries) {
    await browser.go(`${address}lesson/${lesson}#at=${at}`);
    await browser.run(`(() => { const it = document.querySelector("#drive details"); if (it) it.open = true; })()`);
    await browser.click(`[data-drive="${line}"]`);
    await until(browser, `document.querySelector("#title").textContent === "${lesson}, changed"`);
    const shown = await browser.run(LINES);
    expect(shown === due, `${line} by hand is shown as ${shown}`);
  }
}

/** Drops the files of another lesson on a page: they are the run then.
 * @param {Browser} browser */
async function dropped(browser) {
  const files = ["script", "schedule", "trace"].map(name => [name, textOf(`examples/forwarding/${name}`)]);
  await browser.run(`(() => { const data = new DataTransfer();
    for (const [name, text] of ${JSON.stringify(files)}) data.items.add(new File([text], name));
    dispatchEvent(new DragEvent("drop", {dataTransfer: data, cancelable: true})); })()`);
  await until(browser, `document.querySelector("#title").textContent === "files"`);
  await browser.press("End");
  const lines = await browser.run(LINES);
  expect(lines === eventsOf(files[2][1]).pop(), `of dropped files the last event is shown as ${lines}`);
}

/** Follows a path of the course to its end by the link to the next lesson.
 * @param {Browser} browser @param {string} address */
async function followPath(browser, address) {
  const [, title, part] = textOf("docs/COURSE.md").match(/^## (.*)\n([^]*?)\n## /m) || [];
  const names = [...part.matchAll(/examples\/([a-z-]+)\/README/g)].map(found => found[1]);
  await browser.go(address);
  await browser.run(`(() => { const box = document.querySelector("#lessons"), it = [...box.options].find(it => it.textContent === ${JSON.stringify(title)}); box.value = it.value; box.onchange(); })()`);
  for (const [i, name] of names.entries()) {
    await until(browser, `location.pathname === "/lesson/${name}" && document.readyState === "complete"`);
    const link = `document.querySelector("#next")`, isLast = i + 1 === names.length;
    await until(browser, `${link}.hidden === ${isLast}`);
    const told = await browser.run(`${link}.textContent`);
    expect(isLast || told === `next on the path, ${i + 2} of ${names.length}`, `the link of ${name} is ${told}`);
    if (!isLast) await browser.click("#next");
  }
}

/** Asks the questions of the quiz: of each trace the program says whether it can happen, and of one that cannot, both runs
 * stand side by side from the first event on that is another.
 * @param {Browser} browser @param {string} address */
async function askQuiz(browser, address) {
  const names = fs.readdirSync(path.join(TOP, "quiz"));
  for (const name of names) {
    const right = textOf(`quiz/${name}/right`).split("\n")[0];
    await browser.go(`${address}quiz/${name}`);
    for (const [i, letter] of [..."abcd"].entries()) {
      const events = eventsOf(textOf(`quiz/${name}/${letter}`));
      const asked = await browser.run(`[document.querySelector("#same pre"), document.querySelectorAll(".four pre")[${i}]].map(it => it ? it.textContent : "").join("")`);
      expect(asked === events.join("").replace(/\n/g, ""), `${name}: trace ${letter} is shown as ${asked}`);
      await browser.click(`[data-choose="${i + 1}"]`);
      await until(browser, `/^(?:Yes|No): trace ${letter} can/.test(document.querySelector("#chosen").textContent)`);
      const told = await browser.run(`document.querySelector("#chosen").textContent`), shown = await browser.run(LINES);
      expect(told.startsWith("Yes") === (letter === right), `${name}: of trace ${letter} it is said ${told}`);
      const cell = await browser.run(`(document.querySelector("#versus:not([hidden]) pre") || {textContent: ""}).textContent`);
      const at = Number(cell.split(" ")[0]);
      expect(letter === right ? !cell : cell === `${at} ${events[at - 1]}` && shown !== events[at - 1], `${name}: beside each other stands ${cell}, and ${shown} is shown`);
      if (name === "killed-server") await browser.shot(`quiz-${letter}`);
    }
  }
  return names.length;
}

/** Saves the page and the chart of the run that is shown: the file is the page of that run, and asks for nothing.
 * @param {Browser} browser */
async function saved(browser) {
  const keep = `(() => { window.kept = {}; const own = URL.createObjectURL; URL.createObjectURL = blob => { blob.text().then(text => { window.last = text; }); return own.call(URL, blob); }; })()`;
  await browser.run(keep);
  const take = async (/** @type {string} */ name) => {
    await browser.run(`(() => { window.last = ""; document.querySelector('[data-save="${name}"]').click(); })()`);
    await until(browser, "window.last");
    return browser.run("window.last");
  };
  const lines = await browser.run(LINES), at = await browser.run(`document.querySelector("#number").value`), file = path.join(FOLDER, "saved.html");
  expect(await take("schedule") === "step a\nkill b\nstep a\n", "another schedule is saved");
  expect(await take("script") === textOf("examples/first-call/script"), "another script is saved");
  expect((await take("trace")).endsWith(`${lines}\n`), "another trace is saved");
  const chart = await take("chart.svg");
  expect(chart.startsWith("<svg") && chart.includes(">kill t2 b</text>") && !chart.includes("var("), `the chart is saved as ${chart.slice(0, 200)}`);
  const names = await browser.run(`(() => { const read = new DOMParser().parseFromString(window.last, "image/svg+xml"); return [read.documentElement.localName, read.querySelector("parsererror") ? "fault" : "whole"].join(); })()`);
  expect(names === "svg,whole", `the saved chart is read as ${names}`);
  fs.writeFileSync(file, await take("page.html"));
  await browser.go(`file://${file}#at=${at}`);
  expect(await browser.run(LINES) === lines, `the saved page shows ${await browser.run(LINES)}`);
}

/** Closing the editor keeps a text that was not run.
 * @param {Browser} browser @param {string} address */
async function keepEdit(browser, address) {
  await browser.go(`${address}lesson/first-call`);
  await browser.press("e");
  await type(browser, "#newschedule", "step b\n");
  await browser.click("#close");
  await browser.press("e");
  expect(await browser.run(`document.querySelector("#newschedule").value`) === "step b\n", "closing the editor throws a text away");
  await browser.click("#revert");
  expect(await browser.run(`document.querySelector("#newschedule").value`) === textOf("examples/first-call/schedule"), "revert gives another text");
  await browser.press("Escape");
}

/** The contrast of what is to come in the chart, against the paper, by the formula of the web's guidelines.
 * @param {Browser} browser */
async function contrastOfLater(browser) {
  const colours = await browser.run(`(() => { const text = [...document.querySelectorAll("#rows text")].pop(); return [getComputedStyle(text).fill, getComputedStyle(document.body).backgroundColor]; })()`);
  const [ink, paper] = colours.map((/** @type {string} */ colour) => {
    const [red, green, blue] = (colour.match(/\d+/g) || []).map(it => Number(it) / 255).map(it => it <= 0.03928 ? it / 12.92 : ((it + 0.055) / 1.055) ** 2.4);
    return 0.2126 * red + 0.7152 * green + 0.0722 * blue;
  });
  return (Math.max(ink, paper) + 0.05) / (Math.min(ink, paper) + 0.05);
}

/** Windows of other sizes, the dark, and paper: no scroll bar that nothing needs, panes and buttons in reach, all events printed.
 * @param {Browser} browser @param {string} address */
async function looks(browser, address) {
  const size = (/** @type {number} */ width, /** @type {number} */ height) => browser.tell("Emulation.setDeviceMetricsOverride", {width, height, deviceScaleFactor: 1, mobile: false});
  const kill = pageOf("kill", ["script", "schedule", "trace"].map(file => path.join(TOP, "examples/kill", file)));
  await browser.go(`${kill}#at=9`);
  const bars = await browser.run(`(() => { const it = document.querySelector("#chart"); return it.scrollWidth > it.clientWidth; })()`);
  expect(!bars, "the chart has a scroll bar below it that nothing needs");
  expect(await browser.run(`document.querySelector("h1").textContent`) === "kill", "the page has no heading");
  expect(await contrastOfLater(browser) >= 3, "what is to come is too pale");
  await browser.shot("wide");
  await size(1024, 768);
  await browser.go(`${kill}#at=8`);
  const seen = `[...document.querySelectorAll(".task")].filter(it => { const box = it.getBoundingClientRect(), room = document.querySelector("#tasks").getBoundingClientRect(); return box.top >= room.top && box.bottom <= room.bottom + 1; }).length`;
  const cards = await browser.run(seen);
  expect(cards >= 3, `a slide of 1024 x 768 shows ${cards} tasks`);
  await browser.shot("slide");
  await size(400, 800);
  await browser.go(`${address}lesson/kill#at=3`);
  expect(await browser.run("document.documentElement.scrollWidth <= 400"), "a narrow window is wider than 400 pixels");
  const on = await browser.run(`(() => { const box = document.querySelector("#on").getBoundingClientRect(); return box.bottom <= innerHeight && box.right <= innerWidth && box.height >= 40; })()`);
  expect(on, "the buttons are out of reach in a narrow window");
  await browser.shot("narrow");
  await browser.click(`#tabs [data-pane="chart"]`);
  expect(await browser.run(`document.querySelector("#chart").clientHeight > 100 && !document.querySelector("#side").clientHeight`), "a narrow window shows two panes");
  await browser.shot("narrow-chart");
  await size(1500, 950);
  await browser.tell("Emulation.setEmulatedMedia", {features: [{name: "prefers-color-scheme", value: "dark"}]});
  await browser.go(`${kill}#at=9&call=4`);
  expect(await browser.run(`getComputedStyle(document.body).backgroundColor`) === "rgb(20, 25, 31)", "the page is not dark in the dark");
  expect(await contrastOfLater(browser) >= 3, "what is to come is too pale in the dark");
  await browser.shot("dark");
  await browser.tell("Emulation.setEmulatedMedia", {features: []});
  await browser.go(`${kill}#at=9`);
  await browser.run(`dispatchEvent(new Event("beforeprint"))`);
  const numbers = await browser.run(`document.querySelectorAll("#numbers text").length`);
  expect(numbers === eventsOf(textOf("examples/kill/trace")).length, `${numbers} events are printed`);
  await browser.tell("Emulation.setEmulatedMedia", {media: "print"});
  const cut = await browser.run(`[...document.querySelectorAll("#chart, #side, #tasks, #event pre")].filter(it => it.scrollHeight > it.clientHeight + 1).map(it => it.id).join()`);
  expect(!cut, `on paper a part is cut off: ${cut}`);
  const hidden = await browser.run(`[...document.querySelectorAll("header > :not(h1), #texts, #drive")].every(it => !it.clientHeight)`);
  expect(hidden, "the bars are printed");
  const tasks = await browser.run(`document.querySelectorAll(".task").length`);
  expect(tasks === 4, `${tasks} cards are printed`);
  await browser.tell("Emulation.setEmulatedMedia", {media: ""});
  const {data} = await browser.tell("Page.printToPDF", {printBackground: true});
  if (SHOTS) fs.writeFileSync(path.join(SHOTS, "print.pdf"), Buffer.from(data, "base64"));
  await browser.run(`dispatchEvent(new Event("afterprint"))`);
}

/** @param {Browser} browser */
async function tryServer(browser) {
  const server = spawn(path.join(TOP, "tools/serve"), ["0"], {stdio: ["ignore", "pipe", "inherit"]});
  try {
    const line = await new Promise(resolve => server.stdout.once("data", piece => resolve(String(piece))));
    const found = line.match(/http:\/\/127\.0\.0\.1:\d+\//);
    if (!found) throw new Error(`tools/serve says ${line}`);
    await edit(browser, found[0]);
    if (hasSearch()) await search(browser, found[0]);
    await predict(browser, found[0]);
    await driveByHand(browser, found[0]);
    await keepEdit(browser, found[0]);
    await followPath(browser, found[0]);
    await askQuiz(browser, found[0]);
    await looks(browser, found[0]);
  } finally {
    server.kill("SIGINT");
    await new Promise(resolve => server.once("close", resolve));
  }
}

/** Whether there is a program: one that is named, or the built one, as new as its sources.
 * @param {string | undefined} named @param {string} crate */
function isThere(named, crate) {
  try {
    if (named) return true;
    execFileSync(path.join(TOP, "tools/is-fresh"), [crate]);
    return true;
  } catch (error) {
    return false;
  }
}

function isBuilt() {
  return isThere(process.env.HIPC, "hipc");
}

function hasSearch() {
  return isThere(process.env.HIPC_SEARCH, "hipc_search");
}

async function main() {
  const browser = new Browser(), tell = (/** @type {string} */ text) => console.log(`tools/browser-check: ${text}`);
  try {
    await browser.open();
    await tryLessons(browser);
    await tryHostileTexts(browser);
    tell(`${LESSONS.length} lessons step by step, and ${await tryAllLessons(browser)} from end to end`);
    if (isBuilt()) {
      tell(await tryLongRun(browser));
      await tryServer(browser);
      tell("editing, predicting, driving by hand, links and files, a path and the quiz, windows of three sizes, the dark and paper, by tools/serve");
    } else tell("the long run and editing were NOT tried, since no fresh program is built");
  } finally {
    await browser.close();
  }
  wrong.push(...browser.thrown);
  for (const text of wrong) console.error(`tools/browser-check: ${text}`);
  process.exit(wrong.length ? 1 : 0);
}

main().catch(error => {
  console.error(`tools/browser-check: ${error.stack}`);
  process.exit(1);
});
