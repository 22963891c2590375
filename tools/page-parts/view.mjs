// The page: where one stands in a run, what is drawn of it, and what keys, buttons and links do.
import {CODES, METHODS, RIGHTS, Run, copyOfState, lineOf, nextHead, numberOf} from "./fold.mjs";
import {LEFT, ROW, codeText, drawRow, escaped, methodText, nameOf, operationText, rowsOf, trimmed} from "./chart.mjs";
import {packed, unpacked} from "./pack.mjs";

/** @typedef {import("./fold.mjs").State} State */
/** @typedef {import("./fold.mjs").Task} Task */
/** @typedef {import("./fold.mjs").Event} RunEvent */
/** @typedef {{lines: string[], from: number, to: number, above: number, marked: any[]}} Listing the lines of a text that are drawn, and
 *   the elements of those that are marked; `above` is 1 where a line says how many there are above */
/** @typedef {{name: string, script: string, schedule: string, trace: string, lessons: [string, string][],
 *   paths: [string, string[]][], questions: [string, string][], quiz: Quiz | null,
 *   isServed: boolean, about: string, answer: string, set: string[], isChanged?: boolean}} Data */
/** @typedef {{name: string, text: string, traces: string[], why: string}} Quiz a question, with the traces of which one can happen, and why
 *   that one can */

const MOST_CHIPS = 24; // of one row of a task's card
const MOST_LINES = 300; // of a listing
const NARROWEST = 150, WIDEST = 320; // pixels of a column
const BESIDE = 0.2; // of a column, beside the last one
const OVER = 12; // rows that are drawn above and below those in view
const PRESENT = "fill=\"var(--present)\" fill-opacity=\".28\""; // behind the present event, with the lines of the tasks to be seen through it
const BEHIND = 150; // milliseconds until the address follows

/** @param {string} id @returns {any} */
const $ = id => document.getElementById(id);

const MOST_LINK = 30000; // letters of a link that holds a run
const MOST_BESIDE = 60; // events of two runs that are shown side by side
const MOST_PRINTED = 4000; // events of a chart on paper
const PAPER = 700; // pixels of its width

const data = /** @type {Data} */ (JSON.parse($("data").textContent));
$("data").textContent = "";
const bare = `<!doctype html>\n${document.documentElement.outerHTML}`; // the page without a run, as it was before anything was drawn
const view = {
  run: new Run(data.script, data.schedule, data.trace),
  at: 0,
  now: /** @type {any} */ (null), // the state behind event `at`, and the one before that event
  before: /** @type {any} */ (null),
  picked: 0, // a call
  task: 0, // the one task whose events are shown, or 0
  isOnly: false, // whether the events of the picked call alone are shown
  isQuiet: false, // whether idle events are hidden
  isHidden: Boolean(data.about), // whether what is to come is
  guessed: "", // what came of the last guess
  packed: "", // a changed run as a part of a link, or nothing
  base: /** @type {Data} */ ({...data}), // the run that was opened, before any change
  against: /** @type {{name: string, trace: string} | null} */ (null), // what the run is compared with, where that is not the one that was opened
  path: 0, // the path through the lessons that the reader follows, or 0
  beside: {old: /** @type {string[]} */ ([]), now: /** @type {string[]} */ ([]), first: -1}, // the events of the run that was opened and of
  // the present one, and the place of the first that is another, or -1
  undone: /** @type {Data[]} */ ([]), // the runs before those that were driven by hand, the last one last
  isEdited: false, // whether the editor has texts that were not run
  isPrinting: false,
  shown: /** @type {number[]} */ ([]), // the events that are shown, and where each begins in the chart
  tops: /** @type {number[]} */ ([]),
  columns: /** @type {number[]} */ ([]), // the tasks that have a column, the place of each, and the width of each
  place: /** @type {number[]} */ ([]),
  column: 200,
  cards: /** @type {string[]} */ ([]), // what is drawn of the tasks, and of the chart
  drawn: {key: "", events: /** @type {string[]} */ ([]), numbers: /** @type {string[]} */ ([])},
  scroll: {top: 0, left: 0, height: 0, width: 0}, // of the chart, kept so that drawing it need not wait for a layout
  listings: /** @type {Record<string, Listing>} */ ({}),
  kept: /** @type {Record<string, string>} */ ({}), // what stands in elements that are drawn anew only where it is another
};

/** Puts HTML into an element where it is another than before: what has the focus there, or is open, stays as it is.
 * @param {string} id @param {string} html */
function put(id, html) {
  if (view.kept[id] !== html) $(id).innerHTML = html;
  view.kept[id] = html;
}

/** The name of a task beside its number.
 * @param {number} task */
function who(task) {
  return `t${task} ${nameOf(view.run, task)}`;
}

/** A label or phone by the name of its task.
 * @param {string} word */
function byName(word) {
  const [task, phone] = word.split(".");
  return `${nameOf(view.run, numberOf(task))}.${phone}`;
}

// Where one stands

/** Folds the states before and behind an event; one step on takes one event alone.
 * @param {number} at */
function stand(at) {
  const run = view.run;
  if (view.now && at === view.at + 1) view.before = view.now;
  else view.before = run.stateAt(Math.max(0, at - 1));
  view.now = copyOfState(view.before);
  if (at > 0) run.apply(view.now, run.event(at));
  view.at = at;
}

/** Goes to an event, and draws.
 * @param {number} at */
function go(at) {
  const place = Math.max(0, Math.min(view.run.length, Math.floor(at) || 0));
  if (place !== view.at + 1) view.guessed = "";
  if (!view.now || place !== view.at) stand(place);
  bringIntoView();
  draw();
}

/** The place of the first shown event behind one.
 * @param {number} at */
function placeBehind(at) {
  let low = 0, high = view.shown.length;
  while (low < high) {
    const middle = (low + high) >> 1;
    if (view.shown[middle] <= at) low = middle + 1;
    else high = middle;
  }
  return low;
}

/** One shown event on, or one back.
 * @param {number} by */
function step(by) {
  const place = placeBehind(view.at);
  if (by > 0) return go(place < view.shown.length ? view.shown[place] : view.at);
  const back = placeBehind(view.at - 1) - 1;
  go(back >= 0 ? view.shown[back] : 0);
}

/** One event of the picked call on, or one back.
 * @param {number} by */
function stepCall(by) {
  const call = view.run.calls[view.picked];
  if (!call) return;
  const more = by > 0 ? call.events.filter(it => it > view.at) : call.events.filter(it => it < view.at).reverse();
  if (more.length) go(more[0]);
}

/** Picks a call, or none, and draws.
 * @param {number} call */
function pick(call) {
  view.picked = view.run.calls[call] ? call : 0;
  if (view.isOnly) sift();
  if (view.isOnly) layOut();
  draw();
}

/** Picks the first call of the present event; where one of its calls is picked, the one behind it, and none behind the last. */
function pickHere() {
  const {run, at, picked} = view;
  if (!at) return;
  const calls = [...new Set(rowsOf(run, run.event(at)).map(row => row.call).filter(Boolean))];
  pick(calls[calls.indexOf(picked) + 1] || 0);
}

/** Finds the events that are shown, and where each begins. */
function sift() {
  const {run, task, isQuiet} = view, call = view.isOnly ? run.calls[view.picked] : undefined;
  const all = call ? call.events : Array.from({length: run.length}, (_, i) => i + 1);
  view.shown = all.filter(at => at <= run.length && (!task || run.isNamed(at, task)) && !(isQuiet && run.isIdle[at]));
  let top = 0;
  view.tops = view.shown.map(at => {
    top += run.rows[at] * ROW;
    return top - run.rows[at] * ROW;
  });
  view.tops.push(top);
  view.drawn.key = "";
  const isWhole = !task && !call, tasks = run.names.map((_, i) => i).slice(1);
  view.columns = isWhole ? tasks : tasks.filter(it => it === task || view.shown.some(at => run.isNamed(at, it)));
  view.place = [];
  view.columns.forEach((it, place) => { view.place[it] = place; });
}

// The chart

/** The columns: all tasks that there ever are, or those that the shown events name, each as wide as the room gives. */
function layOut() {
  const chart = $("chart"), tasks = view.columns.length, room = (chart.clientWidth || 700) - LEFT - 8;
  view.scroll = {top: chart.scrollTop, left: chart.scrollLeft, height: chart.clientHeight, width: chart.clientWidth};
  view.column = Math.max(NARROWEST, Math.min(WIDEST, Math.floor(room / (tasks + BESIDE))));
  if (view.isPrinting) view.column = Math.min(WIDEST, Math.floor((PAPER - LEFT) / (tasks + BESIDE)));
  const width = widthOfAll();
  $("heads").style.width = $("space").style.width = `${width}px`;
  $("space").style.height = `${view.tops[view.tops.length - 1] + 20}px`;
  const heads = view.columns.map(task => `<text x="${x(task)}" y="19" text-anchor="middle" font-weight="600">${escaped(who(task))}</text>`);
  $("heads").innerHTML = `<svg width="${width}" height="27">${heads.join("")}</svg>`;
}

/** The columns and, beside the last one, room for the texts of its loops. */
function widthOfAll() {
  return LEFT + Math.floor(view.column * (view.columns.length + BESIDE));
}

/** The middle of a task's column.
 * @param {number} task */
function x(task) {
  return LEFT + view.column * (view.place[task] || 0) + view.column / 2;
}

/** The lines of the tasks between two heights, each from the event that made its task to the one that ended it.
 * @param {number} from @param {number} to @param {number} first @param {number} last */
function lifelines(from, to, first, last) {
  const {run, shown, tops} = view;
  return view.columns.map(task => {
    const born = run.born[task] || 0, died = run.died[task] || Infinity;
    let top = 0, end = to - from;
    for (let place = first; place < last; place++) {
      if (shown[place] < born) top = tops[place + 1] - from;
      if (shown[place] === died) end = Math.min(end, tops[place] + ROW - 4 - from);
    }
    if (first < last && shown[first] > died) end = top;
    return end > top ? `<line x1="${x(task)}" x2="${x(task)}" y1="${top}" y2="${end}" stroke="var(--life)"/>` : "";
  }).join("");
}

/** One event in the chart.
 * @param {number} place @param {number} from @param {number} width */
function drawEvent(place, from, width) {
  const {run, shown, tops, at, picked, scroll} = view;
  const way = {column: view.column, width, picked, from: scroll.left + LEFT, to: view.isPrinting ? width : scroll.left + scroll.width};
  const number = shown[place], top = tops[place] - from, high = tops[place + 1] - tops[place];
  if (view.isHidden && number > at) return `<g></g>`;
  const rows = rowsOf(run, run.event(number)).map((row, i) => drawRow(row, x, top + i * ROW, {...way, isLater: number > at, isNow: number === at})).join("");
  const back = number === at ? `<rect x="0" y="${top}" width="${width}" height="${high}" ${PRESENT}/>` : "";
  return `<g>${back}<rect class="hit" data-at="${number}" x="0" y="${top}" width="${width}" height="${high}"/>`
    + `${rows}</g>`;
}

/** The number of an event, which stays in view where the columns are scrolled.
 * @param {number} number @param {number} top @param {number} end */
function drawNumber(number, top, end) {
  if (view.isHidden && number > view.at) return `<g></g>`;
  const back = number === view.at ? `<rect x="0" y="${top}" width="${LEFT}" height="${end - top}" fill="var(--new)"/>` : "";
  return `<g>${back}<text x="${LEFT - 10}" y="${top + 15}" text-anchor="end" style="fill: var(--quiet)">${number}</text></g>`;
}

/** The places of the first event in view, and of the first behind those in view. */
function inView() {
  if (view.isPrinting) return {first: 0, last: Math.min(view.shown.length, MOST_PRINTED)};
  const {shown, tops, scroll} = view, above = scroll.top - OVER * ROW, below = scroll.top + scroll.height + OVER * ROW;
  let first = 0, high = shown.length;
  while (first < high) {
    const middle = (first + high) >> 1;
    if (tops[middle + 1] <= above) first = middle + 1;
    else high = middle;
  }
  let last = first;
  while (last < shown.length && tops[last] < below) last += 1;
  return {first, last};
}

/** How far down the lines of the tasks go: to the present event where what is to come is hidden. */
function lowest() {
  return view.isHidden ? view.tops[placeBehind(view.at)] || 0 : Infinity;
}

/** Draws the rows in view, and no others; of the same ones, those alone that look otherwise than before. */
function drawChart() {
  const {shown, tops, scroll, drawn} = view, width = widthOfAll(), {first, last} = inView();
  const from = tops[first] || 0, to = Math.max(tops[last], from + 20), size = (/** @type {number} */ it) => `<svg width="${it}" height="${to - from + 10}">`;
  const key = `${first} ${last} ${from} ${to} ${width} ${view.isHidden ? view.at : ""}`, events = [], numbers = [];
  for (let place = first; place < last; place++) {
    events.push(drawEvent(place, from, width));
    numbers.push(drawNumber(shown[place], tops[place] - from, tops[place + 1] - from));
  }
  $("numbers").style.left = `${scroll.left}px`;
  if (drawn.key === key) {
    renew($("rows").firstChild.lastChild.children, events, drawn.events);
    renew($("numbers").firstChild.children, numbers, drawn.numbers);
  } else {
    $("rows").style.top = $("numbers").style.top = `${from}px`;
    $("numbers").innerHTML = `${size(LEFT - 4)}${numbers.join("")}</svg>`;
    $("rows").innerHTML = `${size(width)}<g>${lifelines(from, Math.max(from, Math.min(to + 10, lowest())), first, last)}</g><g>${events.join("")}</g></svg>`;
  }
  view.drawn = {key, events, numbers};
}

/** Draws those elements anew whose text is another than the one that they have.
 * @param {any} elements @param {string[]} texts @param {string[]} old */
function renew(elements, texts, old) {
  texts.forEach((text, i) => {
    if (text !== old[i]) elements[i].outerHTML = text;
  });
}

/** Finds where the chart must stand so that the present event is in view. */
function bringIntoView() {
  const {scroll, tops} = view, place = Math.max(0, placeBehind(view.at) - 1), top = tops[place] || 0, end = tops[place + 1] || 0;
  const highest = Math.max(0, tops[tops.length - 1] + 20 - scroll.height + 28), widest = Math.max(0, widthOfAll() - scroll.width);
  const isAbove = top < scroll.top, isBelow = end > scroll.top + scroll.height - 60;
  if (isAbove || isBelow) scroll.top = Math.min(highest, Math.max(0, Math.floor(top - scroll.height / 3)));
  if (view.at === 0) return;
  const middle = x(view.run.event(view.at).task), half = view.column / 2;
  const isBefore = middle - half < scroll.left + LEFT, isBehind = middle + half > scroll.left + scroll.width;
  if (isBefore || isBehind) scroll.left = Math.min(widest, Math.max(0, Math.floor(middle - scroll.width / 2)));
}

/** Draws the chart anew where it was scrolled by a reader. */
function onScroll() {
  const chart = $("chart"), {scroll} = view;
  if (Math.abs(chart.scrollTop - scroll.top) < 1 && Math.abs(chart.scrollLeft - scroll.left) < 1) return;
  scroll.top = chart.scrollTop;
  scroll.left = chart.scrollLeft;
  requestAnimationFrame(drawChart);
}

// The lines of an event

/** What stands beside a word of a trace's line: names of tasks, methods and rights, numbers of codes.
 * @param {string[]} words @param {number} place */
function noteOf(words, place) {
  const word = words[place], isNumber = /^\d+$/.test(word), [first, second] = words;
  if (/^t\d+(?:[./]\d+)?$/.test(word)) return nameOf(view.run, numberOf(word.split(/[./]/)[0]));
  if (CODES.includes(word)) return String(CODES.indexOf(word));
  if (!isNumber) return "";
  const isMethod = words[place - 1] === "method" || second === "call" && place === 3 && /^t/.test(first)
    || second === "forward" && place === 5 || first === "=" && second === "received" && place === 3;
  if (isMethod) return METHODS[Number(word)] || "";
  return (second === "area" || first === "area") && place === 4 ? RIGHTS[Number(word)] || "" : "";
}

/** A line of the trace with its notes, which are no part of its text.
 * @param {string} line */
function noted(line) {
  const before = line.startsWith("  ") ? "  " : "", words = line.slice(before.length).split(" ");
  return before + words.map((word, place) => {
    const note = noteOf(words, place), kind = /^t\d/.test(word) ? "note near" : "note";
    return note ? `<span class="${kind}" data-note="${escaped(note)}">${escaped(word)}</span>` : escaped(word);
  }).join(" ");
}

/** @param {string} line */
function kindOf(line) {
  if (!line.startsWith("  ")) return "head";
  return line.startsWith("  = ") ? "outcome" : /^ {2}t\d+\//.test(line) ? "own" : "effect";
}

/** @param {string[]} lines */
function listed(lines) {
  return lines.map(line => `<span class="line ${kindOf(line)}">${noted(line)}</span>`).join("");
}

/** Which of its line's events one is, as 2 of 5.
 * @param {number} at */
function turnOf(at) {
  const {turns} = view.run, turn = turns[at - 1];
  let first = at;
  while (first > 1 && turns[first - 2] === turn) first -= 1;
  return turn.of > 1 ? `, ${at - first + 1} of ${turn.of}` : "";
}

function drawLines() {
  const {run, at} = view, turn = at > 0 ? run.turns[at - 1] : undefined;
  const of = turn ? `line ${turn.line} of the schedule: <code>${escaped(turn.words.join(" "))}</code>${turnOf(at)}` : "";
  const title = turn ? `event ${at} of ${run.length}, ${of}` : `before the first of ${run.length} events`;
  $("event").innerHTML = `<div class="box"><h2>${title}</h2>${turn ? `<pre>${listed(run.event(at).lines)}</pre>` : ""}${didText(at)}</div>`;
  const head = turn ? run.event(at).lines : [];
  const picked = view.picked ? `; call ${view.picked} ${placeOf(view.picked)}` : "";
  $("live").textContent = turn ? `${view.guessed} event ${at} of ${run.length}: ${who(run.event(at).task)}, ${head.join(", ")}${picked}` : title;
}

/** What a raw task did in an event that asks the kernel for nothing.
 * @param {number} at */
function didText(at) {
  return at > 0 && view.run.did[at] ? `<div class="quiet">the operation was <code>${escaped(operationText(view.run, at))}</code></div>` : "";
}

// What comes next

/** The tasks that live behind the present event. */
function living() {
  return view.now.tasks.filter((/** @type {Task} */ task) => task && !task.ended);
}

/** Asks for the next event while what is to come is hidden. */
function drawQuestion() {
  const {run, at, isHidden} = view, isAsked = isHidden && at < run.length;
  document.body.classList.toggle("predict", isHidden);
  document.body.classList.toggle("start", at === 0);
  $("ask").hidden = !isHidden || !isAsked && !view.guessed;
  const tasks = isAsked ? view.now.tasks.filter(Boolean).map((/** @type {Task} */ it) => `<button data-guess="${it.number}">${escaped(who(it.number))}</button>`) : [];
  $("ask").innerHTML = `<b>${escaped(view.guessed)} ${isAsked ? "What comes next?" : "That was the last event."}</b>${tasks.join("")}`;
  if (isHidden && at === run.length && run.length) $("answer").open = true;
}

/** Takes a task as the one that comes next, and shows what does.
 * @param {number} task */
function guess(task) {
  const {run, at} = view;
  if (!view.isHidden || at >= run.length || !run.names[task]) return;
  const due = run.event(at + 1).task;
  view.guessed = due === task ? `Right: ${who(due)}.` : `No: it was ${who(due)}.`;
  go(at + 1);
}

/** @param {boolean} isHidden */
function hide(isHidden) {
  view.isHidden = isHidden;
  view.guessed = "";
  view.drawn.key = "";
  draw();
}

// A call's story

/** Where a call stands behind the present event.
 * @param {number} number */
function placeOf(number) {
  const call = view.run.calls[number];
  if (call.events[0] > view.at) return "not made yet";
  for (const task of view.now.tasks) {
    if (task && task.incoming.includes(number)) return `waits for ${who(task.number)}`;
    if (task && task.held.includes(number)) return `held by ${who(task.number)}`;
    if (task && task.answers.includes(number)) return `answered; the answer waits for ${who(task.number)}`;
  }
  return "over";
}

function drawStory() {
  const {run, picked, at} = view, call = run.calls[picked];
  $("story").hidden = !call;
  if (!call) return;
  const message = run.message(picked, at), forgotten = call.forgotten && call.forgotten <= at ? ", its caller was killed" : "";
  const origin = `made by ${who(call.caller)} over ${call.over}, label ${message.label}`;
  const head = `call ${picked}: ${methodText(message.method)}, ${origin}; ${placeOf(picked)}${forgotten}`;
  const parts = run.story(picked).filter(it => it.at <= run.length).map(it => {
    const when = it.at === at ? "now" : it.at > at ? "later" : "";
    return `<span class="at ${when}" data-at="${it.at}"><b>event ${it.at}</b>${listed(it.lines)}</span>`;
  });
  $("story").innerHTML = `<div class="box"><h2>${escaped(head)}</h2><div class="lines">${parts.join("")}</div></div>`;
}

// The tasks

/** A part of a card: which one it is, and its text with that in front.
 * @typedef {{key: string | number, text: string, kind: string, call?: number}} Chip */

/** @param {Chip} chip @param {string} mark @param {Chip} [old] the same part before the event, where it was another text */
function drawChip(chip, mark, old) {
  const call = chip.call ? ` data-call="${chip.call}"` : "", picked = chip.call && chip.call === view.picked ? " picked" : "";
  const was = old ? ` title="before: ${escaped(`${old.key} ${old.text}`)}"` : "";
  const keys = chip.call ? ` tabindex="0" role="button" aria-label="call ${chip.call}"` : "";
  return `<span class="chip ${escaped(chip.kind)}${mark}${picked}"${call}${keys}${was}><b>${escaped(chip.key)}</b> ${escaped(chip.text)}</span>`;
}

/** A row of a card, empty where it has no part: what is new or another is marked, and what is gone is struck out.
 * @param {string} title @param {Chip[]} now @param {Chip[]} before */
function drawParts(title, now, before) {
  const old = new Map(before.map(it => [it.key, it])), kept = new Set(now.map(it => it.key));
  const gone = before.filter(it => !kept.has(it.key)).slice(0, MOST_CHIPS).map(it => drawChip(it, " gone")).join("");
  const more = now.length > MOST_CHIPS ? `<span class="quiet">and ${now.length - MOST_CHIPS} more</span>` : "";
  const chips = gone + now.slice(0, MOST_CHIPS).map(it => {
    const was = old.get(it.key);
    return was && was.text === it.text ? drawChip(it, "") : drawChip(it, " new", was);
  }).join("") + more;
  return chips ? `<div class="row"><b>${title}</b><div>${chips}</div></div>` : "";
}

/** The rows of a card, those that an event changed first.
 * @param {string[]} rows */
function changedFirst(rows) {
  const isChanged = (/** @type {string} */ row) => / (?:new|gone)[" ]/.test(row);
  return [...rows.filter(isChanged), ...rows.filter(row => !isChanged(row))].join("");
}

/** The calls of a queue. The arguments of one that was not received stay out: the kernel may have changed them, which the
 * trace tells at the receive.
 * @param {number[]} queue @param {number} at @param {string} title of the queue @returns {Chip[]} */
function callChips(queue, at, title) {
  const isAnswer = title === "answers", isHeld = title === "held";
  return queue.map(number => {
    const call = view.run.calls[number], message = view.run.message(number, at), forgotten = call.forgotten && call.forgotten <= at;
    const request = `${methodText(message.method)}${isHeld ? trimmed(message.args.split(" ")) : ""} from ${byName(message.label)}`;
    const text = isAnswer && call.answer ? codeText(call.answer.code) + trimmed(call.answer.args.split(" ")) : request;
    return {key: number, call: number, kind: "", text: text + (forgotten ? ", forgotten" : "")};
  });
}

/** @param {Task} task @returns {Chip[]} */
function phoneChips(task) {
  return [...task.phones].sort((a, b) => a[0] - b[0]).map(([phone, it]) => {
    const active = task.active.get(phone), count = active ? `, ${active} active` : "";
    const leads = it.state === "connected" ? `\u2192 ${who(it.to)}` : it.state;
    return {key: phone, kind: it.state, text: leads + count};
  });
}

/** @param {Task} task @param {State} state @returns {Chip[]} */
function areaChips(task, state) {
  const others = state.tasks.filter(it => it && it !== task);
  return [...task.areas.values()].map(area => {
    const shared = others.filter(it => [...it.areas.values()].some(other => other.store === area.store)).map(it => it.name);
    const text = `${area.pages} page${area.pages === "1" ? "" : "s"}, ${RIGHTS[Number(area.rights)]}, store ${area.store}`;
    return {key: area.base, kind: "", text: text + (shared.length ? `, shared with ${shared.join(", ")}` : "")};
  });
}

/** @param {Task} task @returns {Chip[][]} */
function fibrilChips(task) {
  const fibrils = [...task.fibrils].map(([key, it]) => {
    const label = it.label ? `, for ${byName(it.label)}` : "";
    return {key, kind: it.is, text: (it.is === "waits" ? `waits: ${it.why}` : it.is) + label};
  });
  const sessions = [...task.sessions].map(([key, it]) => ({key, kind: "", text: it.mode + (it.phone ? `, phone ${it.phone}` : "")}));
  const exchanges = [...task.exchanges].map(([key, it]) =>
    ({key, kind: "", text: `session ${it.session}, phone ${it.phone}, ${it.fibril ? `fibril ${it.fibril}` : "idle"}`}));
  return [fibrils, sessions, exchanges];
}

/** The registers that are not 0, or are not in the other state.
 * @param {Task} task @param {Task} other @returns {Chip[]} */
function registerChips(task, other) {
  const chips = task.registers.map((value, i) => ({key: `r${i}`, kind: "", text: value}));
  return chips.filter((_, i) => task.registers[i] !== "0" || other.registers[i] !== "0");
}

/** @param {Task} task @param {Task} old */
function drawRegisters(task, old) {
  if (task.plan.kind !== "raw") return [];
  const line = lineOf(task), text = line ? view.run.script.lines[line - 1].replace(/#.*/, "").trim() : "past the last operation";
  const head = line ? nextHead(task).replace(/^t\d+ /, "").replace(/( 0)+$/, "") : "";
  const asks = ["nothing", text].includes(head) ? "" : `, as ${escaped(head)}`, where = line ? `<span class="quiet">line ${line}${asks}</span>` : "";
  const next = `<div class="row"><b>next</b><div><span class="lines">${escaped(text)}</span>${where}</div></div>`;
  return [drawParts("registers", registerChips(task, old), registerChips(old, task)), task.ended ? "" : next];
}

/** The rows of a card for calls, and for phones.
 * @param {Task} task @param {Task} old */
function drawCalls(task, old) {
  const {at} = view;
  const queue = (/** @type {string} */ title, /** @type {number[]} */ now, /** @type {number[]} */ before) =>
    drawParts(title, callChips(now, at, title), callChips(before, at - 1, title));
  return [queue("incoming", task.incoming, old.incoming), queue("held", task.held, old.held), queue("answers", task.answers, old.answers),
    drawParts("phones", phoneChips(task), phoneChips(old))];
}

/** @param {Task} task @param {Task} old the same task before the event */
function drawTask(task, old) {
  const {now, before, at, run} = view, isOn = at > 0 && run.event(at).task === task.number, ended = task.ended ? ", ended" : "";
  const [fibrils, sessions, exchanges] = fibrilChips(task), [oldFibrils, oldSessions, oldExchanges] = fibrilChips(old);
  const kind = {ns: "naming service", block: "block server"}[task.plan.kind] || task.plan.kind;
  return `<div class="task${isOn ? " on" : ""}${task.ended ? " ended" : ""}" data-task="${task.number}">`
    + `<h3>${escaped(who(task.number))} <span>${escaped(kind)}${ended}</span></h3>`
    + changedFirst([...drawCalls(task, old), drawParts("areas", areaChips(task, now), areaChips(old, before)),
      drawParts("fibrils", fibrils, oldFibrils), drawParts("sessions", sessions, oldSessions),
      drawParts("exchanges", exchanges, oldExchanges), ...drawRegisters(task, old)]) + "</div>";
}

/** Draws the cards of the tasks; one that is the same as before stays as it is. */
function drawTasks() {
  const box = $("tasks"), {run, at} = view;
  const isNamed = (/** @type {number} */ task) => !view.task || task === view.task || at > 0 && run.isNamed(at, task);
  const tasks = view.now.tasks.filter((/** @type {Task} */ task) => task && isNamed(task.number));
  const cards = tasks.map((/** @type {Task} */ task) => drawTask(task, view.before.tasks[task.number] || emptyOf(task)));
  if (cards.length !== view.cards.length) box.innerHTML = cards.join("");
  else renew(box.children, cards, view.cards);
  view.cards = cards;
}

/** A task that was not there before the event, as one that has nothing.
 * @param {Task} task @returns {Task} */
function emptyOf(task) {
  return {...task, incoming: [], held: [], answers: [], phones: new Map(), active: new Map(), areas: new Map(), fibrils: new Map(),
    connections: new Map(), sessions: new Map(), exchanges: new Map(), registers: task.registers.map(() => "0")};
}

// Script and schedule

/** Draws the lines of a text with their numbers: all, or those round one of them where they are many.
 * @param {string} name @param {string[]} lines @param {number} focus @returns {Listing} */
function listing(name, lines, focus) {
  const kept = view.listings[name], edge = MOST_LINES / 10, count = lines[lines.length - 1] ? lines.length : lines.length - 1;
  const isNear = kept && (kept.from === 0 || focus > kept.from + edge) && (kept.to === count || focus < kept.to - edge);
  if (kept && kept.lines === lines && isNear) return kept;
  const from = Math.max(0, Math.min(Math.floor(focus - MOST_LINES / 2), count - MOST_LINES)), to = Math.min(count, from + MOST_LINES);
  const more = (/** @type {number} */ many, /** @type {string} */ where) =>
    many > 0 ? `<span class="line quiet"><i></i>${many} lines ${where}</span>` : "";
  const part = lines.slice(from, to).map((line, i) => `<span class="line"><i>${from + i + 1}</i>${escaped(line)}</span>`);
  $(name).innerHTML = more(from, "above") + part.join("") + more(count - to, "below");
  return view.listings[name] = {lines, from, to, above: from ? 1 : 0, marked: []};
}

/** Marks lines of a text; `marks` says how each is marked, and what stands behind it.
 * @param {string} name @param {string[]} lines @param {Map<number, string[]>} marks @param {number} focus */
function drawListing(name, lines, marks, focus) {
  const drawn = listing(name, lines, focus), children = $(name).children;
  for (const element of drawn.marked) element.className = "line";
  drawn.marked = [];
  for (const [line, [kind, note]] of marks) {
    const element = line > drawn.from && line <= drawn.to ? children[line - 1 - drawn.from + drawn.above] : undefined;
    if (!element) continue;
    element.className = `line ${kind}`;
    element.dataset.who = note;
    drawn.marked.push(element);
  }
}

function drawTexts() {
  const {run, at, now, before} = view, marks = new Map(), turn = at > 0 ? run.turns[at - 1] : undefined;
  for (const task of now.tasks) {
    const line = task ? lineOf(task) : 0, [, others] = marks.get(line) || ["", ""];
    if (line) marks.set(line, ["next", others ? `${others}, ${task.name}` : `next of ${task.name}`]);
  }
  const event = at > 0 ? run.event(at) : undefined, old = event ? before.tasks[event.task] : undefined;
  const isStep = turn && turn.words[0] === "step" && event && event.kind !== "ended", done = old && isStep ? lineOf(old) : 0;
  if (done) marks.set(done, ["now", (marks.get(done) || ["", ""])[1]]);
  const focus = done || (event && now.tasks[event.task] ? lineOf(now.tasks[event.task]) || now.tasks[event.task].plan.line : 1);
  drawListing("script", run.script.lines, marks, focus);
  drawListing("schedule", run.schedule, new Map(turn ? [[turn.line, ["now", ""]]] : []), turn ? turn.line : 1);
}

// The whole, and the address

let later = 0;

/** The address of the place where one stands. */
function address() {
  const {at, picked, task, isOnly, isQuiet} = view;
  const parts = [view.packed ? `run=${view.packed}` : "", view.path ? `path=${view.path}` : "", picked ? `call=${picked}` : "", task ? `task=${task}` : "", isOnly ? "only=1" : "", isQuiet ? "idle=0" : ""];
  return [`#at=${at}`, ...parts.filter(Boolean)].join("&");
}

/** Scrolls a box where one of its elements is out of view.
 * @param {string} name of the box @param {string} selector */
function scrollTo(name, selector) {
  const box = document.querySelector(name), element = box && box.querySelector(selector);
  if (!box || !(element instanceof HTMLElement)) return;
  const top = element.offsetTop, isIn = top >= box.scrollTop && top + element.offsetHeight <= box.scrollTop + box.clientHeight;
  if (!isIn) box.scrollTop = Math.max(0, element.offsetHeight > box.clientHeight ? top - 6 : top - box.clientHeight / 3);
}

/** Draws all, and gives the focus back to the call that had it, whose element may be another one then. */
function draw() {
  const had = document.activeElement, box = had && had.closest("#chart, #tasks"), call = had && had.getAttribute("data-call");
  drawAll();
  if (!box || !call || had.isConnected) return;
  const again = box.querySelector(`[data-call="${call}"][tabindex]`) || $("chart");
  if (again instanceof HTMLElement || again instanceof SVGElement) again.focus({preventScroll: true});
}

/** Draws all; what must know where things stand comes last, so that the page is laid out once. */
function drawAll() {
  drawLines();
  drawQuestion();
  drawDrive();
  drawVersus();
  drawStory();
  drawTasks();
  drawTexts();
  drawChart();
  drawControls();
  $("chart").scrollTop = view.scroll.top;
  $("chart").scrollLeft = view.scroll.left;
  scrollTo("#story .lines", ".now");
  scrollTo("#tasks", ".on");
  scrollTo("#tasks", ".task:has(.new, .gone)");
  scrollTo("#script", ".now");
  if (!document.querySelector("#script .now")) scrollTo("#script", ".next");
  scrollTo("#schedule", ".now");
}

function drawControls() {
  const {run, at} = view;
  if (document.activeElement !== $("number")) $("number").value = at;
  if (document.activeElement !== $("call")) $("call").value = view.picked || "";
  $("slider").value = at;
  $("of").textContent = `of ${run.length}`;
  $("only").checked = view.isOnly;
  $("idle").checked = view.isQuiet;
  $("hide").checked = view.isHidden;
  $("task").value = String(view.task);
  $("callsteps").hidden = !view.picked;
  $("link").href = address();
  clearTimeout(later);
  later = setTimeout(() => history.replaceState(null, "", address()), BEHIND);
}

/** Opens the place that the address names, and first the run that it holds, where it holds another one. */
async function openAddress() {
  const wanted = new URLSearchParams(location.hash.slice(1)), run = wanted.get("run") || "";
  if (run !== view.packed) {
    const texts = run ? await unpacked(run) : view.base;
    if (texts) return openRun({...data, ...texts, isChanged: Boolean(run)}, false, run);
    $("faults").hidden = false;
    $("faults").textContent = "the link holds no whole run: it was cut off, or this browser cannot read it";
  }
  openPlace(wanted);
}

/** @param {URLSearchParams} wanted */
function openPlace(wanted) {
  const number = (/** @type {string} */ name) => Number(wanted.get(name)) || 0;
  view.picked = view.run.calls[number("call")] ? number("call") : 0;
  view.task = view.run.names[number("task")] ? number("task") : 0;
  view.isOnly = wanted.get("only") === "1";
  view.isQuiet = wanted.get("idle") === "0";
  view.path = data.paths[number("path") - 1] ? number("path") : view.path;
  drawNext();
  sift();
  layOut();
  go(number("at"));
}

/** Shows a run from its start, or from the place that the address names.
 * @param {Data} texts @param {boolean} isNew @param {string} [inLink] the run as the link holds it */
function openRun(texts, isNew, inLink = "") {
  if (texts.script !== data.script || texts.schedule !== data.schedule || texts.trace !== data.trace) {
    view.run = new Run(texts.script, texts.schedule, texts.trace);
  }
  Object.assign(data, texts);
  view.packed = inLink;
  if (texts.isChanged && !inLink) keepInLink(texts);
  view.now = null;
  view.cards = [];
  view.listings = {};
  $("tasks").innerHTML = "";
  $("title").textContent = texts.name;
  $("slider").max = $("number").max = view.run.length;
  $("faults").hidden = !view.run.faults.length;
  $("faults").textContent = view.run.faults.join("; ");
  const tasks = view.run.names.slice(1).map((_, i) => `<option value="${i + 1}">${escaped(who(i + 1))}</option>`);
  $("task").innerHTML = `<option value="0">all</option>${tasks.join("")}`;
  keepBeside();
  openPlace(new URLSearchParams(isNew ? "at=0" : location.hash.slice(1)));
}

/** Puts a changed run into the link, where it is short enough.
 * @param {Data} texts */
async function keepInLink(texts) {
  const text = await packed({name: texts.name, script: texts.script, schedule: texts.schedule, trace: texts.trace});
  if (texts.trace !== data.trace) return;
  view.packed = text.length <= MOST_LINK ? text : "";
  $("link").title = view.packed ? "a link to this place, with the changed run in it" : "the changed run is too long for a link: save the page";
  drawControls();
}

// What is taken along

/** The page with the present run in it, as one file that asks for nothing. */
function wholePage() {
  const {name, script, schedule, trace, about, answer, set} = data, none = {lessons: [], paths: [], questions: [], quiz: null};
  const own = JSON.stringify({name, script, schedule, trace, ...none, isServed: false, about, answer, set}).replace(/</g, "\\u003c");
  // the end of a script element must not stand in this one
  const [open, close] = ['id="data">', "<" + "/script>"];
  return bare.replace("connect-src 'self'", "connect-src 'none'").replace(open + close, () => open + own + close);
}

/** The whole chart as a picture, in light colours. */
function wholeChart() {
  const {run, shown, tops} = view, kept = {column: view.column, isPrinting: view.isPrinting}, colours = getComputedStyle(document.documentElement);
  view.isPrinting = true;
  view.column = Math.max(NARROWEST, Math.min(WIDEST, 220));
  const width = widthOfAll(), last = Math.min(shown.length, MOST_PRINTED), high = (tops[last] || 0) + 40;
  const heads = view.columns.map(task => `<text x="${x(task)}" y="19" text-anchor="middle" font-weight="600">${escaped(who(task))}</text>`).join("");
  const rows = shown.slice(0, last).map((at, place) => {
    const way = {column: view.column, width, picked: 0, from: LEFT, to: width, isLater: false, isNow: false};
    return `<text x="${LEFT - 10}" y="${tops[place] + 15}" text-anchor="end">${at}</text>`
      + rowsOf(run, run.event(at)).map((row, i) => drawRow(row, x, tops[place] + i * ROW, way)).join("");
  });
  const text = `<svg xmlns="http://www.w3.org/2000/svg" width="${width}" height="${high}"><style>text { font: 12px sans-serif }</style>`
    + `<rect width="100%" height="100%" fill="var(--paper)"/>${heads}<g transform="translate(0 28)">${lifelines(0, high, 0, last)}${rows.join("")}</g></svg>\n`;
  Object.assign(view, kept);
  return text.replace(/var\((--\w+)\)/g, (_, name) => colours.getPropertyValue(name).trim());
}

/** Gives the reader a file.
 * @param {string} name */
function save(name) {
  const texts = /** @type {Record<string, () => string>} */ ({script: () => data.script, schedule: () => data.schedule, trace: () => data.trace,
    "chart.svg": wholeChart, "page.html": wholePage});
  const link = document.createElement("a");
  link.href = URL.createObjectURL(new Blob([texts[name]()], {type: "text/plain"}));
  link.download = name;
  link.click();
  URL.revokeObjectURL(link.href);
}

/** Takes files that are dropped: a trace, with script and schedule of its own or of the present run, is a run; without one
 * the texts go into the editor, where the page is served.
 * @param {FileList} files */
async function take(files) {
  const texts = /** @type {Record<string, string>} */ ({});
  for (const file of files) {
    const kind = ["script", "schedule", "trace"].find(name => file.name.includes(name));
    if (kind) texts[kind] = await file.text();
  }
  if (texts.trace) return openRun({...data, ...texts, name: "files", isChanged: true}, true);
  if (!data.isServed || !Object.keys(texts).length) {
    $("faults").hidden = false;
    $("faults").textContent = data.isServed ? "drop files named script, schedule or trace" : "this page cannot run them: drop the trace too, or open them by tools/serve";
    return;
  }
  if ($("editor").hidden) openEditor();
  for (const which of Object.keys(texts)) $("new" + which).value = texts[which];
  view.isEdited = true;
}

// Two runs side by side

/** The events of a trace, each as its text.
 * @param {string} trace */
function eventsOf(trace) {
  return trace.trimEnd().split(/\n(?! )/).filter(Boolean);
}

/** Keeps the events of a changed run and of the one that was opened. */
function keepBeside() {
  const {trace} = view.against || view.base, isSame = trace === data.trace, old = isSame ? [] : eventsOf(trace), now = isSame ? [] : eventsOf(data.trace);
  const differs = now.findIndex((text, i) => text !== old[i]);
  view.beside = {old, now, first: differs < 0 && old.length > now.length ? now.length : differs};
}

/** Shows a changed run beside the one that was opened, from the first event at which they differ; while what is to come is
 * hidden, up to the present event. */
function drawVersus() {
  const {old, now, first} = view.beside, longer = Math.max(old.length, now.length);
  $("versus").hidden = first < 0;
  if (first < 0) return;
  const end = Math.min(first + MOST_BESIDE, view.isHidden ? view.at : longer, longer);
  const cell = (/** @type {string[]} */ list, /** @type {number} */ i) => {
    const kind = old[i] === now[i] ? "" : " class=\"other\"", place = list === now && list[i] ? ` data-at="${i + 1}"` : "";
    return `<pre${kind}${place}>${list[i] ? `${i + 1} ${escaped(list[i])}` : ""}</pre>`;
  };
  const cells = [];
  for (let i = first; i < end; i++) cells.push(cell(old, i), cell(now, i));
  const isOpen = !$("versus").firstChild || $("versus").firstChild.open;
  put("versus", `<details${isOpen ? " open" : ""}><summary>two runs side by side: from event ${first + 1} on they differ</summary>`
    + `<div><h2>${escaped((view.against || view.base).name)}</h2><h2>${escaped(view.against ? "what the program prints" : data.name)}</h2>${cells.join("")}</div></details>`);
}

// A run that is driven by hand

/** The lines of a schedule for its first events, and then one more.
 * @param {number} count @param {string} line */
function cutSchedule(count, line) {
  const lines = [], {turns} = view.run;
  for (let at = 0, first = 0; at < count; at++) {
    const {words} = turns[at], isMany = words[0] === "step" && words[2] === "x", isLast = at + 1 === count || turns[at + 1] !== turns[at];
    if (isLast) lines.push(isMany ? `step ${words[1]} x ${at + 1 - first}` : words.join(" "));
    if (isLast) first = at + 1;
  }
  return [...lines, line, ""].join("\n");
}

/** Buttons that go on from the present event in another way. */
function drawDrive() {
  $("drive").hidden = !data.isServed;
  if (!data.isServed) return;
  const names = living().map((/** @type {Task} */ task) => task.name), {templates} = view.run.script;
  const button = (/** @type {string} */ line) => `<button data-drive="${escaped(line)}">${escaped(line)}</button>`;
  const hangups = living().flatMap((/** @type {Task} */ task) => [...task.phones].filter(([, it]) => it.state === "connected").slice(0, 4).map(([phone]) => `hangup ${task.name} ${phone}`));
  const free = (/** @type {string} */ name) => { let n = 1; while (view.run.names.includes(name + n)) n += 1; return name + n; };
  const spawns = [...templates.keys()].map(name => `spawn ${name} ${free(name)}`);
  const lines = [...names.map((/** @type {string} */ it) => `step ${it}`), ...names.map((/** @type {string} */ it) => `kill ${it}`)];
  put("drive", `<b>go on by hand from here</b>${lines.map(button).join("")}`
    + (hangups.length + spawns.length ? `<details><summary>hang up, spawn</summary>${[...hangups, ...spawns].map(button).join("")}</details>` : "")
    + (view.undone.length ? `<button data-undo="1">undo (u)</button>` : ""));
}

/** Cuts the schedule at the present event, goes on with a line, and steps to what comes of it.
 * @param {string} line */
async function drive(line) {
  const {at} = view, kept = {...data}, schedule = cutSchedule(at, line), told = await answerTo(data.script, schedule);
  if (told.text) {
    $("faults").hidden = false;
    $("faults").textContent = told.text;
    return;
  }
  view.undone.push(kept);
  openRun({...data, name: changedName(), schedule, trace: told.trace, isChanged: true}, true);
  go(at + 1);
}

function undo() {
  const last = view.undone.pop(), {at} = view;
  if (!last) return;
  openRun({...last}, true);
  go(Math.max(0, at - 1));
}

function changedName() {
  return data.name.endsWith(", changed") ? data.name : `${data.name}, changed`;
}

// What is served: lessons from a list, and texts that are changed and run

/** The numbers of a text's lines, with one marked.
 * @param {string} which @param {number} fault */
function drawNumbers(which, fault) {
  const count = $("new" + which).value.split("\n").length;
  const numbers = Array.from({length: count}, (_, i) => i + 1 === fault ? `<span class="fault">${i + 1}</span>` : String(i + 1));
  $(which + "numbers").innerHTML = numbers.join("\n") + "\n\n";
  $(which + "numbers").scrollTop = $("new" + which).scrollTop;
}

/** Marks the line of a fault, with what the manual says of its reason.
 * @param {{text: string, file: string, line: number, meaning: string, hints: string[]}} fault */
function tellFault(fault) {
  const parts = [fault.meaning ? `<p>${escaped(fault.meaning)}</p>` : "", ...fault.hints.map(hint => `<p>${escaped(hint)}</p>`)];
  $("told").innerHTML = `<b>${escaped(fault.text)}</b>${parts.join("").replace(/`([^`]*)`/g, "<code>$1</code>")}`;
  if (!fault.file) return;
  if (["goal", "kill"].includes(fault.file)) return markWord($(fault.file), fault.file === "goal" ? /[^ ]+/g : /[^,]+/g, fault.line);
  drawNumbers(fault.file, fault.line);
  const box = $("new" + fault.file), lines = box.value.split("\n");
  const from = lines.slice(0, fault.line - 1).join("\n").length + (fault.line > 1 ? 1 : 0);
  box.focus();
  box.setSelectionRange(from, from + (lines[fault.line - 1] || "").length);
  box.scrollTop = Math.max(0, (fault.line - 8) * 19);
}

/** Selects one of the words of a field, counted from 1, or all of it.
 * @param {HTMLInputElement} field @param {RegExp} form of a word @param {number} number */
function markWord(field, form, number) {
  const found = [...field.value.matchAll(form)][number - 1];
  field.focus();
  field.setSelectionRange(found ? found.index || 0 : 0, found ? (found.index || 0) + found[0].length : field.value.length);
}

/** What the server says of a script and a schedule, or of a script and the two lines of a search: a trace, or a text that says
 * why there is none.
 * @param {string} script @param {string} more @param {string} [what] @returns {Promise<any>} */
async function answerTo(script, more, what = "run") {
  const bytes = new TextEncoder(), first = bytes.encode(script), body = new Blob([first, bytes.encode(more)]);
  try {
    const answer = await fetch(`/${what}?script=${first.length}`, {method: "POST", headers: {"Content-Type": "application/octet-stream"}, body});
    return await answer.json();
  } catch (error) {
    return {text: `the server does not answer: ${error}`, file: "", line: 0, meaning: "", hints: []};
  }
}

/** Runs the texts of the editor. */
async function runTexts() {
  const script = $("newscript").value, schedule = $("newschedule").value;
  begin("runs ..");
  openAnswer(script, schedule, await answerTo(script, schedule));
}

/** Looks for a schedule of the script in the editor under which the goal is met. */
async function searchTexts() {
  const script = $("newscript").value, kills = $("kill").value.replace(/[ ,]+/g, ",").replace(/^,|,$/g, "");
  begin("searches ..");
  const told = await answerTo(script, `${$("goal").value.trim() || "lost"}\n${kills}`, "search");
  openAnswer(script, told.schedule, told);
}

/** @param {string} text what is under way */
function begin(text) {
  $("told").textContent = text;
  drawNumbers("script", 0);
  drawNumbers("schedule", 0);
}

/** Opens the run that the server tells, or marks the fault.
 * @param {string} script @param {string} schedule @param {any} told */
function openAnswer(script, schedule, told) {
  if (told.text) return tellFault(told);
  $("told").textContent = "";
  $("editor").hidden = true;
  view.isEdited = false;
  openRun({...data, name: changedName(), script, schedule, trace: told.trace, isChanged: true}, true);
}

/** Opens the editor, or closes it; texts that were not run stay in it. */
function openEditor() {
  if (!view.isEdited) revert();
  $("editor").hidden = !$("editor").hidden;
}

/** Puts the texts of the present run into the editor. */
function revert() {
  $("newscript").value = data.script;
  $("newschedule").value = data.schedule;
  $("told").textContent = "";
  view.isEdited = false;
  drawNumbers("script", 0);
  drawNumbers("schedule", 0);
}

/** The list: paths, lessons and questions. What is opened is an address behind that of the server. */
function drawList() {
  const option = (/** @type {string} */ value, /** @type {string} */ title) => `<option value="${value}">${escaped(title)}</option>`;
  const group = (/** @type {string} */ title, /** @type {string[]} */ options) => options.length ? `<optgroup label="${title}">${options.join("")}</optgroup>` : "";
  $("lessons").innerHTML = option("", "lessons ..")
    + group("paths", data.paths.map(([title, names], i) => option(`lesson/${names[0]}#path=${i + 1}`, title)))
    + group("lessons", data.lessons.map(([name, title]) => option(`lesson/${name}`, title)))
    + group("which of these four can happen?", data.questions.map(([name, title], i) => option(`quiz/${name}`, `${i + 1}. ${title}`)));
  $("lessons").value = location.pathname.slice(1) || `lesson/${data.name}`;
  $("lessons").onchange = () => location.assign(`/${$("lessons").value}`);
}

/** The link to what comes next: on a path its next lesson, else that of the list, and behind a question the next one. */
function drawNext() {
  const [kind, name] = location.pathname.split("/").slice(1), path = kind === "lesson" ? data.paths[view.path - 1] : undefined;
  const titles = new Map(kind === "quiz" ? data.questions : data.lessons), names = path ? path[1] : [...titles.keys()];
  const place = names.indexOf(name || names[0]) + 1, next = place ? names[place] : undefined;
  $("next").hidden = !data.isServed || !next;
  $("next").textContent = path ? `next on the path, ${place + 1} of ${names.length}` : kind === "quiz" ? "next question" : "next lesson";
  $("next").title = titles.get(next || "") || "";
  $("next").href = `/${kind || "lesson"}/${next}${path ? `#path=${view.path}` : ""}`;
}

// A question: which of these four traces can happen?

/** The schedule whose events have the heads of those of a trace.
 * @param {string} trace */
function scheduleOf(trace) {
  const {names} = new Run(view.base.script, "", "");
  return eventsOf(trace).map(event => {
    const [, kill, number] = event.match(/^(kill )?t(\d+)/) || [];
    return `${kill ? "kill" : "step"} ${names[Number(number)]}\n`;
  }).join("");
}

function drawQuiz() {
  const {quiz} = data;
  $("quiz").hidden = !quiz;
  if (!quiz) return;
  const buttons = quiz.traces.map((_, i) => `<button data-choose="${i + 1}">${"abcd"[i]} can happen</button>`);
  const [first, ...others] = quiz.traces.map(eventsOf), differs = first.findIndex((event, i) => others.some(it => it[i] !== event));
  const shown = (/** @type {string[]} */ events) => `<pre>${listed(events.flatMap(event => event.split("\n")))}</pre>`;
  const same = differs ? `<h2>all four begin so</h2>${shown(first.slice(0, differs))}` : "";
  const traces = [first, ...others].map((events, i) => `<div><h2>${"abcd"[i]}, from event ${differs + 1} on</h2>${shown(events.slice(differs))}</div>`);
  $("quiz").innerHTML = `<p>${escaped(quiz.text.replace(/\s+/g, " "))} Which of these four traces can happen?</p><div>${buttons.join(" ")}</div>`
    + `<p id="chosen" aria-live="polite"></p><details open><summary>the four traces</summary><div id="same">${same}</div><div class="four">${traces.join("")}</div></details>`;
}

/** Runs the schedule of a trace, says whether the program prints that trace, and opens what it prints.
 * @param {number} number of the trace, from 1 */
async function choose(number) {
  const quiz = /** @type {Quiz} */ (data.quiz), trace = quiz.traces[number - 1], letter = "abcd"[number - 1];
  const {script} = view.base, schedule = scheduleOf(trace);
  $("chosen").textContent = "asks the program ..";
  const told = await answerTo(script, schedule);
  if (told.text) {
    $("chosen").textContent = told.text;
    return;
  }
  const due = eventsOf(told.trace), differs = eventsOf(trace).findIndex((event, i) => event !== due[i]) + 1;
  view.against = {name: `trace ${letter}`, trace};
  openRun({...data, name: quiz.name, script, schedule, trace: told.trace, isChanged: true}, true);
  $("quiz").querySelector("details").open = false;
  $("chosen").textContent = differs ? `No: trace ${letter} cannot happen. By the same turns event ${differs} is another one: both stand side by side here.`
    : `Yes: trace ${letter} can happen. The program prints it, and this is its run. ${quiz.why.replace(/\s+/g, " ")}`;
  go(differs);
}

function serve() {
  $("lessons").hidden = $("edit").hidden = !data.isServed;
  drawQuiz();
  $("about").hidden = !data.about;
  $("lesson").innerHTML = data.set[0];
  $("answer").hidden = !data.answer;
  $("solution").innerHTML = data.set[1];
  drawList();
  $("edit").onclick = openEditor;
  $("close").onclick = openEditor;
  $("run").onclick = runTexts;
  $("search").onclick = searchTexts;
  $("revert").onclick = revert;
  for (const which of ["script", "schedule"]) {
    $("new" + which).oninput = () => {
      view.isEdited = true;
      drawNumbers(which, 0);
    };
    $("new" + which).onscroll = () => { $(which + "numbers").scrollTop = $("new" + which).scrollTop; };
  }
  $("editor").onkeydown = (/** @type {KeyboardEvent} */ press) => {
    if (press.key === "Enter" && press.ctrlKey) runTexts();
    else if (press.key === "Enter" && press.target instanceof HTMLInputElement) searchTexts();
  };
}

// Keys, buttons and clicks

const KEYS = /** @type {Record<string, () => void>} */ ({
  ArrowRight: () => step(1), ArrowLeft: () => step(-1), j: () => step(1), k: () => step(-1), " ": () => step(1),
  Home: () => go(0), End: () => go(view.run.length), n: () => stepCall(1), p: () => stepCall(-1), Escape: () => pick(0),
  h: () => hide(!view.isHidden), i: () => $("idle").click(), c: () => { $("call").focus(); $("call").select(); }, u: undo,
  "?": () => $("help").showModal(), e: () => data.isServed && openEditor(),
});
for (let digit = 1; digit <= 9; digit++) KEYS[digit] = () => guess(digit);

/** @param {KeyboardEvent} press */
function onKey(press) {
  const target = press.target instanceof Element ? press.target : document.body;
  const isArrow = press.key === "ArrowLeft" || press.key === "ArrowRight", isEnter = press.key === "Enter" && !press.ctrlKey;
  if ((isEnter || press.key === " ") && target.matches("[data-call]")) {
    press.preventDefault();
    return pick(Number(target.getAttribute("data-call")));
  }
  if (isEnter && !target.closest("a, button, input, select, textarea, summary, dialog")) return pickHere();
  const isTyping = target.matches("textarea, select, dialog, dialog *, input:not([type=checkbox]):not([type=range])") && !(isArrow && target.matches("input[type=number]"));
  const isOwn = press.key === " " && target.matches("button, input, summary");
  if (isTyping || isOwn || press.ctrlKey || press.metaKey || press.altKey || !KEYS[press.key]) return;
  press.preventDefault();
  KEYS[press.key]();
}

/** @param {MouseEvent} click */
function onClick(click) {
  const target = click.target instanceof Element ? click.target : document.body;
  const told = (/** @type {string} */ name) => (target.closest(`button[data-${name}]`) || {getAttribute: () => ""}).getAttribute(`data-${name}`) || "";
  if (told("guess")) return guess(Number(told("guess")));
  if (told("drive")) return void drive(told("drive"));
  if (told("undo")) return undo();
  if (told("choose")) return void choose(Number(told("choose")));
  if (told("save")) return save(told("save"));
  if (told("pane")) return showPane(told("pane"));
  const call = target.closest("[data-call]"), event = target.closest("[data-at]"), number = call ? Number(call.getAttribute("data-call")) : 0;
  if (call) pick(number === view.picked && !target.closest("#chart") ? 0 : number);
  else if (event) go(Number(event.getAttribute("data-at")));
}

/** Shows one of the panes that a narrow window has room for.
 * @param {string} pane */
function showPane(pane) {
  document.body.dataset.pane = pane;
  layOut();
  go(view.at);
}

/** The first click before the last event says how far the run is; a second one opens the answer.
 * @param {MouseEvent} click */
function onAnswer(click) {
  const left = view.run.length - view.at, summary = /** @type {HTMLElement} */ (click.currentTarget);
  if ($("answer").open || !view.isHidden || !left || summary.dataset.asked) {
    summary.textContent = "the answer";
    return;
  }
  click.preventDefault();
  summary.dataset.asked = "1";
  summary.textContent = `the answer: ${left} events are still to come; a second click opens it`;
}

/** Lays out the chart for paper, or for the window again.
 * @param {boolean} isPrinting */
function print(isPrinting) {
  view.isPrinting = isPrinting;
  layOut();
  view.drawn.key = "";
  drawChart();
}

function start() {
  const sifted = (/** @type {() => void} */ change) => () => {
    change();
    sift();
    layOut();
    go(view.at);
  };
  $("first").onclick = KEYS.Home;
  $("last").onclick = KEYS.End;
  $("on").onclick = KEYS.ArrowRight;
  $("back").onclick = KEYS.ArrowLeft;
  $("callon").onclick = KEYS.n;
  $("callback").onclick = KEYS.p;
  $("slider").oninput = () => go(Number($("slider").value));
  $("number").onchange = () => go(Number($("number").value));
  $("call").onchange = () => pick(Number($("call").value));
  $("task").onchange = sifted(() => { view.task = Number($("task").value); });
  $("only").onchange = sifted(() => { view.isOnly = $("only").checked; });
  $("idle").onchange = sifted(() => { view.isQuiet = $("idle").checked; });
  $("hide").onchange = () => hide($("hide").checked);
  $("keys").onclick = KEYS["?"];
  $("answer").firstElementChild.addEventListener("click", onAnswer);
  $("chart").onscroll = onScroll;
  addEventListener("beforeprint", () => print(true));
  addEventListener("afterprint", () => print(false));
  addEventListener("dragover", drag => drag.preventDefault());
  addEventListener("drop", drop => {
    drop.preventDefault();
    if (drop.dataTransfer) take(drop.dataTransfer.files);
  });
  addEventListener("beforeunload", leaving => {
    if (view.isEdited) leaving.preventDefault();
  });
  addEventListener("keydown", onKey);
  addEventListener("click", onClick);
  addEventListener("hashchange", openAddress);
  addEventListener("resize", () => { layOut(); drawChart(); });
  serve();
  openRun(data, false);
  openAddress();
}

start();
