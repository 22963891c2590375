// The chart of a run: what each event is drawn as, and the part of it that is in view, as SVG. A column is a task, and
// time goes down. Each effect, each line of a fibril and each refusal is a row. The words are those of tools/chart, with
// which tools/page-check compares them.
import {CODES, METHODS, RIGHTS, endOf, isShown, isTold, numberOf} from "./fold.mjs";

/** @typedef {import("./fold.mjs").Run} Run */
/** @typedef {import("./fold.mjs").Event} Event */
/** @typedef {{kind: string, from: number, to: number, text: string, call: number}} Row from task 0 where it goes over all columns */

export const ROW = 22; // pixels
export const LEFT = 58; // pixels before the first column, for the numbers of events
const WIDE = 7.9, MIDDLE = 6.5, NARROW = 4; // pixels of capitals and digits, of small letters, and of points and spaces, about
// What a narrow column leaves out, in this order: the phone of a call, and words that are plain.
const SHORTER = /** @type {[RegExp, string][]} */ ([[/^(call \d+) over t\d+\.\d+/, "$1"], [/\b(gets|receives|drops) (?:answer|call) /, "$1 "]]);
const MOST_BYTES = 8; // that are shown of a poke or a peek
const BLACK = "var(--ink)", RED = "var(--kill)", GREY = "var(--quiet)", LATER = "var(--later)";

/** @param {string | number} text */
export function escaped(text) {
  return String(text).replace(/[&<>"]/g, letter => ({"&": "&amp;", "<": "&lt;", ">": "&gt;", "\"": "&quot;"}[letter] || ""));
}

/** A method by its name, with its number beside.
 * @param {string} number */
export function methodText(number) {
  return METHODS[Number(number)] ? `${METHODS[Number(number)]} (${number})` : number;
}

/** A code by its name, with its number beside.
 * @param {string} code */
export function codeText(code) {
  return CODES.includes(code) ? `${code} (${CODES.indexOf(code)})` : code;
}

/** Arguments without the zeros at their end.
 * @param {string[]} args */
export function trimmed(args) {
  const words = args.slice();
  while (words.length && words[words.length - 1] === "0") words.pop();
  return words.map(word => " " + word).join("");
}

/** A method by its name, or by its number where it has none.
 * @param {string} number */
function methodName(number) {
  return METHODS[Number(number)] || number;
}

/** @param {string} count @param {string} what */
function counted(count, what) {
  return `${count} ${what}${count === "1" ? "" : "s"}`;
}

/** Bytes in hexadecimal digits, of which the first are shown where there are many.
 * @param {string} digits */
function shortened(digits) {
  const shown = 2 * MOST_BYTES;
  return digits.length <= shown ? digits : `${digits.slice(0, shown)}.., ${counted(String(digits.length / 2), "byte")}`;
}

/** @param {number} task @param {string} text @param {number} [call] @returns {Row} */
function boxAt(task, text, call = 0) {
  return {kind: "box", from: task, to: task, text, call};
}

/** The row of each effect, by its first word, or by its third where it is one of a call. */
const DRAWN = {
  /** @param {string[]} words @param {Event} event @returns {Row} */
  accepted(words, event) {
    const [from] = endOf(words[3]), isTo = words[6] === "to", args = event.kind === "call" ? trimmed(event.head.slice(4)) : "";
    const text = `call ${words[1]} over ${words[3]}: ${methodName(words[5])}${args}${isTo ? "" : ", back"}`;
    return {kind: event.kind === "kill" ? "kernel" : "call", from, to: isTo ? numberOf(words[7]) : from, text, call: Number(words[1])};
  },
  /** @param {string[]} words @param {Event} event @returns {Row} */
  received(words, event) {
    const label = event.outcome && event.outcome[0] === "received" ? ` from ${event.outcome[9]}` : "";
    return boxAt(numberOf(words[3]), `receives call ${words[1]}${label}`, Number(words[1]));
  },
  /** @param {string[]} words @param {Event} event @returns {Row} */
  delivered(words, event) {
    const told = event.outcome || [], what = told[0] === "answer" ? `: ${told[2]}${trimmed(told.slice(3))}` : "";
    return boxAt(numberOf(words[3]), `gets answer ${words[1]}${what}`, Number(words[1]));
  },
  /** @param {string[]} words @param {Event} event @returns {Row} */
  forwarded(words, event) {
    const change = event.head[5] ? `: ${methodName(event.head[5])}${trimmed(event.head.slice(6))}` : "";
    const text = `call ${words[1]}${event.head[4] ? `, ${event.head[4]}` : ""}${change}`;
    return {kind: "forward", from: numberOf(words[3]), to: numberOf(words[5]), text, call: Number(words[1])};
  },
  /** @param {string[]} words @param {Event} event @param {Run} run @returns {Row} */
  answered(words, event, run) {
    const call = Number(words[1]), isOwn = words[10] !== "kernel", from = isOwn ? numberOf(words[10]) : event.task;
    const text = `answer ${call}: ${words[3]}${trimmed(words.slice(4, 9))}`;
    return {kind: isOwn ? "answer" : "kernel", from, to: run.calls[call].caller, text, call};
  },
  /** @param {string[]} words @returns {Row} */
  dropped(words) {
    return boxAt(numberOf(words[3]), `drops answer ${words[1]}`, Number(words[1]));
  },
  /** @param {string[]} words @param {Event} event @returns {Row} */
  vanished(words, event) {
    return boxAt(event.task, `call ${words[1]} vanishes`, Number(words[1]));
  },
  /** At the task where the call stays.
   * @param {string[]} words @param {Event} event @param {Run} run @returns {Row} */
  forgotten(words, event, run) {
    return boxAt(run.calls[Number(words[1])].stays || event.task, `call ${words[1]} forgotten`, Number(words[1]));
  },
  /** @param {string[]} words @param {Event} event @returns {Row} */
  phone(words, event) {
    const [task] = endOf(words[1]);
    if (words[3]) return {kind: "kernel", from: task, to: numberOf(words[3]), text: `${words[1]} connected`, call: 0};
    if (words[2] === "slammed") return {kind: "kernel", from: event.task, to: task, text: `${words[1]} slammed`, call: 0};
    return boxAt(task, `${words[1]} ${words[2] === "hungup" ? "hung up" : words[2]}`);
  },
  /** @param {string[]} words @returns {Row} */
  area(words) {
    return boxAt(numberOf(words[1]), `area at ${words[2]}: ${counted(words[3], "page")}, ${RIGHTS[Number(words[4])] || words[4]}, store ${words[6]}`);
  },
  /** @param {string[]} words @returns {Row} */
  unarea(words) {
    return boxAt(numberOf(words[1]), `no area at ${words[2]}`);
  },
  /** @param {string[]} words @param {Event} event @returns {Row} */
  write(words, event) {
    const what = event.kind === "poke" ? `: ${shortened(event.head[3])}` : `, ${counted(words[3], "byte")}`;
    return boxAt(numberOf(words[1]), `written at ${words[2]}${what}`);
  },
};

/** The text of what a fibril does.
 * @param {string[]} words */
function ownText(words) {
  const [fibril, what, first, ...rest] = words;
  const texts = /** @type {Record<string, string>} */ ({
    sent: `sends call ${first}, ${rest.join(" ")}`,
    gets: `gets answer ${first}, ${rest[0] === "begin" ? "begin" : `slot ${rest[1]}`}`,
    blocks: `waits: ${[first, ...rest].join(" ")}`,
    starts: `starts, for ${first}`,
    ends: rest.length ? `ends exchange ${rest[0]}` : "ends",
    begins: `begins exchange ${rest[0]}: ${rest[1]}, session ${rest[3]}, phone ${rest[5]}`,
    drops: `drops exchange ${rest[0]}`,
    refused: `is refused: ${first || ""}`,
  });
  return `${fibril} ${texts[what] || what}`;
}

/** What a task asks for, where it is refused.
 * @param {Event} event */
function asked(event) {
  const [me, what, first] = event.head, over = `${me}.${first}`;
  const texts = /** @type {Record<string, string>} */ ({
    call: `call over ${over}`, hangup: `hangup of ${over}`, area: `area at ${first}`, unarea: `unarea ${first}`, poke: `poke at ${first}`,
    peek: `peek at ${first}`, answer: `answer ${first}`, forward: `forward ${first}`,
  });
  return texts[what] || what;
}

/** The operation of a raw task that an event was, as the script has it.
 * @param {Run} run @param {number} event */
export function operationText(run, event) {
  return run.script.lines[run.did[event] - 1].replace(/#.*/, "").trim();
}

/** The rows of an event: as many as `Run.rows` counts.
 * @param {Run} run @param {Event} event @returns {Row[]} */
export function rowsOf(run, event) {
  /** @type {Row[]} */
  const rows = [], me = event.task;
  const box = (/** @type {string} */ text, kind = "box", call = 0) => rows.push({kind, from: me, to: me, text, call});
  if (event.kind === "kill" || event.kind === "spawn") {
    rows.push({kind: event.kind, from: 0, to: 0, text: `${event.kind} t${me} ${nameOf(run, me)}`, call: 0});
  }
  if (event.kind === "ended") box(`t${me} ended`, "small");
  for (const words of event.effects) {
    if (isTold(event, words)) continue;
    rows.push(/** @type {Record<string, any>} */ (DRAWN)[words[0] === "call" ? words[2] : words[0]](words, event, run));
  }
  const told = event.outcome;
  if (told && isShown(told)) {
    if (told[0] === "EMPTY") box("EMPTY", "small");
    else if (told[0] === "bytes") box(`reads at ${event.head[2]}: ${shortened(told[1])}`);
    else box(`${asked(event)}: ${told[0]}`);
  }
  for (const words of event.own) box(ownText(words), "box", ["sent", "gets"].includes(words[1]) ? Number(words[2]) : 0);
  if (!rows.length) box(run.did[event.number] ? operationText(run, event.number) : event.head.slice(1).join(" "), "small");
  return rows;
}

/** @param {Run} run @param {number} task */
export function nameOf(run, task) {
  return run.names[task] || "";
}

/** The pixels that a text takes, about.
 * @param {string} text */
function widthOf(text) {
  let width = 0;
  for (const letter of text) width += /[A-Z0-9_mw]/.test(letter) ? WIDE : /[ .,:()il]/.test(letter) ? NARROW : MIDDLE;
  return width;
}

/** A text that fits into so many pixels: where it must, without what is known anyway, and else it is cut off.
 * @param {string} text @param {number} room @returns {string} */
function fitted(text, room) {
  if (widthOf(text) <= room) return text;
  const shorter = SHORTER.map(([long, short]) => text.replace(long, short)).find(it => it !== text);
  if (shorter) return fitted(shorter, room);
  let end = Math.min(text.length, Math.floor(room / NARROW));
  while (end > 3 && widthOf(text.slice(0, end)) + WIDE > room) end -= 1;
  return text.slice(0, end) + "\u2026";
}

/** @param {number} x @param {number} y @param {string} text @param {string} more attributes @param {string} whole */
function textAt(x, y, text, more, whole) {
  const title = text === whole ? "" : `<title>${escaped(whole)}</title>`;
  return `<text x="${x}" y="${y}" ${more}>${escaped(text)}${title}</text>`;
}

/** A box of a task.
 * @param {Row} row @param {number} x @param {number} y @param {number} column its width @param {string} colour */
function drawBox(row, x, y, column, colour) {
  if (row.kind === "small") return textAt(x + 8, y + 15, fitted(row.text, column - 20), `fill="${colour === LATER ? LATER : GREY}"`, row.text);
  const text = fitted(row.text, column - 20), width = column - 10;
  return `<rect x="${x - width / 2}" y="${y + 2}" width="${width}" height="${ROW - 4}" rx="3" fill="var(--paper)" stroke="${colour}"/>`
    + textAt(x, y + 15, text, `text-anchor="middle" fill="${colour}"`, row.text);
}

/** An arrow from column to column; one that comes back to its own task is a loop beside its line.
 * The text of an arrow stands in the middle of what is in view of it.
 * @param {Row} row @param {number} from @param {number} to @param {number} y @param {Way} way @param {string} colour */
function drawArrow(row, from, to, y, way, colour) {
  const line = y + 18, dashes = {kernel: "stroke-dasharray=\"4 3\"", forward: "stroke-width=\"3\""}[row.kind] || "";
  const isOpen = row.kind === "answer", side = from === to ? -1 : Math.sign(to - from), call = callOf(row, way);
  const tip = `M${to - 9 * side} ${line - 4}L${to} ${line}L${to - 9 * side} ${line + 4}${isOpen ? "" : "Z"}`;
  const head = `<path d="${tip}" fill="${isOpen ? "none" : colour}" stroke="${colour}"/>`;
  if (from === to) {
    const loop = `<path d="M${from} ${y + 8}h14v${line - y - 8}h-8" fill="none" stroke="${colour}" ${dashes}/>`;
    const text = fitted(row.text, Math.min(way.column - 26, way.width - from - 24));
    return `<g${call}>${loop}${head}${textAt(from + 20, y + 16, text, `fill="${colour}"`, row.text)}</g>`;
  }
  const text = fitted(row.text, Math.abs(to - from) - 16), width = widthOf(text) + 6;
  const left = Math.min(from, to), right = Math.max(from, to), isSeen = left < way.to && right > way.from;
  const middle = isSeen ? (Math.max(left, way.from) + Math.min(right, way.to)) / 2 : (left + right) / 2;
  return `<g${call}><line x1="${from}" x2="${to - 6 * side}" y1="${line}" y2="${line}" stroke="${colour}" ${dashes}/>${head}`
    + `<rect x="${middle - width / 2}" y="${y + 3}" width="${width}" height="12" fill="var(--paper)" fill-opacity=".8"/>`
    + textAt(middle, y + 13, text, `text-anchor="middle" fill="${colour}"`, row.text) + "</g>";
}

/** How a row is drawn: the widths of a column and of all, the picked call or 0, which part of the width is in view,
 * whether the event is still to come, and whether it is the present one.
 * @typedef {{column: number, width: number, picked: number, from: number, to: number, isLater: boolean, isNow: boolean}} Way */

/** What marks a row of a call; in the present event it can have the focus too, and is picked by Enter.
 * @param {Row} row @param {Way} way */
function callOf(row, way) {
  const keys = way.isNow ? ` tabindex="0" role="button" aria-label="${escaped(`pick call ${row.call}: ${row.text}`)}"` : "";
  return row.call ? ` data-call="${row.call}"${keys}` : "";
}

/** @param {Row} row @param {(task: number) => number} x @param {number} y @param {Way} way */
export function drawRow(row, x, y, way) {
  const {column, width} = way, plain = row.kind === "kill" ? RED : BLACK;
  const isOther = way.picked !== 0 && row.call !== way.picked, colour = way.isLater ? LATER : isOther ? GREY : plain;
  if (row.kind === "kill" || row.kind === "spawn") {
    return `<line x1="${LEFT}" x2="${width}" y1="${y + 18}" y2="${y + 18}" stroke="${colour}" stroke-dasharray="6 4"/>`
      + textAt(way.from + 4, y + 14, row.text, `fill="${colour}" font-weight="600"`, row.text);
  }
  const isBox = row.kind === "box" || row.kind === "small", call = callOf(row, way);
  return isBox ? `<g${call}>${drawBox(row, x(row.from), y, column, colour)}</g>` : drawArrow(row, x(row.from), x(row.to), y, way, colour);
}
