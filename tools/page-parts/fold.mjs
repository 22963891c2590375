// The state of a run at each of its events, folded from the lines of the trace. The script gives what stands before the
// first event and what a raw task does next, the schedule which line an event is of; all else is what the trace says.
// A value of 64 bits is kept as its decimal digits, which are equal exactly where the values are.

// made by tools/words: methods
export const METHODS = ["PHONE_HUNGUP", "CONNECT_TO_ME", "CONNECT_ME_TO", "DATA_WRITE", "DATA_READ", "SHARE_OUT", "SHARE_IN"];
// made by tools/words: codes
export const CODES = ["EOK", "ENOENT", "EPERM", "EEXIST", "EINVAL", "ELIMIT", "EHANGUP", "EFORWARD", "EBUSY", "ENOMEM"];
// made by tools/words: rights
export const RIGHTS = ["", ...["R", "W", "RW"]];
// made by tools/words: flags
const FLAGS = ["", ...["RESTRICT"]];
const EACH = 1024; // events between two states that are kept
const NEAR = 32; // events between two states that are kept near the place that was asked for last
const REGISTERS = 32;
const PHONES = 64; // of a task whose line says nothing else
const JUMPS = ["jump", "jumpeq", "jumpne"];
const WORDS = new Map(/** @type {[string, string][]} */ ([]).concat(
  ...[METHODS, CODES, RIGHTS, FLAGS].map(list => list.map((name, number) => /** @type {[string, string]} */ ([name, String(number)])))));
WORDS.delete("");

/**
 * @typedef {{words: string[], line: number}} Operation one line of the script; lines are counted from 1
 * @typedef {{name: string, kind: string, phones: number, operations: Operation[], fibrils: number, line: number}} Plan a task of the script,
 *   or a template
 * @typedef {{lines: string[], tasks: Plan[], templates: Map<string, Plan>, wires: [number, number, number][]}} Script
 * @typedef {{line: number, words: string[], of: number}} Turn a line of the schedule, with the number of its events
 * @typedef {{number: number, kind: string, task: number, head: string[], lines: string[], effects: string[][],
 *   outcome: string[] | null, own: string[][]}} Event the parts of an event, each line as its words
 * @typedef {{state: string, to: number}} Phone
 * @typedef {{base: string, pages: string, rights: string, store: string}} Area
 * @typedef {{is: string, why: string, label: string, over: string}} Fibril ready, waiting or ended; what it waits for;
 *   the label of its connection; the phone over which its begin asked for another
 * @typedef {{mode: string, phone: string}} Session
 * @typedef {{mode: string, session: string, phone: string, fibril: number}} Exchange of fibril 0 where it is idle
 * @typedef {{number: number, name: string, plan: Plan, ended: boolean, incoming: number[], held: number[], answers: number[],
 *   phones: Map<number, Phone>, active: Map<number, number>, areas: Map<string, Area>, fibrils: Map<number, Fibril>,
 *   connections: Map<string, number>, sessions: Map<string, Session>, exchanges: Map<string, Exchange>,
 *   registers: string[], place: number}} Task
 * @typedef {{at: number, tasks: Task[]}} State the state behind event `at`; task N stands at place N, and none at 0
 * @typedef {{event: number, method: string, args: string, label: string}} Message what the next receiver sees of a call
 * @typedef {{number: number, over: string, caller: number, messages: Message[], events: number[], forgotten: number, stays: number,
 *   answer: {event: number, code: string, args: string, by: string} | null}} Call
 *   behind the event `forgotten` it stays with the task `stays`, both 0 where that is not so
 * @typedef {(effect: string[], state: State, event: Event) => void} Watch is told of each effect before it is folded in
 */

/** The words of a line without its comment.
 * @param {string} line */
function wordsOf(line) {
  return line.replace(/#.*/, "").split(/[ \t]+/).filter(Boolean);
}

/** The number of a task or of a fibril in its word, as 12 of t12.
 * @param {string} word */
export function numberOf(word) {
  return Number(word.slice(1));
}

/** Task and phone of a word such as t1.0.
 * @param {string} word @returns {[number, number]} */
export function endOf(word) {
  const point = word.indexOf(".");
  return [Number(word.slice(1, point)), Number(word.slice(point + 1))];
}

/** Whether a word is such a letter with a digit behind it: a task, a phone, a fibril or a register.
 * @param {string} word @param {string} letter */
function isNumbered(word, letter) {
  const digit = word.charCodeAt(1);
  return word[0] === letter && digit >= 48 && digit <= 57;
}

/** A word of the script as the digits of its value; a register stays as it is.
 * @param {string} word */
function valueOf(word) {
  const known = WORDS.get(word);
  if (known !== undefined) return known;
  return /^(?:\d+|0[xX][0-9a-fA-F]+)$/.test(word) ? String(BigInt(word)) : word;
}

/** @param {string} code a code as the trace prints it */
export function codeNumber(code) {
  return CODES.includes(code) ? String(CODES.indexOf(code)) : code;
}

/** @param {string} number */
function codeText(number) {
  return CODES[Number(number)] || number;
}

/** @param {string} text @returns {Script} */
export function readScript(text) {
  /** @type {Script} */
  const script = {lines: text.split("\n"), tasks: [], templates: new Map(), wires: []};
  const number = (/** @type {string} */ name) => script.tasks.findIndex(task => task.name === name) + 1;
  /** @type {Plan | null} */
  let last = null;
  let inBody = false;
  script.lines.forEach((text, index) => {
    const words = wordsOf(text), first = words[0], line = index + 1;
    if (first === "ns" && words.length === 1) {
      script.tasks.push(last = {name: "ns", kind: "ns", phones: PHONES, operations: [], fibrils: 0, line});
    } else if (first === "task" || first === "template") {
      const kind = words[2] || "", phones = kind === "block" || !words[3] ? PHONES : Number(valueOf(words[3]));
      last = {name: words[1] || "", kind, phones, operations: [], fibrils: 0, line};
      inBody = last.kind === "raw";
      if (first === "task") script.tasks.push(last);
      else script.templates.set(last.name, last);
    } else if (first === "wire") {
      script.wires.push([number(words[1]), Number(words[2]), number(words[3])]);
    } else if (last && (first === "fibril" || first === "connection")) {
      if (first === "fibril") last.fibrils += 1;
    } else if (last && first && inBody) {
      last.operations.push({words: operationOf(words), line});
    }
  });
  return script;
}

/** The words of an operation, each value as its digits.
 * @param {string[]} words */
function operationOf(words) {
  return words.map((word, place) => {
    if (place === 0) return word;
    return words[0] === "poke" && place === 2 ? word.toLowerCase() : valueOf(word);
  });
}

/** The line of the schedule that each event is of.
 * @param {string} text @returns {Turn[]} */
export function readSchedule(text) {
  /** @type {Turn[]} */
  const turns = [];
  text.split("\n").forEach((text, index) => {
    const words = wordsOf(text);
    if (!words.length) return;
    const of = words[2] === "x" && words[0] === "step" ? Number(valueOf(words[3] || "0")) : 1;
    const turn = {line: index + 1, words, of};
    for (let i = 0; i < of && turns.length < 65536; i++) turns.push(turn);
  });
  return turns;
}

/** Where each event of a trace begins among its lines, and after the last one the end.
 * @param {string[]} lines */
function startsOf(lines) {
  const starts = [];
  lines.forEach((line, index) => {
    if (line && !line.startsWith("  ")) starts.push(index);
  });
  starts.push(lines.length && !lines[lines.length - 1] ? lines.length - 1 : lines.length);
  return starts;
}

/** @param {number} number @param {string[]} lines @returns {Event} */
function eventOf(number, lines) {
  const head = (lines[0] || "").split(" "), before = head[0] === "kill" || head[0] === "spawn";
  /** @type {Event} */
  const event = {number, kind: before ? head[0] : head[1], task: numberOf(before ? head[1] : head[0]), head, lines,
    effects: [], outcome: null, own: []};
  for (let i = 1; i < lines.length; i++) {
    const words = lines[i].slice(2).split(" ");
    if (words[0] === "=") event.outcome = words.slice(1);
    else if (event.outcome) event.own.push(words);
    else event.effects.push(words);
  }
  return event;
}

/** @param {number} number @param {string} name @param {Plan} plan @returns {Task} */
function newTask(number, name, plan) {
  /** @type {Task} */
  const task = {number, name, plan, ended: false, incoming: [], held: [], answers: [], phones: new Map(), active: new Map(),
    areas: new Map(), fibrils: new Map(), connections: new Map(), sessions: new Map(), exchanges: new Map(),
    registers: plan.kind === "raw" ? Array(REGISTERS).fill("0") : [], place: 0};
  for (let fibril = 1; fibril <= plan.fibrils; fibril++) task.fibrils.set(fibril, {is: "ready", why: "", label: "", over: ""});
  return task;
}

/** A task that may change while the first one stays; what stands in its maps is never changed in place.
 * @param {Task} task @returns {Task} */
function copyOf(task) {
  return {...task, incoming: task.incoming.slice(), held: task.held.slice(), answers: task.answers.slice(),
    phones: new Map(task.phones), active: new Map(task.active), areas: new Map(task.areas),
    fibrils: new Map(task.fibrils), connections: new Map(task.connections), sessions: new Map(task.sessions),
    exchanges: new Map(task.exchanges), registers: task.registers.slice()};
}

/** @param {State} state @returns {State} */
export function copyOfState(state) {
  return {at: state.at, tasks: state.tasks.map(task => task && copyOf(task))};
}

/** Takes a call out of a queue; says whether it was there.
 * @param {number[]} queue @param {number} call */
function leave(queue, call) {
  const place = queue.indexOf(call);
  if (place >= 0) queue.splice(place, 1);
  return place >= 0;
}

/** What a task is told goes into its registers; then the next operation follows.
 * @param {Task} task @param {string[]} told */
function takeOutcome(task, told) {
  const put = (/** @type {number} */ from, /** @type {string[]} */ values) => {
    values.forEach((value, i) => { task.registers[from + i] = value; });
  };
  task.place += 1;
  put(0, ["0"]);
  if (told[0] === "call") put(1, [told[1]]);
  else if (told[0] === "received") {
    put(2, told.slice(1, 8));
    put(16, endOf(told[9]).map(String));
  } else if (told[0] === "answer") put(9, [told[1], codeNumber(told[2]), ...told.slice(3, 8)]);
  else if (told[0] !== "bytes") put(0, [codeNumber(told[0])]);
}

/** The value of a word of an operation in a task's registers.
 * @param {Task} task @param {string} word */
function at(task, word) {
  return isNumbered(word, "r") ? task.registers[numberOf(word)] : word;
}

/** A step of a raw task.
 * @param {Task} task @param {Event} event */
function stepRaw(task, event) {
  const operation = task.plan.operations[task.place];
  if (!operation) return;
  const [what, ...words] = operation.words, told = event.outcome || ["EOK"];
  if (what === "set") {
    task.registers[numberOf(words[0])] = at(task, words[1]);
    task.place += 1;
  } else if (JUMPS.includes(what)) {
    const isEqual = what === "jump" || at(task, words[0]) === at(task, words[1]);
    task.place = isEqual === (what !== "jumpne") ? Number(words[words.length - 1]) : task.place + 1;
  } else if (told[0] !== "EMPTY") takeOutcome(task, told);
}

/** The line of the script where a raw task stands, or 0 past its last one.
 * @param {Task} task */
export function lineOf(task) {
  const operation = task.plan.kind === "raw" && !task.ended ? task.plan.operations[task.place] : undefined;
  return operation ? operation.line : 0;
}

/** The head that the next step of a raw task gives.
 * @param {Task} task */
export function nextHead(task) {
  const me = "t" + task.number, operation = task.plan.operations[task.place];
  if (!operation || operation.words[0] === "set" || JUMPS.includes(operation.words[0])) return `${me} nothing`;
  const [what, ...words] = operation.words, values = words.map(word => at(task, word));
  if (what === "poke") return `${me} poke ${values[0]} ${words[1]}`;
  const fixed = {call: 2, answer: 2, forward: 4}[what] || values.length;
  if (what === "answer") values[1] = codeText(values[1]);
  const hasArguments = what === "call" || what === "answer" || what === "forward" && values.length > 3;
  while (hasArguments && values.length < fixed + 5) values.push("0");
  return [me, what, ...values].join(" ");
}

/** Each effect, by its first word, or by its third where it is one of a call. */
const EFFECTS = {
  /** @param {Run} run @param {State} state @param {string[]} words @param {Event} event */
  accepted(run, state, words, event) {
    const number = Number(words[1]), [caller, phone] = endOf(words[3]), active = state.tasks[caller].active;
    active.set(phone, (active.get(phone) || 0) + 1);
    if (words[6] === "to") state.tasks[numberOf(words[7])].incoming.push(number);
    if (run.calls[number]) return;
    const args = event.kind === "call" ? event.head.slice(4).join(" ") : "0 0 0 0 0";
    run.calls[number] = {number, over: words[3], caller, events: [], forgotten: 0, stays: 0, answer: null,
      messages: [{event: event.number, method: words[5], args, label: words[3]}]};
  },
  /** @param {Run} run @param {State} state @param {string[]} words @param {Event} event */
  received(run, state, words, event) {
    const task = state.tasks[numberOf(words[3])], call = run.calls[Number(words[1])], told = event.outcome || [];
    leave(task.incoming, call.number);
    task.held.push(call.number);
    const message = call.messages[call.messages.length - 1], args = told.slice(3, 8).join(" ");
    const isOther = message.event < event.number && message.args !== args;
    if (told[0] === "received" && isOther) call.messages.push({...message, event: event.number, args});
  },
  /** @param {Run} run @param {State} state @param {string[]} words @param {Event} event */
  forwarded(run, state, words, event) {
    const call = run.calls[Number(words[1])], message = call.messages[call.messages.length - 1];
    leave(state.tasks[numberOf(words[3])].held, call.number);
    state.tasks[numberOf(words[5])].incoming.push(call.number);
    if (message.event < event.number) call.messages.push({event: event.number, label: words[7], ...changeOf(event, message)});
  },
  /** @param {Run} run @param {State} state @param {string[]} words @param {Event} event */
  answered(run, state, words, event) {
    const call = run.calls[Number(words[1])], task = state.tasks[event.task];
    if (!leave(task.held, call.number)) leave(task.incoming, call.number);
    state.tasks[call.caller].answers.push(call.number);
    call.answer = {event: event.number, code: words[3], args: words.slice(4, 9).join(" "), by: words[10]};
  },
  /** @param {Run} run @param {State} state @param {string[]} words */
  delivered(run, state, words) {
    leave(state.tasks[numberOf(words[3])].answers, Number(words[1]));
    over(run, state, Number(words[1]));
  },
  /** @param {Run} run @param {State} state @param {string[]} words */
  dropped(run, state, words) {
    EFFECTS.delivered(run, state, words);
  },
  /** @param {Run} run @param {State} state @param {string[]} words @param {Event} event */
  vanished(run, state, words, event) {
    const number = Number(words[1]), task = state.tasks[event.task];
    if (!leave(task.held, number)) leave(task.incoming, number);
    over(run, state, number);
  },
  /** @param {Run} run @param {State} state @param {string[]} words @param {Event} event */
  forgotten(run, state, words, event) {
    const call = run.calls[Number(words[1])], holder = state.tasks.find(it => it && (it.incoming.includes(call.number) || it.held.includes(call.number)));
    call.forgotten = event.number;
    call.stays = holder ? holder.number : 0;
  },
  /** @param {Run} run @param {State} state @param {string[]} words */
  phone(run, state, words) {
    const [task, phone] = endOf(words[1]);
    if (words[2] === "free") state.tasks[task].phones.delete(phone);
    else state.tasks[task].phones.set(phone, {state: words[2], to: words[3] ? numberOf(words[3]) : 0});
  },
  /** @param {Run} run @param {State} state @param {string[]} words */
  area(run, state, words) {
    const [, task, base, pages, rights, , store] = words;
    state.tasks[numberOf(task)].areas.set(base, {base, pages, rights, store});
  },
  /** @param {Run} run @param {State} state @param {string[]} words */
  unarea(run, state, words) {
    state.tasks[numberOf(words[1])].areas.delete(words[2]);
  },
  /** Bytes are no part of this state. */
  write() {},
};

/** A call that is over is active on its phone no more.
 * @param {Run} run @param {State} state @param {number} number */
function over(run, state, number) {
  const [caller, phone] = endOf(run.calls[number].over), active = state.tasks[caller].active, count = active.get(phone) || 0;
  if (count > 1) active.set(phone, count - 1);
  else active.delete(phone);
}

/** Method and arguments behind a forward: connect, data and share calls keep their method.
 * @param {Event} event @param {Message} message */
function changeOf(event, message) {
  const [, , , , , method, ...args] = event.head, old = Number(message.method), isMemory = old > 2 && old < METHODS.length;
  if (event.kind !== "forward" || method === undefined || isMemory) return {method: message.method, args: message.args};
  if (old !== 1 && old !== 2) return {method, args: args.join(" ")};
  return {method: message.method, args: [...args.slice(0, 4), message.args.split(" ")[4]].join(" ")};
}

/** What a line of a task of fibrils does to them, by its second word. */
const OWN = {
  /** @param {Task} task @param {number} fibril @param {string[]} words @param {Run} run */
  sent(task, fibril, words, run) {
    if (words[3] === "begin") change(task, fibril, {over: String(endOf(run.calls[Number(words[2])].over)[1])});
  },
  /** @param {Task} task @param {number} fibril @param {string[]} words */
  gets(task, fibril, words) {
    wake(task, `answer ${words[2]}`, fibril);
  },
  /** @param {Task} task @param {number} fibril @param {string[]} words */
  blocks(task, fibril, words) {
    change(task, fibril, {is: "waits", why: words.slice(2).join(" ")});
  },
  /** @param {Task} task @param {number} fibril @param {string[]} words */
  starts(task, fibril, words) {
    wakeConnection(task, words[2]);
    task.fibrils.set(fibril, {is: "ready", why: "", label: words[2], over: ""});
    task.connections.set(words[2], fibril);
  },
  /** @param {Task} task @param {number} fibril @param {string[]} words */
  begins(task, fibril, words) {
    const [, , , exchange, mode, , session, , phone] = words, known = task.sessions.get(session), mine = task.fibrils.get(fibril);
    const over = mode !== "parallel" ? phone : mine && mine.over || known && known.phone || "";
    task.sessions.set(session, {mode, phone: over});
    task.exchanges.set(exchange, {mode, session, phone, fibril});
    change(task, fibril, {over: ""});
  },
  /** @param {Task} task @param {number} fibril @param {string[]} words */
  ends(task, fibril, words) {
    if (words[2] === "exchange") return endExchange(task, words[3]);
    for (const [label, owner] of task.connections) if (owner === fibril) task.connections.delete(label);
    change(task, fibril, {is: "ended", why: "", label: ""});
  },
  /** @param {Task} task @param {number} fibril @param {string[]} words */
  drops(task, fibril, words) {
    task.exchanges.delete(words[3]);
  },
  /** @param {Task} task @param {number} fibril */
  refused(task, fibril) {
    change(task, fibril, {over: ""});
  },
};

/** @param {Task} task @param {number} number @param {Partial<Fibril>} parts */
function change(task, number, parts) {
  task.fibrils.set(number, {...(task.fibrils.get(number) || {is: "ready", why: "", label: "", over: ""}), ...parts});
}

/** Makes the fibrils ready that wait for this, or the one that is named.
 * @param {Task} task @param {string} why @param {number} [only] */
function wake(task, why, only) {
  for (const [number, fibril] of task.fibrils) {
    const isMeant = fibril.is === "waits" && fibril.why === why && (only === undefined || only === number);
    if (isMeant) change(task, number, {is: "ready", why: ""});
  }
}

/** A call, a hangup or a newer connection with a label is told to the fibril that has the label.
 * @param {Task} task @param {string} label */
function wakeConnection(task, label) {
  const fibril = task.connections.get(label);
  if (fibril !== undefined) wake(task, "message", fibril);
}

/** A parallel exchange stays idle, and another is gone. Who waited for its end is ready.
 * @param {Task} task @param {string} number */
function endExchange(task, number) {
  const exchange = task.exchanges.get(number);
  if (!exchange) return;
  if (exchange.mode === "parallel") task.exchanges.set(number, {...exchange, fibril: 0});
  else task.exchanges.delete(number);
  if (exchange.mode === "parallel") wake(task, "phone");
  if (exchange.mode === "serialize") wake(task, `mutex ${exchange.session}`);
}

/** The session is gone whose phone a fibril hung up, where just one can be meant.
 * @param {Task} task @param {string} phone */
function closeSession(task, phone) {
  const isBusy = (/** @type {string} */ session) => [...task.exchanges.values()].some(it => it.session === session);
  const over = [...task.sessions].filter(([number, it]) => it.phone === phone && !isBusy(number));
  if (over.length === 1) task.sessions.delete(over[0][0]);
}

/** What an event does to the fibrils of its task.
 * @param {Task} task @param {Event} event @param {boolean} isStep @param {Run} run */
function stepFibrils(task, event, isStep, run) {
  const told = event.outcome || [];
  if (told[0] === "received" && !event.own.some(words => words[1] === "starts")) wakeConnection(task, told[9]);
  if (isStep && event.kind === "hangup" && !event.own.some(words => words[1] === "drops")) closeSession(task, event.head[2]);
  for (const words of event.own) {
    const act = /** @type {Record<string, any>} */ (OWN)[words[1]];
    if (act) act(task, Number(words[0].split("/")[1]), words, run);
  }
}

/** A task that was killed has no fibril, connection, session or exchange any more.
 * @param {Task} task */
function end(task) {
  task.ended = true;
  for (const map of [task.fibrils, task.connections, task.sessions, task.exchanges, task.active]) map.clear();
}

/** A run: its texts, its calls, and the state behind each event. */
export class Run {
  /** @param {string} script @param {string} schedule @param {string} trace */
  constructor(script, schedule, trace) {
    this.script = readScript(script);
    this.schedule = schedule.split("\n");
    this.turns = readSchedule(schedule);
    this.lines = trace.split("\n");
    this.starts = startsOf(this.lines);
    this.length = this.starts.length - 1;
    /** @type {Call[]} */
    this.calls = [];
    /** @type {string[]} */
    this.faults = [];
    this.rows = new Uint16Array(this.length + 1); // the rows of each event in the chart
    this.isIdle = new Uint8Array(this.length + 1); // whether an event changes nothing but a place in a program
    this.did = new Uint32Array(this.length + 1); // of an event `nothing` of a raw task, the line of its operation
    this.named = new Uint32Array(2 * this.length + 2); // the tasks that each event names, a bit for each of 64
    this.born = /** @type {number[]} */ ([]); // the event that spawned a task, and the one that killed it
    this.died = /** @type {number[]} */ ([]);
    this.names = ["", ...this.script.tasks.map(plan => plan.name)];
    /** @type {State[]} */
    this.kept = [this.first()];
    this.near = [this.kept[0]]; // states behind one that is kept, NEAR events apart
    this.foldAll();
  }

  /** The state before the first event.
   * @returns {State} */
  first() {
    const tasks = this.script.tasks.map((plan, i) => newTask(i + 1, plan.name, plan)), none = /** @type {any} */ (undefined);
    const wires = this.script.wires.filter(([from]) => from > 0);
    if (tasks.length && tasks[0].plan.kind === "ns") tasks.slice(1).forEach(task => wires.push([task.number, 0, 1]));
    for (const [from, phone, to] of wires) tasks[from - 1].phones.set(phone, {state: "connected", to});
    return {at: 0, tasks: [none, ...tasks]};
  }

  /** @param {number} number an event, from 1 */
  event(number) {
    return eventOf(number, this.lines.slice(this.starts[number - 1], this.starts[number]));
  }

  /** Folds the whole trace once; ends at the first line that cannot be of this script and schedule, and says which. */
  foldAll() {
    const state = copyOfState(this.kept[0]);
    if (this.starts[0] !== 0 && this.length) this.faults.push("the trace does not begin with an event");
    for (let number = 1; number <= this.length; number++) {
      const event = this.event(number), wrong = this.mismatch(state, event), did = wrong ? undefined : operationNow(state, event);
      if (wrong) this.faults.push(`event ${number} of the trace is not of this script and schedule: ${wrong}`);
      if (this.faults.length) return this.cut(number - 1);
      try {
        this.apply(state, event);
      } catch (error) {
        this.faults.push(`event ${number} of the trace cannot be read: ${error instanceof Error ? error.message : error}`);
        return this.cut(number - 1);
      }
      this.note(event, did);
      if (number % EACH === 0) this.kept.push(copyOfState(state));
    }
    const {length} = this.turns;
    if (this.length < length) this.faults.push(`the trace has ${this.length} events, and the schedule ${length}`);
  }

  /** Keeps the events before a fault alone.
   * @param {number} length */
  cut(length) {
    this.length = length;
  }

  /** What speaks against an event's being the next one of the schedule, or nothing.
   * @param {State} state @param {Event} event */
  mismatch(state, event) {
    const turn = this.turns[event.number - 1];
    if (!turn) return `the schedule has ${this.turns.length} events`;
    const due = turn.words[0] === "spawn" ? state.tasks.length : state.tasks.findIndex(task => task && task.name === turn.words[1]);
    if (event.task !== due) return `line ${turn.line} of the schedule is of task ${due}, and ${event.lines[0]} is not`;
    const isTold = ["kill", "spawn", "hangup"].includes(turn.words[0]) && event.kind !== "ended";
    return isTold && turn.words[0] !== event.kind ? `line ${turn.line} of the schedule gives no ${event.lines[0]}` : "";
  }

  /** Folds one event into a state.
   * @param {State} state @param {Event} event @param {Watch} [watch] */
  apply(state, event, watch) {
    const turn = this.turns[event.number - 1], isStep = !turn || turn.words[0] === "step";
    if (event.kind === "spawn") this.spawn(state, event, turn);
    const task = state.tasks[event.task];
    for (const words of event.effects) {
      if (watch) watch(words, state, event);
      const act = /** @type {Record<string, any>} */ (EFFECTS)[words[0] === "call" ? words[2] : words[0]];
      act(this, state, words, event);
    }
    if (event.kind === "kill") end(task);
    else if (event.kind !== "spawn" && task.plan.kind === "raw" && isStep && !task.ended) stepRaw(task, event);
    else if (task.plan.kind === "async" && !task.ended) stepFibrils(task, event, isStep, this);
    state.at = event.number;
  }

  /** @param {State} state @param {Event} event @param {Turn} turn */
  spawn(state, event, turn) {
    const template = this.script.templates.get(turn.words[1]);
    const plan = template || {name: turn.words[1], kind: "", phones: PHONES, operations: [], fibrils: 0, line: 0};
    this.names[event.task] = turn.words[2] || "";
    state.tasks[event.task] = newTask(event.task, this.names[event.task], plan);
  }

  /** Keeps what is asked of an event without folding it again.
   * @param {Event} event @param {Operation | undefined} did the operation of a raw task that it was, if any */
  note(event, did) {
    const {number, outcome} = event, told = outcome ? outcome[0] : "";
    this.name(number, event.task);
    for (const words of event.effects) {
      for (const word of words) if (isNumbered(word, "t")) this.name(number, parseInt(word.slice(1), 10));
      if (words[0] === "call") this.touch(Number(words[1]), number);
      if (words[0] === "call") this.name(number, this.calls[Number(words[1])].caller);
    }
    for (const words of event.own) if (words[1] === "gets" || words[1] === "sent") this.touch(Number(words[2]), number);
    const rows = rowsBefore(event) + event.effects.filter(words => !isTold(event, words)).length + event.own.length + (isShown(outcome) ? 1 : 0);
    this.rows[number] = Math.max(1, rows);
    const isPlaceAlone = event.kind === "nothing" && !event.own.length && !(did && did.words[0] === "set");
    this.isIdle[number] = told === "EMPTY" && !event.effects.length || event.kind === "ended" || isPlaceAlone ? 1 : 0;
    this.did[number] = event.kind === "nothing" && did ? did.line : 0;
    if (event.kind === "spawn") this.born[event.task] = number;
    if (event.kind === "kill") this.died[event.task] = number;
  }

  /** @param {number} event @param {number} task */
  name(event, task) {
    this.named[2 * event + (task > 32 ? 1 : 0)] |= 1 << (task - 1) % 32;
  }

  /** Whether an event names a task: as its own, in an effect, or as the caller of a call.
   * @param {number} event @param {number} task */
  isNamed(event, task) {
    return (this.named[2 * event + (task > 32 ? 1 : 0)] & 1 << (task - 1) % 32) !== 0;
  }

  /** @param {number} call @param {number} event */
  touch(call, event) {
    const events = this.calls[call] && this.calls[call].events;
    if (events && events[events.length - 1] !== event) events.push(event);
  }

  /** The state behind an event, to read alone.
   * @param {number} at @returns {State} */
  stateAt(at) {
    const place = Math.min(Math.floor(at / EACH), this.kept.length - 1);
    if (this.near[0] !== this.kept[place]) this.near = [this.kept[place]];
    const from = Math.min(Math.floor((at - this.near[0].at) / NEAR), this.near.length - 1), state = copyOfState(this.near[from]);
    for (let number = state.at + 1; number <= at; number++) {
      this.apply(state, this.event(number));
      if (number === this.near[0].at + NEAR * this.near.length) this.near.push(copyOfState(state));
    }
    return state;
  }

  /** What a receiver sees of a call behind an event.
   * @param {number} number @param {number} at @returns {Message} */
  message(number, at) {
    const messages = this.calls[number].messages;
    let last = messages[0];
    for (const message of messages) if (message.event <= at) last = message;
    return last;
  }

  /** The events of a call's story, each with those of its lines that are about the call.
   * @param {number} number */
  story(number) {
    const call = this.calls[number];
    return call ? call.events.map(at => ({at, lines: linesAbout(this.event(at), call)})) : [];
  }
}

/** The operation where a raw task stands that an event steps.
 * @param {State} state the state before the event @param {Event} event */
function operationNow(state, event) {
  const task = state.tasks[event.task];
  return task && task.plan.kind === "raw" && !task.ended ? task.plan.operations[task.place] : undefined;
}

/** The rows that a chart has before the effects of an event.
 * @param {Event} event */
function rowsBefore(event) {
  return event.kind === "kill" || event.kind === "spawn" || event.kind === "ended" ? 1 : 0;
}

/** Whether an outcome is a row of its own in a chart: one that is no part of what an effect says.
 * @param {string[] | null} outcome */
export function isShown(outcome) {
  return Boolean(outcome) && !["EOK", "call", "received", "answer"].includes(/** @type {string[]} */ (outcome)[0]);
}

/** Whether an effect is no row of its own in a chart: the end of a phone over which a hangup goes in the same event.
 * @param {Event} event @param {string[]} words */
export function isTold(event, words) {
  return words[0] === "phone" && words[2] === "hungup" && event.effects.some(it => it[2] === "accepted" && it[3] === words[1]);
}

/** The lines of an event that are about a call: its own, and the phone, area or write directly behind them.
 * @param {Event} event @param {Call} call */
export function linesAbout(event, call) {
  const name = String(call.number), lines = [event.lines[0]];
  let isBehind = false;
  event.effects.forEach((words, i) => {
    const isOwn = words[0] === "call" && words[1] === name, isHangup = words[2] === "hungup";
    if (words[0] === "call") isBehind = isOwn;
    else if (words[2] === "slammed" || isHangup && words[1] !== call.over) isBehind = false;
    if (isBehind) lines.push(event.lines[i + 1]);
  });
  const outcome = event.outcome ? event.lines[event.effects.length + 1] : "", names = event.outcome && event.outcome[1] === name;
  if (names || ["answer", "forward"].includes(event.kind) && event.head[2] === name) lines.push(outcome);
  event.own.forEach((words, i) => {
    if (words[2] === name && (words[1] === "gets" || words[1] === "sent")) lines.push(event.lines[event.effects.length + 2 + i]);
  });
  return lines;
}
