// Which line of the scenario a line of its trace is of: `sourcesOf(text, lines)` gives for each line of the trace the
// lines of the scenario that may have written it. It follows each greenlet through its function, along all ways that
// its lines allow, and knows no values; so the right line is always among those that it gives, and mostly alone.
"use strict";
const MOST_NODES = 4000, MOST_FOLLOWED = 2000;
// Statements that park always, those that may park, and what a wait that is late raises.
const PARKS_ALWAYS = new Set(["sleep", "cput"]);
const MAY_PARK = new Set(("join get kill joinall killall wait rget rwait acquire qput qget qpeek qjoin gspawn gjoin " +
  "gkill map nspawn cget").split(" "));
const LATE = { get: "Timeout", rget: "Timeout", qget: "Empty", qpeek: "Empty", qput: "Full" };
// Statements that may raise, whatever stands behind them; those that never do; the others raise if an operand does.
const MAY_RAISE = new Set(("get rget release qput qget qpeek qdone map switch throw setparent link linkvalue linkfault " +
  "rawlink start join kill joinall killall gkill unlink raw nspawn").split(" "));
const NEVER_RAISE = new Set("try timeout sleep set clear wait acquire qjoin gjoin qshut cget rwait".split(" "));
const OPERATORS = new Set("not and or push at len ready successful value exception".split(" "));
const CONSTANT = /^(none|true|false|-?\d+|[A-Z]\w+|Error -?\d+)$/;

/** The statements of a text as a tree: functions by their names, each with its line, its end and its body. */
function functionsOf(text) {
  const functions = new Map(), open = [];
  text.split("\n").forEach((line, at) => {
    const words = line.trim().split(" "), number = at + 1;
    if (words[0] === "" || words[0].startsWith("#")) return;
    const into = words[1] === "<-" ? words.splice(0, 2)[0] : null;
    const [word] = words, top = open.at(-1);
    if (word === "def" || word === "rawdef") {
      const made = { word, line: number, body: [] };
      functions.set(words[1], made);
      open.push({ it: made, body: made.body });
    } else if (!top) return;
    else if (word === "end") Object.assign(open.pop().it, { end: number });
    else if (word === "else") top.body = top.it.other = [];
    else if (word === "finally") top.body = top.it.final = [];
    else if (word === "except") {
      top.body = [];
      top.it.excepts.push({ kind: words[1], body: top.body });
    } else {
      const made = { word, words, into, line: number, rest: words.slice(1).join(" "), body: [], excepts: [] };
      top.body.push(made);
      if (["if", "while", "try", "timeout"].includes(word)) open.push({ it: made, body: made.body });
    }
  });
  return functions;
}

/** Whether a statement raises nothing: its operands are names and constants, and no kind of them is asked for. */
function isSafe({ word, rest }) {
  if (NEVER_RAISE.has(word)) return true;
  if (MAY_RAISE.has(word)) return false;
  const isPlain = rest.split(" ").every((it) => /^(\w+|-\d+)$/.test(it) && !OPERATORS.has(it));
  return isPlain && (word !== "if" && word !== "while" || /^(true|false)$/.test(rest));
}

const isCaught = (kind, fault) => kind === "any" || kind === fault ||
  (kind === "Exception" && fault !== "GreenletExit" && fault !== "Timeout");

/** The ways through one function. A node is a statement that is to be executed; `edges` are the lines that come next. */
class Ways {
  constructor(made) {
    this.made = made;
    this.nodes = 0;
    const last = this.node({ ends: "value none", line: made.end });
    this.first = this.block(made.body, last, null);
  }

  node(it) {
    if (++this.nodes > MOST_NODES) throw new RangeError("a function that is too long to be followed");
    return it;
  }

  /** The first node of statements; behind the last of them goes `next`. Faults and returns go as `around` says. */
  block(statements, next, around) {
    return statements.reduceRight((behind, it) => this.statement(it, behind, around), next);
  }

  statement(it, next, around) {
    const { word, line } = it, node = this.node({ it, line, next, around });
    if (word === "if") {
      node.turns = [this.block(it.body, next, around), this.block(it.other ?? [], next, around)];
    } else if (word === "while") {
      node.turns = [this.block(it.body, node, around)];
      if (it.rest !== "true") node.turns.push(next);
    } else if (word === "timeout") {
      const inside = it.words.at(-1) === "silent" ? { silent: next, around } : around;
      node.turns = [this.block(it.body, next, inside)];
    } else if (word === "try") node.turns = [this.tried(it, next, around)];
    return node;
  }

  tried(it, next, around) {
    let behind = next, outside = around;
    if (it.final) {
      const after = this.node({ line: it.end, around, after: next });
      behind = this.block(it.final, after, around);
      outside = { final: behind, around };
    }
    const excepts = it.excepts.map(({ kind, body }) => ({ kind, entry: this.block(body, behind, outside) }));
    return this.block(it.body, behind, { excepts, around: outside });
  }

  /** Where a fault goes; one whose kind is not known goes wherever one may. */
  whereFault(around, fault, line) {
    const found = [];
    for (let at = around; at; at = at.around) {
      if (at.final) return [...found, at.final];
      if (at.silent && (!fault || fault === "Timeout")) found.push(at.silent);
      for (const { kind, entry } of at.excepts ?? []) {
        if (fault && !isCaught(kind, fault)) continue;
        found.push(entry);
        if (fault || kind === "any") return found;
      }
    }
    return [...found, this.node({ ends: "fault", line })];
  }

  whereReturn(around, value, line) {
    for (let at = around; at; at = at.around) if (at.final) return at.final;
    return this.node({ ends: value, line });
  }

  /**
   * The nodes that come behind this one with no line written. Before any greenlet has ended, who waits for the end of
   * one parks.
   */
  silent(node, hasEnded) {
    if (node.ends) return [];
    if (node.after) {
      const { after, around, line } = node;
      return [after, ...this.whereFault(around, null, line), this.whereReturn(around, "value", line)];
    }
    if (node.parked) return [];
    const { it, next, around, line } = node, { word, rest } = it;
    const raised = isSafe(it) ? [] : this.whereFault(around, null, line);
    if (word === "return") return [this.whereReturn(around, CONSTANT.test(rest) ? `value ${rest}` : "value", line), ...raised];
    if (word === "raise") {
      return this.whereFault(around, CONSTANT.test(rest) && /^[A-Z]/.test(rest) ? it.words[1] : null, line);
    }
    if (node.turns) return [...node.turns, ...raised];
    if (word === "print" || word === "nspawn" || PARKS_ALWAYS.has(word)) return raised;
    if (word === "join" && !hasEnded) return raised;
    return [next, ...raised];
  }

  parked(node) {
    node.wait ??= this.node({ parked: node, line: node.line });
    return node.wait;
  }

  /** The lines that this node itself may write, each with the node behind it. */
  lines(node) {
    const { it, line, next, around } = node, edge = (said, to) => ({ said, line, to });
    if (node.ends) return [edge(node.ends === "fault" ? /^end (fault|value GreenletExit$)/ : starting(`end ${node.ends}`), null)];
    if (node.after) return [];
    if (node.parked) return this.goesOn(node.parked);
    const { word, words, rest } = it, found = [];
    if (word === "print") found.push(edge(CONSTANT.test(rest) ? exactly(`print ${faultText(rest)}`) : /^print /, next));
    if (word === "nspawn") found.push(edge(starting(`job ${words[2]} `), next));
    if (word === "switch" || word === "throw") {
      found.push(edge(/^into value /, next));
      for (const to of this.whereFault(around, null, line)) found.push(edge(/^into fault /, to));
    }
    if (PARKS_ALWAYS.has(word) || MAY_PARK.has(word)) {
      found.push({ ...edge(parking(word, words), this.parked(node)), time: timeOf(it) });
    }
    return found;
  }

  /** How a statement that has parked goes on. */
  goesOn(node) {
    const { it, line, next, around } = node, { word, words } = it, edge = (said, to) => ({ said, line, to });
    const raises = (said, fault) => this.whereFault(around, fault, line).map((to) => edge(said, to));
    const found = [];
    if (word === "nspawn") found.push(edge(/^wake$/, this.posts(node)));
    else found.push(edge(/^wake$/, next));
    if (MAY_RAISE.has(word) || word === "cget") found.push(...raises(/^wake$/, null));
    if (word === "map") found.push(edge(/^wake$/, this.again(node)));
    if (words.includes("within")) found.push(...(LATE[word] ? raises(/^late$/, LATE[word]) : [edge(/^late$/, next)]));
    for (const fault of ["GreenletExit", "Timeout", "LoopExit"]) {
      found.push(...raises(new RegExp(`^throw ${fault}\\b`), fault));
    }
    return [...found, ...raises(/^throw (?!GreenletExit|Timeout|LoopExit)/, null)];
  }

  /** A job is posted where the wait for its slot has ended. */
  posts(node) {
    return (node.post ??= this.node({ it: { ...node.it, word: "nspawn" }, line: node.line, next: node.next, around: node.around }));
  }

  /** A `map` waits for a place before each element, and then for all. */
  again(node) {
    return this.parked(node).again ??= this.node({ it: node.it, line: node.line, next: node.next, around: node.around });
  }

  /** The lines that may come next where this node is to be executed. */
  edges(node, hasEnded) {
    const kept = hasEnded ? "edges" : "first";
    if (node[kept]) return node[kept];
    const seen = new Set([node]), found = [];
    for (const it of seen) {
      found.push(...this.lines(it));
      for (const next of this.silent(it, hasEnded)) seen.add(next);
    }
    return (node[kept] = found);
  }
}

const quoted = (text) => text.replace(/[.*+?^${}()|[\]\\]/g, "\\$&");
const exactly = (text) => new RegExp(`^${quoted(text)}$`);
const starting = (text) => new RegExp(`^${quoted(text)}`);
const faultText = (text) => text.replace(/^Error (-?\d+)$/, "Error($1)");

/** How long a statement waits at most: a number, or nothing. */
function timeOf({ word, words }) {
  if (word === "sleep") return Number(words[1]);
  return words.at(-2) === "within" ? Number(words.at(-1)) : null;
}

/** The `park` line of a statement: its word, and the object that it names. */
function parking(word, words) {
  const until = words.includes("within") || word === "sleep" ? " until \\d+" : "";
  const isNamed = !["sleep", "join", "get", "kill", "joinall", "killall"].includes(word);
  const on = isNamed ? ` ${words[1]}` : ["join", "get", "kill"].includes(word) ? " [gj]\\d+" : "";
  return new RegExp(`^park ${word}${on}${until}$`);
}

/** The lines of one greenlet, with which the scenario's lines may have written them. */
function follow(ways, lines) {
  const steps = [];
  let now = new Set([ways.first]);
  for (const { said, hasEnded, moment } of lines) {
    const taken = [];
    for (const from of now) {
      for (const edge of from ? ways.edges(from, hasEnded) : []) {
        const isThen = edge.time == null || said.endsWith(` until ${moment + edge.time}`);
        if (isThen && edge.said.test(said)) taken.push({ from, ...edge });
      }
    }
    if (taken.length === 0) break;
    steps.push(taken);
    now = new Set(taken.map((it) => it.to));
  }
  let alive = now;
  return steps.reverse().map((taken) => {
    const kept = taken.filter((it) => alive.has(it.to));
    alive = new Set(kept.map((it) => it.from));
    return [...new Set(kept.map((it) => it.line))].sort((a, b) => a - b);
  }).reverse();
}

/** The greenlet that a line is of, and the line without it; nothing where it is a line of the loop or of a link. */
function ofGreenlet(line) {
  const found = /^(start|print|park|wake|late|throw|into|end) g(\d+)(.*)$/.exec(line);
  if (found) return [Number(found[2]), found[1] + found[3]];
  const job = /^job j\d+ g(\d+) (\w+ .*)$/.exec(line);
  return job ? [Number(job[1]), `job ${job[2]}`] : null;
}

function sourcesOf(text, lines) {
  const functions = functionsOf(text), sources = lines.map(() => []), greenlets = new Map(), ways = new Map();
  let hasEnded = false, moment = 0;
  lines.slice(0, MOST_FOLLOWED).forEach((line, at) => {
    const found = ofGreenlet(line);
    const turn = /^turn \d+ (?:done j\d+|\w+) (\d+)/.exec(line);
    if (turn) moment = Number(turn[1]);
    if (!found) return;
    const [number, said] = found;
    if (!greenlets.has(number)) greenlets.set(number, { name: null, at: [], said: [] });
    const one = greenlets.get(number);
    if (said.startsWith("start ")) {
      one.name = said.slice(6);
      sources[at] = [functions.get(one.name).line];
    } else if (one.name) {
      one.at.push(at);
      one.said.push({ said, hasEnded, moment });
    }
    hasEnded ||= said.startsWith("end ");
  });
  for (const { name, at, said } of greenlets.values()) {
    if (!name) continue;
    if (!ways.has(name)) ways.set(name, new Ways(functions.get(name)));
    follow(ways.get(name), said).forEach((found, which) => (sources[at[which]] = found));
  }
  return sources;
}
