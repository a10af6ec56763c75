// Draws a trace as tools/trace_picture does, byte for byte: `drawTrace(lines)` gives the text of an SVG.
"use strict";
const MOST_LANES = 24, MOST_ROWS = 400;
// Of a text that is too long the beginning is shown: beside a mark, and at the left where the loop's lines stand.
const LONGEST = 56, LONGEST_OF_LOOP = 28;
const ROW = 18, TOP = 44, MARGIN = 34, CHARACTER = 7;
// How far lanes are apart; all of them together are no wider than ALL_LANES, but for their least distance.
const NARROWEST = 44, WIDEST = 130, ALL_LANES = 480;
const TRACE_LINE = new RegExp(
  "^(?:start g\\d+ \\w+|print g\\d+ .+|park g\\d+ .+|(wake|late) g\\d+|throw g\\d+ .+" +
  "|(into|end) g\\d+ (value|fault) .+|link \\d+ g\\d+ (g\\d+|mark .+|set \\w+)|job j\\d+ g\\d+ .+" +
  "|block (\\d+|jobs|none)|turn \\d+ ((nothing|elapsed) \\d+|done j\\d+ \\d+ (value|fault) .+)|stop .+)$");
const LOOP = ["turn", "block", "stop"];
const GOES_ON = ["start", "wake", "late", "throw", "into"];
// The mark of each kind of line, around the point where its row meets its lane, and what the legend says of it.
const MARKS = {
  start: ["<circle class='open' r='5'/>", "start"],
  print: ["<path class='thin' d='M-7 0H7'/>", "print"],
  job: ["<path class='open' d='M-5 -4H5V4H-5Z'/>", "job"],
  park: ["<path class='bar' d='M-7 0H7'/>", "park"],
  wake: ["<path class='wake' d='M-6 -5H6L0 5Z'/>", "wake"],
  into: ["<path class='into' d='M-6 -5H6L0 5Z'/>", "into"],
  late: ["<path class='late' d='M0 -6L6 0L0 6L-6 0Z'/>", "late"],
  throw: ["<path class='throw' d='M-5 -5L5 5M5 -5L-5 5'/>", "throw"],
  end: ["<path class='full' d='M-5 -5H5V5H-5Z'/>", "end"],
  link: ["<circle class='open' r='3'/>", "link"],
};
// Each colour for light and for dark; shapes differ too, so that nothing rests on a colour.
const COLOURS = {
  INK: ["#000", "#e8e8e8"],
  PAPER: ["#fff", "#15181c"],
  SOFT: ["#666", "#9aa4ad"],
  BAND: ["#ececec", "#2a3037"],
  BLUE: ["#0072b2", "#56b4e9"],
  ORANGE: ["#a85f00", "#e69f00"],
  RED: ["#c43c00", "#ff8660"],
};
const STYLE = `:root{color-scheme:light dark}
.picture{font:11px 'DejaVu Sans Mono',Menlo,Consolas,monospace}
.picture text{fill:INK;stroke:PAPER;stroke-width:3px;stroke-linejoin:round;paint-order:stroke}
.picture path{fill:none;stroke:INK}
.picture .paper{fill:PAPER}
.picture .band{fill:BAND}
.picture .row rect{fill:transparent}
.picture .row-block text,.picture .row-stop text{stroke:BAND}
.picture .number{fill:SOFT;text-anchor:end}
.picture .soft{fill:SOFT}
.picture .name,.picture .row-print .said{font-weight:bold}
.picture .row-park .said{font-style:italic}
.picture .row-late .said{fill:ORANGE;font-weight:bold}
.picture .row-throw .said,.picture .row-fault .said{fill:RED;font-weight:bold}
.picture .open{fill:PAPER;stroke:INK;stroke-width:2}
.picture .thin{stroke-width:2}
.picture .bar{stroke:SOFT;stroke-width:3}
.picture .wake,.picture .tip{fill:BLUE;stroke:none}
.picture .into{fill:PAPER;stroke:BLUE;stroke-width:2}
.picture .late{fill:PAPER;stroke:ORANGE;stroke-width:2.5}
.picture .throw{stroke:RED;stroke-width:3}
.picture .full{fill:INK}
.picture .rule{stroke:SOFT}
.picture .runs{stroke-width:5}
.picture .waits{stroke:SOFT;stroke-width:1.5;stroke-dasharray:2 4}
.picture .ready{stroke:BLUE;stroke-width:2}
.picture .arrow{stroke:BLUE;stroke-width:1.3}
`;
// What a greenlet does between two marks, and what the legend says of it.
const WAYS = { runs: "runs", waits: "waits", ready: "may go on", switched: "switched away" };

/** The style sheet. A viewer that knows no dark takes the colour for light. */
const style = () => STYLE.replace(/(fill|stroke):([A-Z]+)/g, (_, name, colour) => {
  const [light, dark] = COLOURS[colour];
  return `${name}:${light};${name}:light-dark(${light},${dark})`;
});
const escaped = (text) => text.replaceAll("&", "&amp;").replaceAll("<", "&lt;").replaceAll(">", "&gt;");
const clipped = (text, most = LONGEST) => (text.length <= most ? text : text.slice(0, most - 2) + "..");
/** The number in `g7`. */
const named = (word) => Number(word.slice(1));
const count = (number, what) => `${number} ${what}${number === 1 ? "" : "s"}`;
const isTraceLine = (line) => TRACE_LINE.test(line);

/** The greenlets that a line is of: the one in whose lane its mark stands, and for a link the one that is called. */
function own(words) {
  if (LOOP.includes(words[0])) return [];
  if (words[0] === "job") return [named(words[2])];
  if (words[0] === "link") return words.slice(2, words.length === 4 ? 4 : 3).map(named);
  return [named(words[1])];
}

/** The moment that a `turn` line tells. */
const moment = (words) => Number(words[2] === "done" ? words[4] : words[3]);

/** What stands beside the mark of a line, or at the left where it is a line of the loop. */
function said(words) {
  const kind = words[0], rest = words.slice(2).join(" "), end = words.slice(3).join(" ");
  if (LOOP.includes(kind)) return words.join(" ");
  if (kind === "link") return `link ${words[1]}: ${end}`;
  if (kind === "job") return `${words[1]} ${end}`;
  if (kind === "late") return "late";
  if ((kind === "end" || kind === "into") && words[2] === "value") {
    return kind === "end" && rest === "value none" ? "" : end;
  }
  return rest;
}

/** A row of the picture: a line of the trace, or where `words` is null, lines that are left out. */
class Row {
  constructor(first, last, words) {
    Object.assign(this, { first, last, words });
  }

  isOf(...words) {
    return this.words !== null && words.every((it, at) => this.words[at] === it);
  }
}

/**
 * The rows. Where there are more greenlets than lanes, the lines of the others are left out, and the lines of the loop
 * between them; where there are more rows than fit, all lines from there up to the last one.
 */
function rowsOf(lines, lanes) {
  const rows = [];
  let isOwn = true, at = 0;
  lines.forEach((words, number) => {
    const isLast = number + 1 === lines.length;
    const isNear = isOwn || at === number;
    const isKept = own(words).some((it) => lanes.includes(it)) || (LOOP.includes(words[0]) && isNear) || isLast;
    if (!isKept || (rows.length >= MOST_ROWS - 3 && !isLast)) return;
    if (at < number) rows.push(new Row(at, number - 1, null));
    rows.push(new Row(number, number, words));
    isOwn = !LOOP.includes(words[0]);
    at = number + 1;
  });
  return rows;
}

/** The greenlets that the lines are of, by their numbers. */
const numbersOf = (lines) => [...new Set(lines.flatMap(own))].sort((a, b) => a - b);

/**
 * What the lines tell, row by row: `ways`, what each greenlet does from row to row; `arrows`, from a greenlet below a
 * row to another one; `dots`, rows of the loop that end the wait of a greenlet. Of each greenlet `lanes` has what it
 * does since which row, and of its wait the words, and the row in which its deadline came.
 */
class Told {
  constructor(lines, rows) {
    Object.assign(this, { rows, lanes: new Map(), ways: [], arrows: [], dots: [] });
    Object.assign(this, { jobs: new Map(), moment: 0, running: null, before: null });
    for (const number of numbersOf(lines)) {
      this.lanes.set(number, { name: "", hasBegun: false, ended: null, way: "", since: 0, waits: [], due: null });
    }
    rows.forEach((it, row) => {
      for (const words of lines.slice(it.first, it.last + 1)) {
        if (LOOP.includes(words[0])) this.loopLine(words, row);
        else this.ownLine(words, row);
      }
    });
    for (const [number, lane] of this.lanes) {
      if (lane.way !== "runs") this.turnsTo(number, rows.length - 1, "");
    }
  }

  /** From this row on the greenlet does something else. */
  turnsTo(number, row, way) {
    const lane = this.lanes.get(number);
    if (lane.way && row > lane.since) this.ways.push([lane.way, number, lane.since, row]);
    lane.way = way;
    lane.since = row;
  }

  /** The wait of a greenlet was ended by what the loop found in a row. */
  byLoop(number, row) {
    if (this.rows[row].isOf("turn") || this.rows[row].isOf("block")) this.dots.push([number, row]);
    this.turnsTo(number, row, "ready");
  }

  /** A line of the loop may bring a job's answer, and the deadlines up to its moment. */
  loopLine(words, row) {
    if (words[0] !== "turn") return;
    if (words[2] === "done") this.jobs.set(words[3], row);
    this.moment = moment(words);
    for (const lane of this.lanes.values()) {
      if (lane.way === "waits" && lane.due === null) this.lookAtDeadline(lane, row);
    }
  }

  lookAtDeadline(lane, row) {
    if (lane.waits.includes("until") && Number(lane.waits.at(-1)) <= this.moment) lane.due = row;
  }

  /** A line of a greenlet ends what it did before. */
  ownLine(words, row) {
    const kind = words[0], number = own(words)[0], lane = this.lanes.get(number);
    if (kind === "link" && words.length === 4) {
      this.arrows.push([number, row, named(words[3])]);
      this.turnsTo(named(words[3]), row, "ready");
    }
    if (kind === "link" || kind === "job") return;
    // One that never began is killed between two lines of its killer, which runs on.
    const isKilled = !lane.hasBegun && (kind === "throw" || kind === "end");
    if (!isKilled) this.switch(number, kind, row);
    this.endOfWait(number, kind, row);
    const way = { park: "waits", end: "" }[kind] ?? "runs";
    this.turnsTo(number, row, way);
    if (kind === "start") Object.assign(lane, { name: words[2], hasBegun: true });
    if (kind === "park") {
      Object.assign(lane, { waits: words.slice(2), due: null });
      this.lookAtDeadline(lane, row);
    }
    if (kind === "end") lane.ended = row;
    if (!isKilled) this.running = way === "runs" ? number : null;
    this.before = number;
  }

  /**
   * A greenlet that goes on while another one runs was switched to by that one; or the one before has ended, and it is
   * where the value of that one arrives.
   */
  switch(number, kind, row) {
    if (this.running !== null && this.running !== number) {
      this.arrows.push([this.running, row - 1, number]);
      this.turnsTo(this.running, row - 1, "switched");
    } else if (kind === "into" && this.before !== null && this.before !== number) {
      this.arrows.push([this.before, row - 1, number]);
    }
  }

  /** What ended the wait of a greenlet, where the lines tell that. */
  endOfWait(number, kind, row) {
    const lane = this.lanes.get(number), [what, of] = [...lane.waits, "", ""];
    if (lane.due !== null && (kind === "late" || (kind === "wake" && what === "sleep"))) {
      this.byLoop(number, lane.due);
    } else if (kind === "wake" && ["join", "get", "kill"].includes(what) && of[0] === "g") {
      const target = this.lanes.get(named(of));
      if (target && target.ended !== null) {
        this.arrows.push([named(of), target.ended, number]);
        this.turnsTo(number, target.ended, "ready");
      }
    } else if (kind === "wake" && what === "get" && this.jobs.has(of)) {
      this.byLoop(number, this.jobs.get(of));
    } else if (kind === "throw" && this.running !== null && !lane.hasBegun) {
      this.arrows.push([this.running, row - 1, number]);
    } else if (kind === "throw" && row > 0 && this.rows[row - 1].isOf("block", "none")) {
      this.byLoop(number, row - 1);
    }
  }
}

/** The drawing of a trace. What it draws of rows and lanes is what `Told` tells. */
class Picture {
  constructor(lines) {
    const numbers = numbersOf(lines);
    this.shown = numbers.slice(0, MOST_LANES);
    this.leftOut = numbers.slice(MOST_LANES);
    this.rows = rowsOf(lines, this.shown);
    this.told = new Told(lines, this.rows);
    const longest = (of, least) => of.reduce((most, words) => Math.max(most, said(words).length), least);
    const shown = lines.filter((words) => own(words).length > 0 && this.shown.includes(own(words)[0]));
    const widest = CHARACTER * longest(shown, 0) + 30;
    const share = Math.floor(ALL_LANES / Math.max(1, this.shown.length));
    this.step = Math.max(NARROWEST, Math.min(widest, WIDEST, share));
    const ofLoop = lines.filter((words) => words[0] === "turn" || words[0] === "block");
    this.left = MARGIN + CHARACTER * Math.min(LONGEST_OF_LOOP, longest(ofLoop, 12)) + 4;
    this.right = this.left + 150;
    this.kinds = [];
    this.under = [];
    this.lines = lines.length;
  }

  x(number) {
    return this.left + 20 + this.shown.indexOf(number) * this.step;
  }

  y(row) {
    return TOP + row * ROW + ROW / 2;
  }

  /** A text that begins at x; the picture is made as wide as it needs. */
  text(kind, x, y, text) {
    this.right = Math.max(this.right, x + CHARACTER * text.length + 12);
    return `<text class='${kind}' x='${x}' y='${y}'>${escaped(text)}</text>`;
  }

  head(number) {
    const x = this.x(number) - 7, name = this.told.lanes.get(number).name;
    const of = clipped(name, Math.floor((this.step - 4) / CHARACTER));
    const inside = this.text("name", x, 17, `g${number}`) + this.text("of", x, 32, of);
    return `<g class='lane' data-lane='${number}'>${inside}</g>`;
  }

  /** The names of the lanes. They are drawn last, over what a viewer may scroll below them. */
  heads() {
    const ground = `<rect class='paper' width='100%' height='${TOP - 6}'/>`;
    return `<g class='heads'>${ground}${this.shown.map((number) => this.head(number)).join("")}</g>`;
  }

  way(way, number, first, last) {
    return `<path class='${way}' d='M${this.x(number)} ${this.y(first)}V${this.y(last)}'/>`;
  }

  /** An arrow along the lower edge of a row, where no text stands. */
  arrow(source, row, target) {
    const x = this.x(source), y = this.y(row) + ROW / 2, to = this.x(target);
    const side = to > x ? 1 : -1;
    const line = `<path class='arrow' d='M${x} ${y - 5}V${y}H${to - 6 * side}'/>`;
    return `${line}<path class='tip' d='M${to} ${y}L${to - 7 * side} ${y - 3}V${y + 3}Z'/>`;
  }

  dot(number, row) {
    return `<path class='tip' d='M${this.x(number) - 4} ${this.y(row)}a4 4 0 1 0 8 0a4 4 0 1 0 -8 0Z'/>`;
  }

  row(row, it) {
    const y = this.y(row), words = it.words;
    if (words === null) {
      const many = `lines ${it.first + 1} to ${it.last + 1} are left out`, one = `line ${it.first + 1} is left out`;
      return `<g class='row row-gap'>${this.text("soft", this.left, y + 4, it.last > it.first ? many : one)}</g>`;
    }
    const kind = words[0];
    let inside = `<title>${escaped(words.join(" "))}</title><rect y='${y - ROW / 2}' width='100%' height='${ROW}'/>`;
    inside += `<text class='number' x='26' y='${y + 3}'>${it.first + 1}</text>`;
    inside += LOOP.includes(kind) ? this.loopRow(y, words) : this.ownRow(y, words);
    const fault = kind === "end" && words[2] === "fault" ? " row-fault" : "";
    return `<g class='row row-${kind}${fault}' data-line='${it.first + 1}'>${inside}</g>`;
  }

  loopRow(y, words) {
    const text = clipped(said(words));
    this.under.push([words[0], y, MARGIN + CHARACTER * text.length + 4]);
    return this.text("said", MARGIN, y + 4, text);
  }

  ownRow(y, words) {
    const kind = words[0], number = own(words)[0];
    if (!this.shown.includes(number)) return "";
    const x = this.x(number), text = clipped(said(words));
    if (!this.kinds.includes(kind)) this.kinds.push(kind);
    const of = GOES_ON.includes(kind) ? `<text class='number' x='${x - 10}' y='${y + 3}'>g${number}</text>` : "";
    const mark = `<g class='mark' transform='translate(${x} ${y})'>${MARKS[kind][0]}</g>`;
    return of + mark + (text ? this.text("said", x + 11, y + 4, text) : "");
  }

  /** What lies under the lanes: a rule where a turn ends, a band where nobody can go on. */
  underRow(kind, y, x) {
    if (kind === "turn") return `<path class='rule' d='M${x} ${y}H${this.right - 8}'/>`;
    return `<rect class='band' y='${y - ROW / 2}' width='${this.right}' height='${ROW}'/>`;
  }

  /** The marks and lines that occur, with what they mean, in as many rows as they need; and where these end. */
  legend(y) {
    const ways = new Set(this.told.ways.filter((it) => this.shown.includes(it[1])).map((it) => it[0]));
    const meant = Object.keys(MARKS).filter((it) => this.kinds.includes(it)).map((it) => MARKS[it]);
    for (const it of Object.keys(WAYS)) if (ways.has(it)) meant.push([`<path class='${it}' d='M0 -7V7'/>`, WAYS[it]]);
    const drawn = [];
    let x = 16;
    for (const [shape, text] of meant) {
      const width = CHARACTER * text.length + 34;
      if (x + width + 12 > this.right && x > 16) {
        x = 16;
        y += ROW;
      }
      drawn.push(`<g transform='translate(${x} ${y})'>${shape}</g>${this.text("soft", x + 11, y + 4, text)}`);
      x += width;
    }
    return [drawn, y + 16];
  }

  svg() {
    const isShown = (...numbers) => numbers.every((it) => this.shown.includes(it));
    const heads = this.heads(), rows = this.rows.map((it, row) => this.row(row, it));
    let below = TOP + this.rows.length * ROW + 22;
    if (this.leftOut.length > 0) {
      const told = `of ${this.told.lanes.size} greenlets the first ${MOST_LANES} have a lane: ` +
        `g${this.leftOut[0]} to g${this.leftOut.at(-1)} are left out`;
      rows.push(this.text("soft", this.left, below - 8, told));
      below += ROW;
    }
    const under = this.under.map((it) => this.underRow(...it));
    const ways = this.told.ways.filter((it) => isShown(it[1])).map((it) => this.way(...it));
    const arrows = this.told.arrows.filter((it) => isShown(it[0], it[2])).map((it) => this.arrow(...it));
    const dots = this.told.dots.filter((it) => isShown(it[0])).map((it) => this.dot(...it));
    const [legend, bottom] = this.legend(below);
    const size = `width='${this.right}' height='${bottom}'`;
    const box = `viewBox='0 0 ${this.right} ${bottom}'`;
    const name = `aria-label='The trace, drawn: ${count(this.told.lanes.size, "greenlet")}, ${count(this.lines, "line")}'`;
    const head = `<svg xmlns='http://www.w3.org/2000/svg' class='picture' role='img' ${name} ${size} ${box}>`;
    const first = [head, `<style>${style()}</style>`, `<rect class='paper' ${size}/>`];
    return [...first, ...under, ...ways, ...arrows, ...dots, ...rows, ...legend, heads, "</svg>", ""].join("\n");
  }
}

/** The text of the picture of a trace, whose lines are given without their ends. */
const drawTrace = (lines) => new Picture(lines.map((line) => line.split(" "))).svg();
