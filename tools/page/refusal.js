// The word of a line at which a text is refused, what was wanted there, and what people mean who write so. The line and
// the reason are what the proved call says; here the line is read once more, for its words alone.

/** What may stand behind the first word of a line. `?w:X` is an optional word with what stands behind it. */
const FORMS = {
  "event result rlock group channel": "name",
  "sem bsem pool native": "name number",
  queue: "name kind places",
  def: "name names",
  rawdef: "name name",
  profile: "number",
  "print return raise start unlink if while": "value",
  let: "name value",
  "try finally else end": "",
  except: "class maybe-name",
  timeout: "time-or-none ?silent",
  "spawn new": "name values",
  spawnlater: "number name values",
  sleep: "number",
  join: "value ?within:number",
  get: "value ?within:number ?now",
  "kill killall": "value ?with:value ?within:number ?now",
  joinall: "value ?count:number ?within:number",
  "link linkvalue linkfault": "value name",
  rawlink: "value mark",
  "set clear release qdone": "name",
  "wait rwait qjoin gjoin": "name ?within:number",
  "rset rfail cput": "name value",
  "rget acquire qget qpeek": "name ?within:number ?now",
  cget: "name",
  qput: "name value ?within:number ?now",
  qshut: "name ?immediate",
  gspawn: "name name values",
  gkill: "name ?with:value ?now",
  map: "name name value",
  nspawn: "name job value ?takes:number",
  raw: "name ?under:value",
  "switch setparent": "value value",
  throw: "value ?with:value",
};
const GIVES = new Set(("spawn spawnlater new get joinall link linkvalue linkfault rawlink wait rget rwait acquire qget " +
  "qpeek qjoin gspawn map nspawn raw switch throw cget").split(" "));
const FORM_OF = new Map(Object.entries(FORMS).flatMap(([words, form]) => words.split(" ").map((it) => [it, form])));
const ONE_OF = {
  kind: ["fifo", "lifo", "prio", "join"],
  job: ["sum", "collatz", "fail", "echo"],
  class: ("any Exception GreenletExit Timeout LoopExit Empty Full ShutDown ValueError RuntimeError TypeError " +
    "OverflowError ZeroDivisionError InvalidSwitch Error").split(" "),
};
const ATOMS = new Set(("none true false self GreenletExit Empty Full ValueError RuntimeError TypeError OverflowError " +
  "ZeroDivisionError").split(" "));
const OPERANDS = new Map([..."+ - * / % == != < <= and or push at".split(" ").map((it) => [it, 2]),
  ..."not len ready successful value exception".split(" ").map((it) => [it, 1])]);
const QUERIES = new Set("isset counter qsize unfinished members".split(" "));
const NUMBER = /^(0|-?[1-9]\d*)$/;
const WANTED = {
  name: "a name: a small letter, then small letters, digits or _, and no word of the language",
  number: "a number, written out: 0, 5 or 100",
  value: "a value: a number, a name, true, false, none, or an operator with its operands",
  statement: "a statement, or a declaration above the functions",
  giver: "a statement that gives a value, as get, wait or spawn",
  end: "the end of the line",
};

const isName = (word) => /^[a-z][a-z0-9_]{0,23}$/.test(word) && !languageWords.has(word);

/** Reads the words of a line one by one, and stops at the first that does not fit. */
class Line {
  constructor(words) {
    this.words = words;
    this.at = 0;
    this.names = [];
  }

  /** The next word, if it fits. Where it does not, the reading ends here, with what was wanted. */
  take(wanted, fits) {
    const word = this.words[this.at];
    if (word === undefined || !fits(word)) throw { at: this.at, wanted };
    this.at += 1;
    return word;
  }

  optional(part) {
    const [word, behind] = part.slice(1).split(":");
    if (this.words[this.at] !== word) return false;
    this.at += 1;
    if (behind) this.part(behind);
    return true;
  }

  name() {
    this.take(WANTED.name, isName);
    this.names.push(this.at - 1);
  }

  value() {
    const word = this.take(WANTED.value, (it) => ATOMS.has(it) || OPERANDS.has(it) || QUERIES.has(it) || it === "list" ||
      it === "Error" || NUMBER.test(it) || isName(it));
    if (word === "Error") return this.part("number");
    if (QUERIES.has(word)) return this.name();
    if (isName(word)) this.names.push(this.at - 1);
    let count = OPERANDS.get(word) ?? 0;
    if (word === "list") count = Number(this.take(WANTED.number, (it) => NUMBER.test(it)));
    for (; count > 0; count -= 1) this.value();
  }

  part(part) {
    if (part === "name") this.name();
    else if (part === "value") this.value();
    else if (part === "maybe-name") this.at < this.words.length && this.name();
    else if (part === "names" || part === "values") while (this.at < this.words.length) this.part(part.slice(0, -1));
    else if (part === "number") this.take(WANTED.number, (it) => NUMBER.test(it));
    else if (part === "places") this.take("how many places: a number, or none", (it) => it === "none" || NUMBER.test(it));
    else if (part === "time-or-none") this.take("a time in milliseconds, or none", (it) => it === "none" || NUMBER.test(it));
    else if (part === "mark") {
      this.part(this.take("mark and a number, or set and an event", (it) => it === "mark" || it === "set") === "mark" ? "number" : "name");
    } else this.take(`one of ${ONE_OF[part].join(", ")}`, (it) => ONE_OF[part].includes(it));
  }

  /** Reads the whole line. */
  read() {
    if (this.words[1] === "<-") {
      this.name();
      this.at += 1;
    }
    const isFit = this.at > 0 ? (it) => GIVES.has(it) : (it) => FORM_OF.has(it);
    const form = FORM_OF.get(this.take(this.at > 0 ? WANTED.giver : WANTED.statement, isFit));
    for (const part of form.split(" ").filter((it) => it && !it.startsWith("?"))) this.part(part);
    const options = form.split(" ").filter((it) => it.startsWith("?"));
    for (const part of options) this.optional(part);
    const may = options.length ? `, or ${options.map((it) => it.slice(1).split(":")[0]).join(", ")}` : "";
    if (this.at < this.words.length) throw { at: this.at, wanted: WANTED.end + may };
  }
}

/** Where a line stops to fit: the place of a word and what was wanted; nothing where all words fit. */
function misfit(words) {
  const line = new Line(words);
  try {
    line.read();
  } catch (found) {
    if (found.wanted) return found;
    throw found;
  }
  return { names: line.names };
}

/** The names that a text declares, and those that a body has at a line. */
function namesAt(lines, number) {
  const objects = new Set(), functions = new Set();
  let locals = new Set();
  lines.forEach((line, at) => {
    const words = line.trim().split(" ");
    if (words[0] === "def" || words[0] === "rawdef") {
      functions.add(words[1]);
      if (at < number) locals = new Set(words.slice(2));
    } else if (/^(event|result|sem|bsem|rlock|queue|group|pool|native|channel)$/.test(words[0])) objects.add(words[1]);
  });
  let first = number - 1, last = number;
  while (first > 0 && !/^ *(raw)?def /.test(lines[first])) first -= 1;
  while (last < lines.length && !/^ *(raw)?def /.test(lines[last])) last += 1;
  for (const line of lines.slice(first, last)) {
    const words = line.trim().split(" ");
    if (words[1] === "<-") locals.add(words[0]);
    if (words[0] === "let") locals.add(words[1]);
    if (words[0] === "except" && words[2]) locals.add(words[2]);
  }
  return { objects, functions, locals };
}

/** The word of a refused line by its reason: of a rule on names the first name that breaks it. */
function placeOf(lines, number, reason) {
  const line = lines[number - 1] ?? "", words = line.trim().split(" ");
  if (reason === 2) return { from: [...line].findIndex((it) => it < " " || it > "~"), length: 1 };
  if (reason === 4) return { from: line.search(/(?<=\S)  +| +$/), length: 1 };
  const found = misfit(words);
  let at = found.at;
  if (reason >= 15 && found.names) {
    const { objects, functions, locals } = namesAt(lines, number);
    const isKnown = (it) => objects.has(it) || functions.has(it) || locals.has(it);
    const isOther = (it) => objects.has(it) || functions.has(it) || !locals.has(it);
    const isUnknown = found.names.some((it) => !isKnown(words[it]));
    const fits = { 15: (it) => !isUnknown || !isKnown(it), 16: () => true, 17: isOther, 18: (it) => functions.has(it) }[reason];
    at = fits && found.names.find((it) => fits(words[it]));
  } else if (reason >= 11) at = 0;
  if (at === undefined || at === -1) return null;
  const before = line.length - line.trimStart().length;
  const from = before + words.slice(0, at).reduce((sum, it) => sum + it.length + 1, 0);
  const isEnd = at >= words.length;
  const wanted = { 8: WANTED.number, 9: "a number within its bounds", 10: WANTED.name }[reason] ?? found.wanted;
  return { from: isEnd ? line.length : from, length: isEnd ? 1 : words[at].length, wanted: reason < 11 ? wanted : "" };
}

/** A word as a kind of word, for texts that are alike: names and numbers are each one kind. */
function kindOfWord(word) {
  if (languageWords.has(word) || OPERANDS.has(word)) return word;
  if (/^-?\d+$/.test(word)) return "1";
  if (/^".*/.test(word)) return '"';
  if (/^\(/.test(word)) return "(";
  if (/^[a-z_]\w*$/.test(word)) return "name";
  return word.replace(/[a-z_]\w*/g, "name").replace(/\d+/g, "1");
}

/** How alike two lines are: nothing where they begin otherwise, more where words are the same, and not only their kinds. */
function likeness(line, other) {
  const a = line.trim().split(" "), b = other.trim().split(" "), [kind] = a.map(kindOfWord);
  if (kind !== kindOfWord(b[0]) || (b.length === 1) !== (a.length === 1)) return 0;
  // An unknown word is like itself alone, or like a name of one letter, which stands for any.
  if (kind === "name" && a[0] !== b[0] && b[0].length > 1) return 0;
  const longest = Math.max(a.length, b.length);
  const alike = b.filter((it, at) => a[at] !== undefined && kindOfWord(a[at]) === kindOfWord(it)).length;
  return alike / longest + b.filter((it, at) => it === a[at]).length / longest / 2;
}

/** What people mean who write such a line: the row of EXPLAIN with the same reason whose line is most like it. */
function cureOf(line, reason) {
  let best = null, most = 0.6;
  for (const it of cures) {
    if (it.reason !== reason) continue;
    const many = Math.max(...it.wrote.flatMap((text) => text.split("|")).map((other) => likeness(line, other)));
    if (many > most) [best, most] = [it, many];
  }
  return best;
}
