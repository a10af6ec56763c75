"use strict";
const by = (id) => document.getElementById(id);
const given = (id) => JSON.parse(by(id).textContent);
const examples = given("examples"), explain = given("explain"), cures = given("cures");
const languageWords = new Set(given("words"));
// How many bytes of a trace are kept; how long a text may be that is coloured, and one that a link keeps.
const ROOM = 1 << 26, MOST_COLOURED = 200000, MOST_IN_LINK = 100000;
const OPTIONS = { tick: [0, 1000], turns: [1, 10000000], moves: [1, 100000000] };
// Where no budget is asked for, a run stops here first; "Go on" runs it with the budgets that gvr has.
const FIRST = { turns: 20000, moves: 200000 };
const LINE = 20, PADDING = 8;
// What a status means here, and what one can do.
const STATUSES = {
  0: ["done", ""],
  1: ["main ended by a fault", "The fault stands in the last line of the trace. A `try` with an `except` catches it."],
  2: ["an option is out of its range", "`tick` is a number from 0 to 1000, `turns` from 1 to 10000000, `moves` from 1 to 100000000."],
  3: ["the text is refused", ""],
  5: ["the trace is cut", "This page keeps the first 64 MiB of a trace."],
  6: ["the budget is spent", "The run did not end before. Its trace is whole up to there. A greater number of `turns` or `moves` " +
    "lets it run on, if it ever ends."],
  7: ["out of memory", "This page has 1 GiB for a run."],
  8: ["a limit is met", "A run has at most 20000 greenlets, 100000 links, and 1000000 kills that stand at once."],
  256: ["the page has no server", ""],
};

/** An element with this class and text, and these children. Text is never read as markup. */
function made(name, kind, text, ...children) {
  const element = document.createElement(name);
  if (kind) element.className = kind;
  if (text) element.textContent = text;
  element.append(...children);
  return element;
}

// ---- the worker

const source = URL.createObjectURL(new Blob([by("worker").textContent], { type: "text/javascript" }));
let worker, ready, waiting = null, last = 0;

function begin() {
  worker = new Worker(source);
  ready = new Promise((go, fail) => {
    worker.onmessage = ({ data }) => {
      if (data.ready) return go();
      if (data.id === undefined) return fail(new Error(data.fault));
      if (waiting && waiting.id === data.id) finish(data);
    };
    worker.onerror = (event) => fail(new Error(event.message));
  });
  worker.postMessage({ base64: by("wasm").textContent });
  ready.then(() => enable(false), (fault) => tellState("cannot compute", fault.message, true));
}

function finish(said) {
  const { go } = waiting;
  waiting = null;
  go(said);
}

/** Ends the run that is under way, with its worker. */
function stop() {
  if (!waiting) return;
  worker.terminate();
  finish({ stopped: true });
  begin();
}

/** What the call says to these words and this text. */
async function ask(words, text, room = ROOM) {
  stop();
  await ready;
  enable(true);
  return new Promise((go) => {
    waiting = { id: ++last, go };
    worker.postMessage({ id: last, words, text: new TextEncoder().encode(text), room });
  });
}

function enable(runs) {
  by("run").disabled = runs;
  by("format").disabled = runs;
  by("stop").disabled = !runs;
}

// ---- the options

/** The options that stand in the controls, as words; one that is out of its range is marked and goes to the call. */
function optionWords() {
  return Object.entries(OPTIONS).flatMap(([name, [least, most]]) => {
    const value = by(name).value.trim();
    const isNumber = /^(0|[1-9]\d*)$/.test(value) && Number(value) >= least && Number(value) <= most;
    by(name).classList.toggle("wrong", value !== "" && !isNumber);
    return value === "" ? [] : [`--${name}=${value}`];
  });
}

let takenWords = null;

/** A first line `# run WORDS` of the text has the options: the controls show them. */
function takeOptions() {
  const words = firstWords(text.value);
  if (words === takenWords) return;
  takenWords = words;
  for (const name of Object.keys(OPTIONS)) by(name).value = new RegExp(`--${name}[ =](\\S+)`).exec(words ?? "")?.[1] ?? "";
  if (optionWords().length) by("more").open = true;
}

/** Of a first line the words that the page has no control for: it runs without them, and says so. */
const otherWords = () => (firstWords(text.value) ?? "").replace(/--(tick|turns|moves)[ =]\S+/g, "").split(/ +/).filter(Boolean);

/** A control that is changed changes the first line too, where the text has one. */
function onOption() {
  const words = [...optionWords(), ...otherWords()].join(" ");
  if (firstWords(text.value) === null) return;
  const at = text.value.indexOf("\n"), rest = at < 0 ? "" : text.value.slice(at + 1);
  takenWords = words || null;
  text.value = words ? `# run ${words}\n${rest}` : rest;
  drawText();
}

/** The text as it is run: a last line needs no Enter. */
const asRun = () => (text.value === "" || text.value.endsWith("\n") ? text.value : `${text.value}\n`);

/** The text as a file keeps it. */
function asFile() {
  const words = optionWords().join(" ");
  return words && firstWords(text.value) === null ? `# run ${words}\n${asRun()}` : asRun();
}

// ---- what is answered

function tellState(state, more = "", isFault = false) {
  by("state").replaceChildren(state, made("small", "", more && ` ${more}`));
  by("state").style.color = isFault ? "var(--red)" : "";
}

/** Texts beside one another, each with what it is. */
function figures(...texts) {
  const whole = made("div", "texts");
  for (const [kind, name, it] of texts) {
    whole.append(made("figure", `is-${kind}`, "", made("figcaption", "", name), made("pre", "", it)));
  }
  return whole;
}

/** What people mean who write so, and the entry of EXPLAIN: paragraphs and texts. */
function showEntry(entry, cure) {
  const parts = entry.parts.filter(([kind]) => kind === "text").map(([, it]) => paragraph(it));
  const texts = figures(...entry.parts.filter(([kind]) => kind !== "text").map(([kind, it]) => [kind, kind, it]));
  // A declaration stands there without the function behind it.
  const lines = (those) => those.map((it) => it.replace(/(.)\|def main\|end$/, "$1").replaceAll("|", "\n")).join("\n\n");
  if (cure) {
    const shown = figures(["refused", "you wrote", lines(cure.wrote)], ["mended", "write", lines(cure.write)]);
    by("entry").replaceChildren(made("div", "cure", "", paragraph(`You meant: ${cure.since}.`), shown), ...parts, texts);
  } else by("entry").replaceChildren(...parts, texts);
}

/** Shows the refused line with its word marked below, and what was wanted there. */
function showWord(number, reason, refused) {
  const lines = refused.split("\n"), line = lines[number - 1] ?? "", place = placeOf(lines, number, reason);
  by("word").hidden = !place || line.length > 200;
  if (place) {
    by("word").textContent = `${line}\n${" ".repeat(place.from)}${"^".repeat(place.length)}`;
    by("wanted").textContent = place.wanted ? `Here is wanted: ${place.wanted}.` : "";
  }
  markLine(number, place);
  return cureOf(line, reason);
}

function showTold(said, refused) {
  const place = /^gvr: line (\d+): reason (\d+): /.exec(said.err);
  const help = place ? "" : STATUSES[said.status][1];
  by("told").hidden = said.err === "" && said.status === 0 || said.isFirst;
  by("err").textContent = said.status === 2 ? "" : said.err.trimEnd();
  by("word").hidden = true;
  by("wanted").textContent = "";
  by("entry").replaceChildren(...(help ? [paragraph(help)] : []));
  if (place) showEntry(explain[place[2]], showWord(Number(place[1]), Number(place[2]), refused));
}

function showTrace(said) {
  const items = said.lines.map((line, at) => {
    const item = made("li", /^(turn|block|stop) /.test(line) ? "loop" : "", line);
    item.dataset.line = at + 1;
    return item;
  });
  if (said.count > said.lines.length) {
    items.push(made("li", "more", `${said.count - said.lines.length - 1} lines more; Save trace has all`));
    items.push(made("li", "loop", said.last));
    items.at(-1).dataset.line = said.count;
  }
  by("trace").replaceChildren(...items);
  by("result").hidden = said.count === 0;
  by("result").scrollTop = 0;
}

/** Shows the picture. Where that leaves lines out, it does not lie beside the trace, whose lines then have numbers. */
function showPicture(svg, isTrace) {
  by("picture").replaceChildren();
  if (svg) {
    const drawn = new DOMParser().parseFromString(svg, "image/svg+xml").documentElement;
    by("picture").append(document.importNode(drawn, true));
  } else if (isTrace) by("picture").append(made("p", "", "A trace as long as this is not drawn."));
  by("result").classList.toggle("is-cut", document.querySelector(".picture .row-gap") !== null || !svg);
}

let trace = null;

function show(said, words, isFirst = false) {
  trace = { ...said, isFirst: isFirst && said.status === 6 };
  const others = otherWords().join(" "), without = others && words[0] === "run" ? `; without ${others}, which a page does not have` : "";
  const lines = said.count === 1 ? "1 line" : `${said.count} lines`, time = `${said.time.toFixed(1)} ms${without}`;
  by("go-on").hidden = !trace.isFirst;
  const spent = said.err.includes("turns") ? `${FIRST.turns} turns` : `${FIRST.moves} moves`;
  if (trace.isFirst) tellState(`not ended after ${spent}`, `${lines}, ${time}; Go on has it run on, up to the usual budgets`);
  else tellState(`status ${said.status}: ${STATUSES[said.status][0]}`, `${lines}, ${time}`, ![0, 1].includes(said.status));
  showTold(trace, said.text ?? text.value);
  showTrace(said);
  showPicture(said.svg, words[0] === "run" && said.count > 0);
  keepRows();
  by("keep").hidden = said.count === 0;
}

/** Has the words answered, and gives what is said, or nothing where the run was stopped or failed. */
async function askWith(words) {
  optionWords();
  tellState("runs", "Stop ends it");
  by("go-on").hidden = true;
  enable(true);
  let said;
  try {
    said = await ask(words, asRun());
  } catch (fault) {
    tellState("cannot compute", fault.message, true);
    return null;
  }
  if (said.stopped) tellState("stopped");
  else if (said.fault) tellState("the module failed", said.fault, true);
  if (said.fault) enable(false);
  if (said.stopped || said.fault) return null;
  enable(false);
  return said;
}

/** Runs the text. Where no budget is asked for, it stops early at first. */
async function run(isWhole = false) {
  drawText();
  const asked = optionWords(), isFirst = isWhole !== true && !asked.some((it) => /^--(turns|moves)=/.test(it));
  const budgets = isFirst ? Object.entries(FIRST).map(([name, many]) => `--${name}=${many}`) : [];
  const words = ["run", ...asked, ...budgets], said = await askWith(words);
  if (said) show(said, words, isFirst);
  return said;
}

/** Puts the printed form in place of the text, as one edit that can be undone. Comments stay. */
async function format() {
  const original = asRun(), said = await askWith(["fmt"]);
  if (!said) return said;
  if (said.status === 0) {
    replace(0, text.value.length, withComments(new TextDecoder().decode(said.out), original));
    text.setSelectionRange(0, 0);
    tellState("formatted");
    by("told").hidden = true;
  } else show({ ...said, count: 0, lines: [], svg: "" }, ["fmt"]);
  return said;
}

// ---- links and files

async function packed(bytes, stream) {
  return new Uint8Array(await new Response(new Blob([bytes]).stream().pipeThrough(stream)).arrayBuffer());
}

async function hashOf(file) {
  const bytes = await packed(new TextEncoder().encode(file), new CompressionStream("deflate-raw"));
  let letters = "";
  for (const it of bytes) letters += String.fromCharCode(it);
  return btoa(letters).replaceAll("+", "-").replaceAll("/", "_").replaceAll("=", "");
}

async function ofHash(hash) {
  const bytes = Uint8Array.from(atob(hash.replaceAll("-", "+").replaceAll("_", "/")), (it) => it.charCodeAt(0));
  return new TextDecoder().decode(await packed(bytes, new DecompressionStream("deflate-raw")));
}

async function keepInLink() {
  const file = asFile();
  if (file.length > MOST_IN_LINK) return tellState("too long for a link", "Save makes a file of it", true);
  history.replaceState(null, "", `#${await hashOf(file)}`);
  try {
    await navigator.clipboard.writeText(location.href);
    tellState("link copied", "it stands in the address bar too");
  } catch {
    tellState("the link stands in the address bar");
  }
}

function saveAs(name, content) {
  const link = made("a");
  link.href = URL.createObjectURL(new Blob([content], { type: "text/plain" }));
  link.download = name;
  link.click();
  setTimeout(() => URL.revokeObjectURL(link.href), 10000);
}

async function openFile(file) {
  if (!file) return;
  load(await file.text());
  await run();
}

// ---- what is lit

let lit = null, litSource = null, rows = new Map();

/** Keeps the elements of each line of the trace: its own and its row in the picture. */
function keepRows() {
  rows = new Map();
  for (const it of document.querySelectorAll(".result [data-line]")) {
    if (!rows.has(it.dataset.line)) rows.set(it.dataset.line, []);
    rows.get(it.dataset.line).push(it);
  }
}

/** Where the lines of the trace are of, by the text that was run; nothing once the text is another. */
const sources = () => (trace?.sources ?? []);

function forgetSources() {
  if (trace) trace.sources = [];
  by("sources").replaceChildren();
}

function unlight() {
  lit = litSource = null;
  for (const it of document.querySelectorAll(".result .lit")) it.classList.remove("lit");
  by("sources").replaceChildren();
}

function lightRows(line, isSought) {
  for (const it of rows.get(String(line)) ?? []) {
    it.classList.add("lit");
    if (isSought) it.scrollIntoView({ block: "nearest", inline: "nearest" });
  }
}

function lightText(line) {
  const mark = made("div", "lit");
  mark.style.top = `${PADDING + (line - 1) * LINE}px`;
  mark.dataset.source = line;
  by("sources").append(mark);
}

/** Brings a line of the text into sight. */
function seek(line) {
  const top = PADDING + (line - 1) * LINE, editor = by("editor");
  if (top < editor.scrollTop) editor.scrollTop = top - PADDING;
  else if (top + LINE > editor.scrollTop + editor.clientHeight) editor.scrollTop = top + 2 * LINE - editor.clientHeight;
}

/** Lights a line of the trace, its row in the picture and its line of the scenario together. */
function light(line, isSought = false) {
  if (line === lit && !isSought) return;
  unlight();
  if (line === null) return;
  lit = line;
  lightRows(line, isSought);
  const of = sources()[line - 1] ?? [];
  of.forEach(lightText);
  if (isSought && of.length) seek(of[0]);
}

/** Lights all lines of the trace that a line of the scenario has written. */
function lightFrom(line, isSought = false) {
  if (line === litSource && !isSought) return;
  const those = sources().flatMap((of, at) => (of.includes(line) ? [at + 1] : []));
  unlight();
  litSource = line;
  if (those.length === 0) return;
  lightText(line);
  those.forEach((it, at) => lightRows(it, isSought && at === 0));
}

/** Says which line is lit, for one who does not see it. */
function sayLit() {
  const of = sources()[lit - 1] ?? [];
  by("lit").textContent = `line ${lit}: ${trace.lines[lit - 1]}${of.length ? `, of line ${of.join(" or ")} of the scenario` : ""}`;
}

const lineAt = (event) => event.target.closest?.("[data-line]")?.dataset.line ?? null;

/** The line of the scenario under the mouse. */
const textLineAt = (event) => Math.floor((event.clientY - text.getBoundingClientRect().top - PADDING) / LINE) + 1;

/** The line of the scenario in which the caret is. */
const caretLine = () => text.value.slice(0, text.selectionStart).split("\n").length;

const viewButtons = () => document.querySelectorAll("button[data-view]");

function setView(view) {
  by("result").dataset.view = view;
  for (const it of viewButtons()) it.setAttribute("aria-pressed", String(it.dataset.view === view));
}

/** The names of the lanes stay where the picture is scrolled. */
function keepNames() {
  const heads = document.querySelector(".picture .heads");
  if (heads) heads.setAttribute("transform", `translate(0 ${by("result").scrollTop})`);
}

// ---- the page

const THEMES = ["system", "light", "dark"];
let theme;

function setTheme(chosen) {
  theme = chosen;
  by("theme").textContent = `Theme: ${theme}`;
  if (theme === "system") delete document.documentElement.dataset.theme;
  else document.documentElement.dataset.theme = theme;
}

/** The keys: Ctrl or Command with Enter runs, Escape stops, Alt with Shift and F formats. */
function onKey(event) {
  if (by("pages").open) return;
  if (event.key === "Enter" && (event.ctrlKey || event.metaKey)) run();
  else if (event.key === "Escape") stop();
  else if (event.altKey && event.shiftKey && event.code === "KeyF") format();
  else return;
  event.preventDefault();
}

/** The arrows go through the lines of the trace. */
function onTraceKey(event) {
  const step = { ArrowDown: 1, ArrowUp: -1 }[event.key];
  if (!step || !trace) return;
  event.preventDefault();
  light(String(Math.min(trace.lines.length, Math.max(1, Number(lit ?? 0) + step))), true);
  sayLit();
}

function onExample() {
  const found = exampleOf(by("example").value);
  if (!found) return;
  load(found.text, found);
  run();
}

/** Puts back what was loaded. */
function onReset() {
  load(subject ? subject.text : loaded, subject);
  run();
}

function listenToText() {
  text.oninput = drawText;
  text.onkeydown = onTextKey;
  text.onkeyup = text.onclick = () => lightFrom(caretLine(), true);
  text.onmousemove = (event) => lightFrom(textLineAt(event));
  text.onmouseleave = unlight;
  by("editor").ondragover = (event) => event.preventDefault();
  by("editor").ondrop = (event) => {
    event.preventDefault();
    openFile(event.dataTransfer.files[0]);
  };
}

function listenToAnswer() {
  by("trace").onkeydown = onTraceKey;
  by("result").onscroll = keepNames;
  by("result").onmouseover = (event) => light(lineAt(event));
  by("result").onmouseleave = () => light(null);
  by("result").onclick = (event) => light(lineAt(event), true);
  for (const it of viewButtons()) it.onclick = () => setView(it.dataset.view);
  by("go-on").onclick = () => run(true);
  by("keep").onclick = () => saveAs("scenario.trace", trace.out);
}

function listen() {
  document.onkeydown = onKey;
  document.onclick = onPageLink;
  by("close").onclick = () => by("pages").close();
  by("example").onchange = onExample;
  by("reset").onclick = onReset;
  by("run").onclick = () => run();
  by("stop").onclick = stop;
  by("format").onclick = format;
  by("link").onclick = keepInLink;
  by("save").onclick = () => saveAs("scenario.gvr", asFile());
  by("open").onclick = () => by("file").click();
  by("file").onchange = () => openFile(by("file").files[0]);
  by("theme").onclick = () => setTheme(THEMES[(THEMES.indexOf(theme) + 1) % THEMES.length]);
  for (const name of Object.keys(OPTIONS)) by(name).oninput = onOption;
  listenToText();
  listenToAnswer();
}

function listExamples() {
  for (const { title, examples: those } of examples) {
    const group = made("optgroup");
    group.label = title;
    for (const { name, question } of those) {
      const option = Object.assign(made("option", "", question), { value: name });
      option.dataset.question = question;
      group.append(option);
    }
    by("example").append(group);
  }
}

async function open() {
  listExamples();
  drawStatements();
  listen();
  setTheme("system");
  setView(innerWidth > 700 ? "both" : "lines");
  by("column").open = innerHeight > 850 && innerWidth > 900;
  const first = exampleOf("three_at_once"), hash = location.hash.slice(1);
  const [, name, heading] = /^page:(\w+):(.*)$/.exec(hash) ?? [];
  try {
    if (hash && !name) load(await ofHash(hash));
    else load(first.text, first);
  } catch {
    load("");
    begin();
    return tellState("the link is damaged, or was cut short", "", true);
  }
  if (name) await openPage(name, decodeURIComponent(heading));
  begin();
  await run();
}
