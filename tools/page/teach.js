// What the page teaches: the question of an example, its answer, what to change; the statements; the pages.

/** What is edited: an example by its name, a change of it, or a text of one's own; and the text as it was loaded. */
let subject = null, loaded = "";

const exampleOf = (name) => examples.flatMap((it) => it.examples).find((it) => it.name === name);

/** A paragraph of the pages, where what stands between backticks is code. */
function paragraph(it) {
  const plain = it.replace(/\[([^\]]*)\]\([^)]*\)/g, "$1");
  return made("p", "", "", ...plain.split("`").map((part, at) => (at % 2 ? made("code", "", part) : part)));
}

/** Shows whether the text is that of the example, and lets it be put back. */
function showEdited() {
  const isEdited = subject !== null && text.value !== subject.text;
  by("edited").hidden = !isEdited;
  by("reset").disabled = text.value === loaded && !isEdited;
  const chosen = by("example").selectedOptions[0];
  for (const it of by("example").querySelectorAll("option[data-question]")) {
    it.textContent = it === chosen && isEdited ? `edited: ${it.dataset.question}` : it.dataset.question;
  }
}

/** What comes of a change, as TOUR tells it: `g1 1; g0 0; end`. */
const outcomeOf = (it) => `It prints ${it.split("; ").map((part) => part.replace(/^(g\d+) /, "$1: ")).join(", ")}.`;

function changeButton({ edits, why, outcome, text: changedText }) {
  const button = made("button", "change", "", ...paragraph(edits.replaceAll("|", " \u21b5 ")).childNodes);
  const said = made("p", "why", "");
  said.hidden = true;
  said.append(...paragraph(`${why.charAt(0).toUpperCase()}${why.slice(1)}.`).childNodes, ` ${outcomeOf(outcome)}`);
  button.type = "button";
  button.onclick = () => {
    text.value = changedText;
    drawText();
    said.hidden = false;
    run();
  };
  return made("div", "", "", button, said);
}

/** Shows the question of what is edited, the answer and the changes. */
function showSubject() {
  by("question").hidden = subject === null;
  by("teach").hidden = subject === null || subject.answer.length === 0;
  if (!subject) return;
  by("asked").textContent = subject.question;
  by("answer").replaceChildren(made("h3", "", "The answer"), ...subject.answer.map(paragraph));
  const changes = subject.changes.map(changeButton);
  by("changes").replaceChildren(...(changes.length ? [made("h3", "", "Change this and see"), ...changes] : []));
}

/** Takes a text as it stands in a file, and what it is of: an example, or nothing. */
function load(file, of = null) {
  subject = of;
  loaded = file;
  by("example").value = of ? of.name : "";
  for (const name of Object.keys(OPTIONS)) by(name).value = "";
  takenWords = shownText = null;
  text.value = file;
  drawText();
  by("editor").scrollTop = 0;
  showSubject();
}

// ---- the statements

function statementRow([form, does, put], isValue) {
  const button = made("button", "", "", made("code", "", form));
  button.type = "button";
  button.title = `puts in: ${put.replaceAll("|", " / ")}`;
  button.onclick = () => (isValue ? replace(text.selectionStart, text.selectionEnd, put) : putIn(put.split("|")));
  return made("li", "", "", button, ...paragraph(does).childNodes);
}

function drawStatements() {
  for (const { title, rows } of given("column-rows")) {
    const list = made("ul");
    for (const row of rows) list.append(statementRow(row, title === "Expressions"));
    by("statements").append(made("details", "", "", made("summary", "", title), list));
  }
}

// ---- the pages

let isUnpacked = false;

/** Shows a page of gvr, at a heading where one is named. */
async function openPage(name, heading) {
  if (!isUnpacked) {
    const bytes = Uint8Array.from(atob(by("pages-packed").textContent), (it) => it.charCodeAt(0));
    by("articles").innerHTML = new TextDecoder().decode(await packed(bytes, new DecompressionStream("gzip")));
    isUnpacked = true;
  }
  for (const it of by("articles").children) it.hidden = it.id !== `page:${name}`;
  if (!by("pages").open) by("pages").showModal();
  const target = heading && document.getElementById(`${name}:${heading}`);
  if (target) target.scrollIntoView();
  else by("articles").scrollTop = 0;
  by("articles").focus({ preventScroll: true });
}

function onPageLink(event) {
  const link = event.target.closest?.('a[href^="#page:"]');
  if (!link) return;
  event.preventDefault();
  const [, name, heading] = link.getAttribute("href").split(":");
  openPage(name, heading);
}
