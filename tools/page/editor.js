// The text and its field: colours, marks, the keys of an editor, what is put in, and the printed form with its comments.

const text = by("text");
let shownText = null;
// After Escape the next Tab leaves the field, so that a keyboard comes out of it.
let leaves = false;
const OPENS = /^(def|rawdef|if|while|try|timeout|else|except|finally)\b/;
const DECLARES = /^(event|result|sem|bsem|rlock|queue|group|pool|native|channel)\b/;

/** The text in parts, each with its kind: comments, numbers and the words of the language. */
function coloured(lines) {
  const parts = [];
  for (const line of lines) {
    if (/^ *#/.test(line)) parts.push(["comment", line]);
    else for (const word of line.split(/( +)/)) {
      parts.push([languageWords.has(word) ? "word" : /^-?\d+$/.test(word) ? "number" : "", word]);
    }
    parts.push(["", "\n"]);
  }
  return parts;
}

function drawText() {
  if (text.value === shownText) return;
  shownText = text.value;
  by("refused").hidden = by("refused-word").hidden = true;
  forgetSources();
  const lines = shownText.split("\n");
  by("numbers").textContent = lines.map((_, at) => at + 1).join("\n");
  const isPlain = shownText.length > MOST_COLOURED;
  by("colours").parentElement.classList.toggle("plain", isPlain);
  if (isPlain) by("colours").textContent = `${shownText}\n`;
  else by("colours").replaceChildren(...coloured(lines).map(([kind, it]) => (kind ? made("span", kind, it) : it)));
  takeOptions();
  showEdited();
}

/** Marks a line of the text and brings it into sight, and a word of it where one is named. */
function markLine(line, place) {
  const top = PADDING + (line - 1) * LINE, editor = by("editor"), word = by("refused-word");
  by("refused").style.top = word.style.top = `${top}px`;
  by("refused").hidden = false;
  word.hidden = !place;
  if (place) {
    word.style.left = `calc(12px + ${place.from}ch)`;
    word.style.width = `${place.length}ch`;
  }
  if (top < editor.scrollTop || top > editor.scrollTop + editor.clientHeight - LINE) {
    editor.scrollTop = top - editor.clientHeight / 2;
  }
}

/** Puts a text in place of what stands from one place to another, as one edit that can be undone. */
function replace(from, to, put) {
  text.focus({ preventScroll: true });
  text.setSelectionRange(from, to);
  const isDone = put === "" ? document.execCommand("delete") : document.execCommand("insertText", false, put);
  if (!isDone) text.setRangeText(put, from, to, "end");
  drawText();
}

/** The place where the line begins that has this place in it. */
const lineStart = (at) => text.value.lastIndexOf("\n", at - 1) + 1;
const lineEnd = (at) => {
  const found = text.value.indexOf("\n", at);
  return found < 0 ? text.value.length : found;
};
const lineOf = (at) => text.value.slice(lineStart(at), lineEnd(at));
const indentOf = (line) => /^ */.exec(line)[0];
/** What stands before a line that follows this one. */
const behind = (line) => indentOf(line) + (OPENS.test(line.trim()) ? "  " : "");

/** Enter keeps the indent, and has two blanks more behind a line that opens a block. */
function onEnter() {
  const { selectionStart: from, selectionEnd: to } = text;
  const before = text.value.slice(lineStart(from), from);
  replace(from, to, `\n${before.trim() ? behind(before) : before}`);
}

/** Tab moves the chosen lines by two blanks, or puts two in; with Shift it takes them away. */
function onTab(isBack) {
  const { selectionStart: from, selectionEnd: to } = text, first = lineStart(from);
  if (!isBack && from === to) return replace(from, to, "  ");
  const last = lineEnd(Math.max(from, to - 1)), lines = text.value.slice(first, last).split("\n");
  const moved = lines.map((it) => (isBack ? it.replace(/^ {1,2}/, "") : `  ${it}`)).join("\n");
  replace(first, last, moved);
  text.setSelectionRange(from === to ? Math.max(first, from - 2) : first, from === to ? Math.max(first, from - 2) : first + moved.length);
}

/** The keys of the field; what is none of them goes on. */
function onTextKey(event) {
  const isPlain = !event.ctrlKey && !event.metaKey && !event.altKey;
  // WebKit on Linux has no name for Tab with Shift.
  const isTab = event.key === "Tab" || event.code === "Tab";
  if (event.key === "Escape") leaves = true;
  else if (isTab && isPlain && !leaves) {
    onTab(event.shiftKey);
    event.preventDefault();
  } else if (event.key === "Enter" && isPlain && !event.shiftKey) {
    onEnter();
    event.preventDefault();
  } else if (!["Shift", "Control", "Alt", "Meta"].includes(event.key)) leaves = false;
}

/** Puts lines behind the line of the caret; declarations before the functions, functions at the end. */
function putIn(lines) {
  const value = text.value, [head] = lines;
  if (/^(def|rawdef) /.test(head)) {
    return replace(value.length, value.length, `${value && !value.endsWith("\n") ? "\n" : ""}${lines.join("\n")}\n`);
  }
  if (DECLARES.test(head) || head.startsWith("profile ")) {
    const first = /^(raw)?def /m.exec(value), at = first ? first.index : value.length;
    return replace(at, at, `${lines.join("\n")}\n`);
  }
  const line = lineOf(text.selectionEnd), end = lineEnd(text.selectionEnd);
  if (line.trim() === "") {
    const pad = indentOf(line);
    return replace(lineStart(text.selectionEnd), end, lines.map((it) => pad + it).join("\n"));
  }
  const pad = behind(line);
  replace(end, end, lines.map((it) => `\n${pad}${it}`).join(""));
}

/** The printed form with the comments where they stood, each as far in as the line behind it, or as the block that ends. */
function withComments(printed, original) {
  const lines = printed.split("\n").slice(0, -1), whole = [];
  for (const line of original.split("\n").map((it) => it.trim())) {
    if (line.startsWith("#")) {
      const [next = ""] = lines;
      whole.push(indentOf(next) + (/^(end|else|except|finally)\b/.test(next.trim()) ? "  " : "") + line);
    } else if (line) whole.push(lines.shift());
  }
  return whole.map((it) => `${it}\n`).join("");
}

/** The words of a first line `# run WORDS`, or nothing. */
function firstWords(value) {
  const found = /^# run(?: (.*))?\n/.exec(`${value.slice(0, 200)}\n`);
  return found && (found[1] ?? "");
}
