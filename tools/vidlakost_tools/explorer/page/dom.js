"use strict";
// Nodes, files to save, and questions to the server. Every text goes into the page as text.

/** The node of an id. */
function byId(id) {
  return document.getElementById(id);
}

/** An element with attributes (a function is a listener, a boolean property is set) and children: nodes or texts. */
function make(tag, attributes, ...children) {
  const made = document.createElement(tag);
  for (const [name, value] of Object.entries(attributes || {})) {
    if (typeof value === "function") made.addEventListener(name, value);
    else if (typeof value === "boolean") made[name] = value;
    else if (value !== undefined) made.setAttribute(name, value);
  }
  made.append(...children);
  return made;
}

/** Has the browser save a text under a name. */
function save(name, text) {
  const address = URL.createObjectURL(new Blob([text], { type: "application/octet-stream" }));
  const link = make("a", { href: address, download: name });
  document.body.append(link);
  link.click();
  link.remove();
  setTimeout(() => URL.revokeObjectURL(address), 10000);
}

/** What a page that was saved as a file has of the answers; null on a page that asks. */
const kept = byId("kept") === null ? null : JSON.parse(byId("kept").textContent);

/** The answer of a question; `signal` gives it up. A server that is too busy is asked a few times more. */
async function ask(name, question, signal, left = 10) {
  if (kept !== null) return keptAnswer(name, question);
  const answer = await send(name, question, signal, left > 0);
  if (answer === null) {
    await new Promise((resolve) => setTimeout(resolve, 400));
    return ask(name, question, signal, left - 1);
  }
  if (answer.status === 503) throw new Error("The server has too many questions at once; try again.");
  if (!answer.ok) throw new Error(await answer.text());
  const told = await answer.json();
  if (told.failed !== undefined) throw new Error(told.failed);
  return told;
}

/** What the server answers; null where it is busy, or hangs up, and may be asked again. */
async function send(name, question, signal, again) {
  const headers = { "Content-Type": "application/json" };
  try {
    const answer = await fetch(name, { method: "POST", headers, body: JSON.stringify(question), signal });
    return answer.status === 503 && again ? null : answer;
  } catch (error) {
    if (error.name === "AbortError" || !again) throw error;
    return null;
  }
}

/** The same from what the file has. */
function keptAnswer(name, question) {
  if (name === "begin") return kept.begin;
  if (name === "memory") return kept.memory;
  if (name === "files") return kept.files;
  const place = kept.marches.indexOf(question.march);
  if (name === "judge") return kept.judged[place];
  if (name === "links") return kept.links[place];
  if (name === "inside") return kept.inside[place][question.primitive];
  if (name === "trace") {
    const found = kept.traced[place][question.primitive];
    const report = question.primitive.startsWith("LF") ? kept.links[place].report : kept.judged[place].report;
    return { report, steps: [], ...found };
  }
  throw new Error("this page is a file, and can't ask the program");
}

/** Does something a moment after the last of many calls; what it is given up by is handed on. */
function settled(milliseconds, act) {
  let timer = null;
  let asked = null;
  return (...given) => {
    clearTimeout(timer);
    if (asked !== null) asked.abort();
    timer = setTimeout(async () => {
      asked = new AbortController();
      try {
        await act(asked.signal, ...given);
        trouble("");
      } catch (error) {
        if (error.name !== "AbortError") trouble(error);
      }
    }, milliseconds);
  };
}

/** Says that a question had no answer; an empty text says that the last one had. */
function trouble(error) {
  const text = error instanceof TypeError && kept === null
    ? `The program does not answer: has 'vidlakost explore' ended? (${error.message})`
    : String(error.message || error);
  byId("trouble").textContent = text;
  byId("trouble").hidden = text === "";
}

/** Shows a refusal at its place, with a button that leads there; nothing where there is none. */
function showRefusal(into, field, refused) {
  into.replaceChildren();
  field.setAttribute("aria-invalid", refused ? "true" : "false");
  if (!refused) return;
  const place = refused.line ? `line ${refused.line}, column ${refused.column}: ` : "";
  into.append(make("span", { class: "wrong" }, place + refused.message));
  if (refused.line) {
    into.append(" ", make("button", { type: "button", click: () => goTo(field, refused) }, "Go there"));
  }
  for (const note of refused.notes) into.append(" ", make("span", { class: "soft" }, note));
  if (refused.shown) into.append(make("pre", { "aria-hidden": "true" }, aroundCaret(refused.shown)));
}

/** Of a line and its caret the part round the caret. */
function aroundCaret([line, caret]) {
  const from = Math.max(0, caret.length - 24);
  return `${from > 0 ? "..." : ""}${line.slice(from, caret.length + 16)}\n${from > 0 ? "   " : ""}${caret.slice(from)}`;
}

/** Puts the cursor where a refusal is. */
function goTo(field, refused) {
  const lines = field.value.split("\n").slice(0, refused.line - 1);
  const before = lines.reduce((sum, line) => sum + line.length + 1, 0);
  const line = [...(field.value.split("\n")[refused.line - 1] || "")];
  const at = before + line.slice(0, refused.column - 1).join("").length;
  field.focus();
  field.setSelectionRange(at, at);
}

/** Buttons under a field for what could stand at its cursor; the cursor is asked about when it rests. */
function completion(field, into, kind) {
  const look = settled(200, async (signal) => {
    if (field.readOnly || document.activeElement !== field) return;
    const at = field.selectionStart;
    const [before, after] = [field.value.slice(0, at), field.value.slice(at)];
    const told = await ask("complete", { kind, before, after }, signal);
    into.replaceChildren();
    if (told.words.length + told.notes.length === 0) return;
    into.append(make("span", { class: "soft" }, "expected here:"));
    for (const word of told.words) {
      into.append(make("button", { type: "button", click: () => put(word, told) }, word));
    }
    for (const note of told.notes) into.append(make("span", { class: "soft" }, note));
  });
  function put(word, told) {
    const at = field.selectionStart;
    field.setRangeText((told.whole ? " " : "") + word, at - told.begun, at, "end");
    field.focus();
    field.dispatchEvent(new Event("input"));
    look();
  }
  for (const event of ["input", "keyup", "click", "focus"]) field.addEventListener(event, () => look());
  field.addEventListener("keydown", (event) => {
    const first = into.querySelector("button");
    if (event.ctrlKey && event.key === " " && first) {
      event.preventDefault();
      first.focus();
    }
  });
  into.addEventListener("keydown", (event) => {
    if (event.key === "Escape") field.focus();
  });
}
