"use strict";
// What the page holds, and what is asked when something of it changes.

const LETTERS = ["A", "B", "C", "D"];
const state = { cards: [], begin: null, ticks: new Map(), chosen: null, memoryTold: null };

// ---- the list

function listText() {
  if (byId("by-text").checked) return byId("list").value;
  const ticked = state.begin.classes.filter(({ name }) => state.ticks.get(name).checked);
  return ticked.map(({ word }) => `${word}\n`).join("");
}

function buildClasses() {
  for (const { name, means, primitives } of state.begin.classes) {
    const tick = make("input", { type: "checkbox", id: `class-${name}`, change: judgeAll });
    tick.checked = isStatic(name);
    state.ticks.set(name, tick);
    byId("classes").append(make("label", { title: `${means} (${primitives.length})` }, tick, ` ${name}`));
  }
  byId("static").addEventListener("click", () => tickAll(isStatic));
  byId("everything").addEventListener("click", () => tickAll(() => true));
  for (const id of ["by-classes", "by-text"]) byId(id).addEventListener("change", () => showMode());
  byId("list").addEventListener("input", judgeAll);
  completion(byId("list"), byId("list-words"), "list");
  byId("save-list").addEventListener("click", () => save("faults.list", listText()));
}

/** Whether a class is one of those that `all` stands for. */
function isStatic(name) {
  return !name.startsWith("DYN") && name !== "DRF";
}

function tickAll(isTicked) {
  byId("by-classes").checked = true;
  for (const [name, tick] of state.ticks) tick.checked = isTicked(name);
  showMode();
}

/** Takes a list: as ticks where it has classes alone, and else as text (null: the ticks stay as they are). */
function takeList(text) {
  if (text === null) return;
  const lines = text.split("\n").filter((line) => line !== "");
  const words = state.begin.classes.map(({ word }) => word);
  if (lines.length > 0 && lines.every((line) => words.includes(line))) {
    for (const { name, word } of state.begin.classes) state.ticks.get(name).checked = lines.includes(word);
    return;
  }
  byId("list").value = text;
  byId("by-text").checked = true;
}

/** Shows the ticks or the text; a text that was never written begins with what is ticked. */
function showMode() {
  const asText = byId("by-text").checked;
  if (asText && byId("list").value === "") {
    byId("by-classes").checked = true;
    byId("list").value = listText();
    byId("by-text").checked = true;
  }
  byId("list-text").hidden = !asText;
  byId("classes").hidden = asText;
  showRefusal(byId("list-said"), byId("list"), null);
  judgeAll();
}

// ---- the marches

/** A march with its field; it has no verdict yet. */
function addCard(text) {
  const letter = LETTERS.find((it) => !state.cards.some((card) => card.letter === it));
  const card = { letter, report: null, before: null, inside: null, memory: null, links: null, key: "", isStale: false };
  card.field = make("textarea", { id: `march-${letter}`, rows: "3", spellcheck: "false", autocomplete: "off",
    autocapitalize: "off", "aria-label": `march ${letter}`, "aria-describedby": `said-${letter}` });
  card.field.value = text;
  card.figures = make("p", { class: "figures" });
  card.said = make("div", { class: "said", id: `said-${letter}`, role: "status" });
  card.words = make("div", { class: "words", role: "group",
    "aria-label": "what can come at the cursor (Ctrl and space)" });
  card.gallery = galleryOf(card);
  card.remove = make("button", { type: "button", "aria-label": `remove march ${letter}`,
    click: () => removeCard(card) }, "Remove");
  card.save = make("button", { type: "button", "aria-label": `save march ${letter}`,
    click: () => save(`march_${letter}.m`, card.field.value) }, "Save");
  card.node = make("div", { class: "card" },
    make("div", { class: "title" }, make("span", { class: "letter" }, letter), card.gallery,
      make("span", { class: "buttons" }, card.save, card.remove)),
    card.field, card.figures, make("div", { class: "feedback" }, make("div", {}, card.said, card.words)));
  card.judge = settled(100, (signal) => judgeCard(card, signal));
  card.field.addEventListener("input", () => {
    card.gallery.value = "";
    changed(card);
  });
  completion(card.field, card.words, "march");
  state.cards.push(card);
  state.cards.sort((one, other) => LETTERS.indexOf(one.letter) - LETTERS.indexOf(other.letter));
  byId("cards").replaceChildren(...state.cards.map(({ node }) => node));
  cardsChanged();
  changed(card);
  return card;
}

function galleryOf(card) {
  const options = state.begin.gallery.map(({ name, length }, place) =>
    make("option", { value: String(place) }, `${name}, ${length}`));
  const select = make("select", { "aria-label": `begin march ${card.letter} from one of the gallery` },
    make("option", { value: "" }, "begin from the gallery"), ...options);
  select.addEventListener("change", () => {
    if (select.value === "") return;
    putMarch(card, state.begin.gallery[Number(select.value)].text);
  });
  return select;
}

/** Puts another march into a card: it is no change of the one before. */
function putMarch(card, text) {
  card.field.value = breakable(text);
  [card.report, card.key] = [null, ""];
  changed(card);
}

/** A march with blanks behind its elements, so that a long one breaks there. */
function breakable(text) {
  return text.replace(/;\s*/g, "; ");
}

function removeCard(card) {
  state.cards = state.cards.filter((other) => other !== card);
  card.node.remove();
  if (state.chosen !== null && state.chosen.card.letter === card.letter) state.chosen = null;
  cardsChanged();
  show();
  showLinks();
  carry();
  byId("add").focus();
}

/** What depends on how many marches there are. */
function cardsChanged() {
  byId("add").disabled = state.cards.length === LETTERS.length || kept !== null;
  for (const card of state.cards) card.remove.disabled = state.cards.length === 1 || kept !== null;
  byId("extend").textContent = `Extend ${state.cards[0].letter}`;
  const select = byId("memory-march");
  const chosen = select.value;
  select.replaceChildren(...state.cards.map(({ letter }) => make("option", { value: letter }, letter)));
  select.value = state.cards.some(({ letter }) => letter === chosen) ? chosen : state.cards[0].letter;
  if (select.value !== chosen) askMemory();
}

function memoryCard() {
  return state.cards.find(({ letter }) => letter === byId("memory-march").value) || state.cards[0];
}

function changed(card) {
  card.judge();
  if (card === memoryCard()) askMemory();
}

function judgeAll() {
  for (const card of state.cards) card.judge();
}

/** Asks for the verdicts of a march, and shows them or its refusal. */
async function judgeCard(card, signal) {
  const list = listText();
  const memory = byId("memory-text").value;
  const told = await ask("judge", { march: card.field.value, list, memory }, signal);
  const refused = told.refused || null;
  const ofList = refused !== null && refused.what === "list";
  showRefusal(card.said, card.field, ofList ? null : refused);
  if (ofList || refused === null) showRefusal(byId("list-said"), byId("list"), refused);
  card.isStale = refused !== null;
  if (refused === null) {
    const isOther = card.memory !== memory;
    [card.inside, card.memory] = [told.inWord, memory];
    take(card, told.report, list);
    if (isOther && state.chosen !== null && state.chosen.card === card) askWhy();
  }
  card.node.classList.toggle("refused", card.isStale);
  showCardFigures(card);
  show();
  showStale();
  carry();
  askLinks();
}

/** Dims what is shown of texts that are refused by now: why, where it is of such a march. */
function showStale() {
  byId("why").classList.toggle("stale", state.chosen !== null && state.chosen.card.isStale === true);
}

/** Takes a report; what it changes is seen against the last one, unless nothing of march and list is new. */
function take(card, report, list) {
  const key = `${report.march}\n${list}`;
  if (card.key === key) return;
  if (card.report === null) card.before = null;
  else {
    card.before = new Map(card.report.verdicts.map((verdict) => [verdict.primitive, verdict.covered]));
  }
  [card.key, card.report] = [key, report];
  if (state.chosen !== null && state.chosen.card === card) askWhy();
}

function showCardFigures(card) {
  if (card.report === null) return;
  const { covered, primitives } = card.report.total;
  const figure = (number, what) => make("span", {}, make("b", {}, number), ` ${what}`);
  card.figures.replaceChildren(figure(card.report.length, "long"), figure(`${covered} of ${primitives}`, "covered"),
    ...(card.isStale ? [make("span", { class: "soft" }, "before the mistake")] : []));
}

// ---- the squares, and why

function isChosen(card, verdict) {
  return state.chosen !== null && state.chosen.card === card && state.chosen.primitive === verdict.primitive;
}

/** The classes of the squares: those of a list, and the faults of the address decoder. */
function listedClasses() {
  return [...state.begin.classes, state.begin.decoder];
}

function allClasses() {
  return [...listedClasses(), ...state.begin.links];
}

function show() {
  showCoverage(byId("coverage"), byId("summary"), state.cards, listedClasses(), choose, isChosen);
}

/** Asks for the verdicts on the linked faults, where their part of the page is open. */
const askLinks = settled(100, async (signal) => {
  if (!byId("links").open) return;
  for (const card of state.cards) {
    if (card.report === null || (card.links !== null && card.links.report.march === card.report.march)) continue;
    const told = await ask("links", { march: card.report.march }, signal);
    takeLinks(card, told.report);
  }
  showLinks();
});

/** Takes the verdicts on the links of a march, which are shown as those of a list are. */
function takeLinks(card, report) {
  const isChosenOf = state.chosen !== null && card.links !== null && state.chosen.card === card.links;
  card.links = { letter: card.letter, report, before: null, inside: null, isStale: false };
  if (!isChosenOf) return;
  state.chosen.card = card.links;
  askWhy();
}

function showLinks() {
  const cards = state.cards.filter((card) => card.links !== null).map((card) => card.links);
  showCoverage(byId("link-coverage"), byId("link-summary"), cards, state.begin.links, choose, isChosen);
}

function choose(card, verdict, square) {
  state.chosen = { card, primitive: verdict.primitive };
  for (const other of document.querySelectorAll(".coverage [aria-current]")) other.removeAttribute("aria-current");
  for (const other of square.closest(".coverage").querySelectorAll("button.square[tabindex='0']")) other.tabIndex = -1;
  square.setAttribute("aria-current", "true");
  square.tabIndex = 0;
  state.leads = true;
  askWhy();
}

/** Whether a verdict is one on a primitive of a list. */
function isPlain(verdict) {
  return state.begin.classes.some(({ name }) => name === verdict.class);
}

const askWhy = settled(0, async (signal) => {
  const { card, primitive } = state.chosen;
  const verdict = card.report.verdicts.find((it) => it.primitive === primitive);
  const into = byId("why");
  if (verdict === undefined) {
    into.replaceChildren(make("p", { class: "soft" }, `${primitive} is not in the list any more.`));
    return;
  }
  showStale();
  const { name, means } = allClasses().find((it) => it.name === verdict.class);
  const title = primitive.startsWith(name) ? primitive : `${primitive} ${name}`;
  if (verdict.covered && isPlain(verdict)) {
    showCovered(into, title, means, card, await ask("trace", { march: card.report.march, primitive }, signal));
  } else if (verdict.covered) showCovered(into, title, means, card, {});
  else {
    const told = await ask("trace", { march: card.report.march, primitive }, signal);
    showEscape(into, title, means, card, told.report.verdicts.find((it) => it.primitive === primitive), told);
  }
  if (insideOf(card, verdict) !== undefined) {
    const question = { march: card.report.march, memory: byId("memory-text").value, primitive };
    const inside = await ask("inside", question, signal);
    if (inside.refused === undefined) showInside(into, inside);
  }
  if (state.leads) (byId("player") || into.querySelector("h3")).focus({ preventScroll: innerWidth > 1000 });
  state.leads = false;
});

// ---- the memory

const askMemory = settled(250, async (signal) => {
  const card = memoryCard();
  const memory = byId("memory-text").value;
  let told = await ask("memory", { march: card.field.value, memory }, signal);
  const ofMarch = told.refused !== undefined && told.refused.what === "march";
  if (ofMarch && card.report !== null) told = await ask("memory", { march: card.report.march, memory }, signal);
  const refused = told.refused || null;
  const ofMemory = refused !== null && refused.what !== "march";
  showRefusal(byId("memory-said"), byId("memory-text"), ofMemory ? refused : null);
  if (ofMarch) {
    const by = refused === null ? "; this is the test by the last march without a mistake" : "";
    byId("memory-said").append(make("div", { class: "soft" }, `March ${card.letter} is refused${by}.`));
  }
  for (const id of ["figures", "cycles"]) byId(id).classList.toggle("stale", ofMarch || ofMemory);
  state.memoryTold = refused === null ? told : null;
  for (const id of ["save-module", "save-report"]) byId(id).disabled = refused !== null || ofMarch;
  if (refused !== null) {
    clearMemory();
    return;
  }
  fillMemoryForm(told.memory);
  showFigures(told);
  showCycles(told);
});

/** Saves the module or the report of `compile`. */
async function saveCompiled(what) {
  try {
    const question = { march: memoryCard().field.value, memory: byId("memory-text").value, list: listText() };
    const told = await ask("files", question);
    if (told.refused) throw new Error(`the ${told.refused.what} is refused: ${told.refused.message}`);
    save(what === "module" ? `${told.name}_bist.v` : `${told.name}.report`, told[what]);
    trouble("");
  } catch (error) {
    trouble(error);
  }
}

async function savePage() {
  try {
    const marches = state.cards.map((card) => card.field.value);
    const place = state.cards.indexOf(memoryCard());
    const told = await ask("keep", { marches, list: listText(), memory: byId("memory-text").value, place });
    if (told.refused) throw new Error(`the ${told.refused.what} is refused: ${told.refused.message}`);
    save("march.html", told.page);
    trouble("");
  } catch (error) {
    trouble(error);
  }
}

/** What depends on the memory: its test, and what the marches cover inside a word of it. */
function memoryChanged() {
  askMemory();
  judgeAll();
}

function listenToMemory(text) {
  buildMemoryForm(memoryChanged);
  byId("memory-text").value = text;
  byId("memory-text").addEventListener("input", memoryChanged);
  completion(byId("memory-text"), byId("memory-words-offered"), "memory");
  byId("memory-march").addEventListener("change", () => askMemory());
  byId("clock").addEventListener("input", () => state.memoryTold && showFigures(state.memoryTold));
  byId("save-memory").addEventListener("click", () => {
    save(`${state.memoryTold ? state.memoryTold.memory.name : "memory"}.mem`, byId("memory-text").value);
  });
  byId("save-module").addEventListener("click", () => saveCompiled("module"));
  byId("save-report").addEventListener("click", () => saveCompiled("report"));
}

// ---- the beginning

function showProgram({ proved, quick, path }) {
  const badge = byId("program");
  badge.classList.toggle("unproved", !proved);
  const unproved = quick ? "nothing beside this program says that it was proved" : "answered from the sources, without their proofs";
  badge.textContent = proved ? "answered by the proved program" : `unproved: ${unproved}`;
  badge.title = path;
}

/** A page that is a file shows what it keeps, and takes no other texts. */
function freeze() {
  for (const field of document.querySelectorAll("textarea, #memory-form input")) field.readOnly = true;
  const taken = "select, #classes input, #finder button, #finder input, [name=mode], #static, #everything, #save-page";
  for (const field of document.querySelectorAll(taken)) field.disabled = true;
  byId("program").textContent += ", kept in this file";
}

async function begin() {
  state.begin = await ask("begin", {});
  showProgram(state.begin.program);
  byId("version").textContent = `Vidlakost ${state.begin.version}.`;
  buildClasses();
  for (const id of ["coverage", "link-coverage"]) listenToSquares(byId(id));
  byId("links").addEventListener("toggle", () => askLinks());
  const carried = kept === null ? addressed() : null;
  listenToMemory(carried?.memory ?? state.begin.memory);
  listenToFinder();
  listenToAddress();
  takeList(carried?.list ?? state.begin.list);
  for (const march of carried?.marches ?? kept?.marches ?? [state.begin.march]) addCard(march);
  if (kept !== null) byId("memory-march").value = LETTERS[kept.place];
  byId("add").addEventListener("click", () => addCard(state.cards[state.cards.length - 1].field.value).field.focus());
  byId("save-page").addEventListener("click", savePage);
  byId("list-text").hidden = !byId("by-text").checked;
  byId("classes").hidden = byId("by-text").checked;
  if (kept !== null) freeze();
}

begin().catch(trouble);
