"use strict";
// The squares: class by class, a row for each march, what changed against the last state marked.

/** What one march covers, against what it covered before: the squares by class, and how many were won and lost. */
function statesOf(card) {
  const before = card.before;
  const classes = new Map();
  let [gained, lost] = [0, 0];
  for (const verdict of card.report.verdicts) {
    const had = before === null ? undefined : before.get(verdict.primitive);
    const mark = had === undefined || had === verdict.covered ? "" : verdict.covered ? "gained" : "lost";
    gained += mark === "gained";
    lost += mark === "lost";
    if (!classes.has(verdict.class)) classes.set(verdict.class, []);
    classes.get(verdict.class).push({ verdict, mark });
  }
  return { classes, gained, lost };
}

/** Whether a coupling is covered inside a word of the memory; undefined of any other primitive. */
function insideOf(card, verdict) {
  return card.inside === null ? undefined : card.inside[verdict.primitive];
}

/** The primitives in which marches differ. */
function differingOf(judged) {
  const covered = new Map();
  const differing = new Set();
  for (const { card } of judged) {
    for (const { primitive, covered: is } of card.report.verdicts) {
      if (covered.has(primitive) && covered.get(primitive) !== is) differing.add(primitive);
      covered.set(primitive, is);
    }
  }
  return differing;
}

/** A square, as a button that chooses it. */
function squareOf(card, state, differing, choose, isChosen) {
  const { verdict, mark } = state;
  const inside = insideOf(card, verdict);
  const within = inside === undefined ? "" : `, inside a word ${inside ? "covered" : "escapes"}`;
  const apart = differing.has(verdict.primitive);
  const name = verdict.primitive.startsWith(verdict.class) ? verdict.primitive : `${verdict.primitive} ${verdict.class}`;
  const told = `${name} ${verdict.covered ? "covered" : "escapes"}${within}${apart ? ", marches differ" : ""}`;
  const dot = inside === undefined ? "" : inside ? "in-covered" : "in-escape";
  const changed = mark === "" ? "" : mark === "gained" ? ", newly covered" : ", no longer covered";
  return make("button", {
    type: "button",
    class: ["square", verdict.covered ? "covered" : "", mark, dot, apart ? "differs" : ""].filter(Boolean).join(" "),
    "data-told": `${card.letter}: ${told}${changed}`,
    "aria-label": `${card.letter}: ${told}${changed}`,
    "aria-current": isChosen(card, verdict) ? "true" : undefined,
    tabindex: "-1",
    "data-march": card.letter,
    "data-primitive": verdict.primitive,
    click: (event) => choose(card, verdict, event.currentTarget),
  });
}

/** The row of a march in a class; its letter and its count stand there where it is not alone. */
function rowOf(card, states, isAlone, differing, choose, isChosen) {
  const squares = states.map((state) => squareOf(card, state, differing, choose, isChosen));
  const count = `${states.filter((state) => state.verdict.covered).length}/${states.length}`;
  const judged = states.filter((state) => insideOf(card, state.verdict) !== undefined);
  const within = `${judged.filter((state) => insideOf(card, state.verdict)).length}/${judged.length} in a word`;
  const label = `march ${card.letter}, ${count}${judged.length === 0 ? "" : `, ${within}`}`;
  return make("div", { class: card.isStale ? "row stale" : "row", role: "group", "aria-label": label },
    ...(isAlone ? [] : [make("span", { class: "letter" }, card.letter)]),
    make("div", { class: "squares" }, ...squares),
    make("span", { class: "count" }, count),
    ...(judged.length === 0 ? [] : [make("span", { class: "count inside" }, within)]));
}

/** All squares of the marches that have a verdict, and how many are covered. */
function showCoverage(into, summary, cards, classes, choose, isChosen) {
  const focused = into.contains(document.activeElement) ? document.activeElement.dataset : null;
  const judged = cards.filter((card) => card.report !== null).map((card) => ({ card, ...statesOf(card) }));
  const differing = differingOf(judged);
  into.replaceChildren();
  hideTip();
  for (const { name, means } of classes) {
    const found = judged.filter((it) => it.classes.has(name));
    if (found.length === 0) continue;
    const rows = found.map(({ card, classes: of }) =>
      rowOf(card, of.get(name), judged.length === 1, differing, choose, isChosen));
    into.append(make("div", { class: "class", role: "group", "aria-label": `${name}: ${means}` },
      make("h3", { title: means }, name), make("div", { class: "rows" }, ...rows)));
  }
  summary.textContent = judged.map(summaryOf).join(" · ");
  keepFocus(into, focused);
}

function summaryOf({ card, gained, lost }) {
  const { covered, primitives } = card.report.total;
  const change = [gained ? `${gained} more` : "", lost ? `${lost} fewer` : ""].filter(Boolean).join(", ");
  const against = change ? ` (${change} than before)` : "";
  return `${card.letter} covers ${covered} of ${primitives} in ${card.report.length}${against}`;
}

/** One square is reached by Tab: that which had the focus, or the first. */
function keepFocus(into, focused) {
  const squares = [...into.querySelectorAll("button.square")];
  const same = focused && squares.find((square) =>
    square.dataset.march === focused.march && square.dataset.primitive === focused.primitive);
  const first = same || into.querySelector("[aria-current=true]") || squares[0];
  if (first) first.tabIndex = 0;
  if (same) same.focus();
}

/** The square to which a key leads from another: along a row, to another row, to the first or the last. */
function squareBy(key, square) {
  const rows = [...square.closest(".coverage").querySelectorAll(".squares")];
  const row = rows.indexOf(square.parentElement);
  const inRow = [...square.parentElement.children];
  const place = inRow.indexOf(square);
  if (key === "ArrowRight") return inRow[place + 1] || (rows[row + 1] && rows[row + 1].firstElementChild);
  if (key === "ArrowLeft") return inRow[place - 1] || (rows[row - 1] && rows[row - 1].lastElementChild);
  if (key === "Home") return inRow[0];
  if (key === "End") return inRow[inRow.length - 1];
  const other = rows[row + (key === "ArrowDown" ? 1 : key === "ArrowUp" ? -1 : 0)];
  if (!other || other === square.parentElement) return undefined;
  return other.children[Math.min(place, other.children.length - 1)];
}

/** Says beside a square what it stands for. */
function showTip(square) {
  const tip = byId("tip");
  const { left, bottom } = square.getBoundingClientRect();
  tip.textContent = square.dataset.told;
  tip.hidden = false;
  tip.style.left = `${Math.max(4, Math.min(left, document.documentElement.clientWidth - tip.offsetWidth - 4))}px`;
  tip.style.top = `${bottom + 6}px`;
}

function hideTip() {
  byId("tip").hidden = true;
}

/** Has the squares say what they stand for, where one has the focus or the pointer; Escape takes that away. */
function tellSquares(into) {
  const of = (act) => (event) => {
    const square = event.target.closest("button.square");
    if (square !== null) act(square);
  };
  for (const event of ["focusin", "pointerover"]) into.addEventListener(event, of(showTip));
  for (const event of ["focusout", "pointerout"]) into.addEventListener(event, of(hideTip));
  into.addEventListener("keydown", (event) => event.key === "Escape" && hideTip());
  addEventListener("scroll", hideTip, { passive: true });
}

/** Leads from square to square of a part by keys. */
function listenToSquares(into) {
  tellSquares(into);
  into.addEventListener("keydown", (event) => {
    const square = event.target.closest("button.square");
    if (square === null || event.ctrlKey || event.altKey || event.metaKey) return;
    const next = squareBy(event.key, square);
    if (!next) return;
    event.preventDefault();
    square.tabIndex = -1;
    next.tabIndex = 0;
    next.focus();
  });
}
