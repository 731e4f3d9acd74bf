"use strict";
// One primitive: covered, or an escape, which is played step by step.

/** What is shown of a primitive that is covered: where it is caught first, if that is told, in an array for each side. */
function showCovered(into, title, means, card, told) {
  into.replaceChildren(
    make("h3", { tabindex: "-1" }, title),
    make("p", { class: "soft small" }, means),
    make("p", { class: "verdict is-covered" }, `Covered by march ${card.letter}.`),
    make("p", { class: "small" }, "In every array, wherever the fault is, from every content and in every choice of directions, ",
      "some read of this march differs."));
  const caught = told.caught || [];
  const scene = make("div", {});
  const buttons = caught.map((one) => make("button", { type: "button", click: () => play(one) }, caughtBy(one)));
  function play(one) {
    buttons.forEach((button, place) => button.setAttribute("aria-pressed", String(caught[place] === one)));
    scene.replaceChildren(...(one.steps.length === 0 ? [] : [playerOf({ ...told, steps: one.steps }, { escape: one.array })]),
      ...(one.sim ? [simSaid(one.sim)] : []));
  }
  if (caught.length === 0) return;
  into.append(make("p", { class: "small" }, "The first read that differs, in two cells that hold 0 at first:"),
    make("div", { class: "buttons catches" }, ...buttons), scene);
  play(caught[0]);
}

/** The read that catches a primitive, in words. */
function caughtBy({ array, element, operation, cell }) {
  const side = array.aggressor === null ? "" : array.aggressor < array.victim ? "aggressor below: " : "aggressor above: ";
  return `${side}${operation} of element ${element} on cell ${cell}`;
}

/** What the program says of an array. */
function simSaid({ said, words }) {
  return make("p", { class: "small" }, "The program says ", make("b", {}, said), " of ", make("code", {}, words.join(" ")));
}

const ORDERS = { u: "up", d: "down" };

/** The march with the operation of a step marked. */
function marchAt(elements, step) {
  const parts = [];
  elements.forEach((element, count) => {
    const here = step.element === count;
    const operations = element.operations.flatMap((operation, place) => [
      place === 0 ? "" : ",",
      make("span", here && step.place === place ? { class: "now" } : {}, operation),
    ]);
    const inside = element.order === "del"
      ? [make("span", here ? { class: "now" } : {}, "del")]
      : [element.text.split("(")[0], "(", ...operations, ")"];
    parts.push(make("span", here ? { class: "here" } : {}, ...inside), count + 1 < elements.length ? "; " : "");
  });
  return make("div", { class: "march", "aria-hidden": "true" }, ...parts);
}

/** Has a long march show the operation that is marked. */
function showMark(march) {
  const now = march.querySelector(".now");
  if (now !== null) march.scrollTop = now.offsetTop - march.offsetTop - march.clientHeight / 2;
}

/** The cells of an escape: of a fault of the address decoder, those of both addresses; of a link, those of both primitives. */
function rolesOf(escape) {
  if (escape.x !== undefined) return [[escape.x, "x"], [escape.y, "y"]];
  if (escape.v === undefined) return [[escape.victim, "victim"], [escape.aggressor, "aggressor"]];
  const isShared = escape.a !== null && escape.a === escape.b;
  return [[escape.v, "victim"], [escape.a, isShared ? "aggressor" : "first's"], [escape.b, "second's"]];
}

/** What a cell is in an escape. */
function roleOf(escape, cell) {
  const found = rolesOf(escape).find(([at]) => at === cell);
  return found === undefined ? "" : found[1];
}

/** The cell that goes wrong. */
function victimOf(escape) {
  return escape.v === undefined ? escape.victim : escape.v;
}

/** Whether a step does something to a cell that it would not do without the fault. */
function isStruck(escape, step, cell) {
  if (!step.acts) return false;
  return step.reaches === undefined ? cell === victimOf(escape) : step.reaches.includes(cell) !== (step.cell === cell);
}

/** The cells behind a step. */
function cellsAt(escape, step) {
  const cells = [...step.cells].map((held, cell) => {
    const role = roleOf(escape, cell);
    const classes = ["cell", step.cell === cell ? "visited" : "", isStruck(escape, step, cell) ? "struck" : ""];
    return make("div", { class: classes.filter(Boolean).join(" ") },
      make("div", { class: "held" }, held), `cell ${cell}`, make("b", {}, role || "\u00a0"));
  });
  return make("div", { class: "cells", "aria-hidden": "true" }, ...cells);
}

/** What a fault does in a step. */
function actOf(step, escape) {
  if (!step.acts) return "";
  if (step.acting) return ` The ${step.acting === 1 ? "first" : "second"} primitive acts on cell ${escape.v}.`;
  if (step.reaches === undefined) return ` The fault acts on cell ${escape.victim}.`;
  const reached = ["no cell", `cell ${step.reaches[0]}`, `cells ${step.reaches.join(" and ")}`][step.reaches.length];
  return ` Address x reaches ${reached}.`;
}

/** A step in words. */
function wordsOf(step, escape) {
  const cells = `the cells hold ${[...step.cells].join(" ")}`;
  const direction = step.element === null ? "" : ORDERS[escape.directions[step.element]];
  let done = "Before the march";
  if (step.operation === "del") done = `Element ${step.element}: a pause`;
  else if (step.element !== null) {
    const place = step.reaches === undefined ? `on cell ${step.cell}` : `at address ${step.cell} (${roleOf(escape, step.cell)})`;
    done = `Element ${step.element}, going ${direction}: ${step.operation} ${place}`;
    if (step.answer !== null) done += ` reads ${step.answer}, ${step.differs ? "which differs" : "as expected"}`;
  }
  return { done: `${done}; ${cells}.`, acts: actOf(step, escape) };
}

/** All steps as a table of text. */
function tableOf(steps) {
  const lines = steps.map((step) => {
    const place = step.element === null ? "start" : `element ${step.element}`;
    const cell = step.cell === null ? "" : `cell ${step.cell}`;
    const answer = step.answer === null ? "" : `reads ${step.answer}`;
    const mark = step.acting || (step.acts ? "*" : " ");
    return `${place.padEnd(11)} ${step.operation.padEnd(4)} ${cell.padEnd(7)} ${step.cells} ${mark} ${answer}`.trimEnd();
  });
  return lines.join("\n");
}

/** The part that changes with the step, and the keys that lead through the steps. */
function playerOf(told, verdict) {
  const { steps, report: { elements } } = told;
  const scene = make("div", {});
  const words = make("p", { class: "step", role: "status" });
  const end = steps.length - 1;
  const slider = make("input", { type: "range", min: "0", max: String(end), value: "0", "aria-label": "step",
    input: () => show(Number(slider.value)) });
  const acting = steps.findIndex((step) => step.acts);
  let at = 0;
  function show(place) {
    at = Math.max(0, Math.min(end, place));
    const step = steps[at];
    const { done, acts } = wordsOf(step, verdict.escape);
    const march = marchAt(elements, step);
    scene.replaceChildren(march, cellsAt(verdict.escape, step));
    showMark(march);
    words.replaceChildren(make("b", {}, `Step ${at} of ${end}. `), done, make("span", { class: "acts" }, acts));
    slider.value = String(at);
    slider.setAttribute("aria-valuetext", done + acts);
    first.disabled = back.disabled = at === 0;
    forward.disabled = last.disabled = at === end;
  }
  const button = (label, sign, to) =>
    make("button", { type: "button", "aria-label": label, title: label, click: () => show(to()) }, sign);
  const first = button("first step (Home)", "\u00ab", () => 0);
  const back = button("step back (left arrow)", "\u2039", () => at - 1);
  const forward = button("step forward (right arrow)", "\u203a", () => at + 1);
  const last = button("last step (End)", "\u00bb", () => end);
  const toActing = make("button", { type: "button", disabled: acting < 0, title: "where the fault first acts",
    click: () => show(acting) }, "acts here");
  const label = "The array, step by step: arrows, Home and End";
  const player = make("div", { id: "player", tabindex: "0", role: "group", "aria-label": label },
    scene, words, make("div", { class: "player" }, first, back, slider, forward, last, toActing));
  player.addEventListener("keydown", (event) => {
    if (event.key === "Escape") document.querySelector(".coverage [aria-current=true]")?.focus();
    const to = { ArrowLeft: at - 1, ArrowRight: at + 1, Home: 0, End: end }[event.key];
    if (to === undefined || event.ctrlKey || event.altKey || event.metaKey) return;
    event.preventDefault();
    show(to);
  });
  show(0);
  return player;
}

/** What is shown of a coupling inside a word of the memory. */
function showInside(into, told) {
  const { memory, verdict, why, steps } = told;
  const { covered, escape } = verdict;
  const said = covered ? "covered" : `escapes: ${why}`;
  into.append(make("h4", {}, `Inside a word of ${memory.name}`),
    make("p", { class: `verdict ${covered ? "is-covered" : "is-escape"}` }, `${said[0].toUpperCase()}${said.slice(1)}.`));
  if (covered) {
    const told = memory.bits === 1 ? "A word of one bit has no two bits, so nothing escapes there."
      : "At every two bits of every word, from every content, some read of the test differs.";
    into.append(make("p", { class: "small" }, told));
    return;
  }
  const [aggressor, victim] = escape.content;
  const readings = escape.reading === "both" ? "in both readings of a write" : `in the reading ${escape.reading} alone`;
  into.append(make("p", { class: "small" }, `It escapes ${readings}. The least two bits with which the test passes: the aggressor's is bit ${escape.aggressor} `
    + `and holds ${aggressor} at first, the victim's is bit ${escape.victim} and holds ${victim}.`));
  if (steps.length > 0) {
    into.append(make("details", {}, make("summary", {}, "All steps, the aggressor's bit first"),
      make("pre", { tabindex: "0" }, steps.join("\n"))));
  }
}

/** What is shown of an escape. */
function showEscape(into, title, means, card, verdict, told) {
  const { escape } = verdict;
  const array = `${escape.cells} cells that hold ${[...escape.content].join(" ")} at first; directions `;
  into.replaceChildren(
    make("h3", { tabindex: "-1" }, title),
    make("p", { class: "soft small" }, means),
    make("p", { class: "verdict is-escape" }, `Escapes from march ${card.letter}: ${told.why || ""}.`),
    make("p", { class: "small" }, `The least array in which the march passes: ${array}`,
      make("span", { class: "directions" }, escape.directions), "."));
  if (told.steps.length === 0) {
    into.append(make("p", { class: "soft" }, "This file does not keep its steps."));
    return;
  }
  into.append(playerOf(told, verdict));
  if (told.sim) into.append(simSaid(told.sim));
  else {
    const what = escape.x !== undefined ? "a wrong decoder" : escape.v !== undefined ? "linked faults" : "two operations";
    into.append(make("p", { class: "soft small" }, `Replayed by the definition: the program has no call for ${what}.`));
  }
  into.append(make("details", {}, make("summary", {}, "All steps"),
    make("pre", { tabindex: "0" }, tableOf(told.steps))));
}
