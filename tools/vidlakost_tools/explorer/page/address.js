"use strict";
// The texts of the page in the part of its address behind `#`, which no server gets: whoever opens it has the same texts.

// what browsers and mails carry
const LONGEST_ADDRESS = 16000;
const CARRIED_MILLISECONDS = 300;
let carrying = null;

/** The texts that the address carries; null where it carries none. */
function addressed() {
  const told = new URLSearchParams(location.hash.slice(1));
  const marches = told.getAll("march").slice(0, LETTERS.length);
  return marches.length === 0 ? null : { marches, list: told.get("list"), memory: told.get("memory") };
}

/** Puts the texts into the address a moment after the last change; those that are too long for it are left out. */
function carry() {
  if (kept !== null) return;
  clearTimeout(carrying);
  carrying = setTimeout(() => {
    const told = new URLSearchParams([...state.cards.map((card) => ["march", card.field.value]),
      ["list", listText()], ["memory", byId("memory-text").value]]);
    const is = `#${told}`;
    history.replaceState(null, "", is.length > LONGEST_ADDRESS ? location.pathname : is);
  }, CARRIED_MILLISECONDS);
}

/** Another address in the field of the browser opens anew. */
function listenToAddress() {
  addEventListener("hashchange", () => location.reload());
}
