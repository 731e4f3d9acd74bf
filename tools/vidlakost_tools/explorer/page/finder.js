"use strict";
// The search for a march that covers the list: it is begun, shown while it goes on, and what it finds comes in as a march.

const HEARD_MILLISECONDS = 300;
// the search that is heard (null: none), and the card and the text of the march that came in last
const search = { number: null, card: null, text: "" };

function listenToFinder() {
  byId("find").addEventListener("click", () => find(null));
  byId("extend").addEventListener("click", () => find(state.cards[0]));
  byId("find-stop").addEventListener("click", () => answered("stop").catch(trouble));
}

/** Begins a search for the list, or for what is to come behind a march. */
async function find(card) {
  const question = { list: listText(), decoder: byId("find-decoder").checked, linked: byId("find-linked").checked };
  if (card !== null) Object.assign(question, { march: card.field.value, letter: card.letter });
  byId("find-said").replaceChildren();
  setSearching(true);
  try {
    const told = await ask("find", question);
    if (told.refused !== undefined) {
      showUnsearched(told.refused, card);
      setSearching(false);
      return;
    }
    search.number = told.search;
    await hear();
  } catch (error) {
    trouble(error);
    setSearching(false);
  }
}

/** Says why there is no search: at the text that is refused. */
function showUnsearched(refused, card) {
  const ofList = refused.what === "list" || card === null;
  showRefusal(ofList ? byId("list-said") : card.said, ofList ? byId("list") : card.field, refused);
  byId("find-said").replaceChildren(make("span", { class: "wrong" }, `The ${refused.what} is refused.`));
}

function answered(name) {
  return ask(name, { search: search.number });
}

/** Hears the search until it is over. */
async function hear() {
  for (;;) {
    const told = await answered("found");
    showSearch(told);
    if (told.ended !== null || told.broken !== null) break;
    await new Promise((resolve) => setTimeout(resolve, HEARD_MILLISECONDS));
  }
  setSearching(false);
}

function setSearching(isSearching) {
  for (const id of ["find", "extend"]) byId(id).disabled = isSearching;
  const hadFocus = document.activeElement === byId("find-stop");
  byId("find-stop").hidden = !isSearching;
  byId("find-time").textContent = "";
  if (hadFocus && !isSearching) byId("find").focus();
}

/** How far a search is, or what it ended with. */
function showSearch(told) {
  const into = byId("find-said");
  if (told.broken !== null) into.replaceChildren(make("span", { class: "wrong" }, `${told.broken}.`));
  else if (told.ended !== null) showFound(into, told.ended);
  else {
    const best = told.march === null ? "" : `${told.length} so far: ${breakable(told.march)}`;
    // what did not change is not said anew
    if (into.textContent !== best) into.replaceChildren(best);
    const least = told.least > 0 ? `at least ${told.least}n; ` : "";
    byId("find-time").textContent = `${least}${told.seconds.toFixed(0)} s${told.doing ? `, ${told.doing}` : ""}`;
  }
}

/** Takes the march that was found, and says what the program says of it. */
function showFound(into, { march, length, lines, isWhole }) {
  const card = takeFound(march);
  const where = card === null ? "There are four marches; remove one, and search again." : `It is march ${card.letter}.`;
  into.replaceChildren(make("span", {}, make("b", {}, `${length}. `), where, card === null ? ` ${breakable(march)}` : ""));
  for (const line of lines) into.append(make("div", { class: isWhole ? "soft" : "" }, line));
}

/** The card of a march that was found: that of the last one, unless somebody changed it, or a new one (null: there is no room). */
function takeFound(march) {
  const last = state.cards.find((card) => card === search.card && card.field.value === search.text);
  if (last !== undefined) putMarch(last, march);
  else if (state.cards.length === LETTERS.length) return null;
  search.card = last || addCard(breakable(march));
  search.text = search.card.field.value;
  return search.card;
}
