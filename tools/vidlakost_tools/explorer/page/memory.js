"use strict";
// A memory: its values and its text, which say the same, and what the program says of its test.

/** The lines of a description that the form has, with how each is told. */
const FIELDS = [
  ["name", "name", "text"],
  ["words", "words", "number"],
  ["bits", "bits of a word", "number"],
  ["latency", "latency", "number"],
  ["polarity", "polarity", "text"],
  ["pause", "cycles of a pause", "number"],
  ["backgrounds", "backgrounds", "text"],
];
const VERSION_2 = ["latency", "polarity", "pause"];

/** A description in which a line says something else; where there is no such line, one is added. */
function withLine(text, name, value) {
  const lines = text.replace(/\n$/, "").split("\n");
  const isOf = (word) => (line) => line.split("#")[0].trim().split(/[ \t\r]+/)[0] === word;
  const at = lines.findIndex(isOf(name));
  const comment = at >= 0 && lines[at].includes("#") ? ` ${lines[at].slice(lines[at].indexOf("#"))}` : "";
  if (value === "" && at >= 0) lines.splice(at, 1);
  else if (at >= 0) lines[at] = `${name} ${value}${comment}`;
  else if (value !== "") {
    const behind = name === "backgrounds" ? -1 : lines.findIndex(isOf("bits"));
    lines.splice(behind >= 0 ? behind + 1 : lines.length, 0, `${name} ${value}`);
  }
  const version = lines.findIndex(isOf("memory"));
  if (VERSION_2.includes(name) && version >= 0) {
    lines[version] = lines[version].replace(/memory([ \t]+)1\b/, (_, blanks) => `memory${blanks}2`);
  }
  return lines.join("\n") + "\n";
}

/** The form; a change of a value goes into the text. */
function buildMemoryForm(changed) {
  for (const [name, label, type] of FIELDS) {
    const field = make("input", { id: `memory-${name}`, type, spellcheck: "false", autocomplete: "off", input: () => {
      byId("memory-text").value = withLine(byId("memory-text").value, name, field.value.trim());
      changed();
    } });
    byId("memory-form").append(make("label", { for: `memory-${name}` }, label), field);
  }
}

/** The values that the program read, in the form; the field that is being changed stays. */
function fillMemoryForm(memory) {
  for (const [name] of FIELDS) {
    const field = byId(`memory-${name}`);
    if (field !== document.activeElement) field.value = String(memory[name]);
  }
}

/** A time in the unit that suits it. */
function timeOf(cycles, megahertz) {
  const seconds = cycles / megahertz / 1e6;
  const [unit, scale] = seconds >= 1 ? ["s", 1] : seconds >= 1e-3 ? ["ms", 1e3] : ["µs", 1e6];
  return `${(seconds * scale).toLocaleString("en", { maximumFractionDigits: 3 })} ${unit}`;
}

/** The figures of a test. */
function showFigures(told) {
  const megahertz = Number(byId("clock").value);
  const { memory } = told;
  const rows = [
    ["length", told.length, ""],
    ["backgrounds", memory.backgrounds, ""],
    ["commands", told.commands.toLocaleString("en"), ""],
    ["cycles", told.cycles.toLocaleString("en"), "large"],
    [`time at ${megahertz} MHz`, megahertz > 0 ? timeOf(told.cycles, megahertz) : "no clock", "large"],
  ];
  byId("figures").replaceChildren(...rows.flatMap(([name, value, kind]) =>
    [make("dt", {}, name), make("dd", kind ? { class: kind } : {}, value)]));
}

/** The picture of the first cycles, which the server draws from what `vectors` writes. */
function showCycles(told) {
  if (told.picture === null) {
    byId("cycles").replaceChildren(make("p", { class: "soft" },
      "The program lists the commands of at most 2,000,000 cycles, and this test is longer: there is no picture."));
    return;
  }
  const commands = told.first.map((command, cycle) => `${cycle + 1}: ${command}`).join("; ");
  byId("cycles").replaceChildren(make("img", {
    src: `data:image/svg+xml;charset=utf-8,${encodeURIComponent(told.picture)}`,
    alt: `The first cycles at the port. Command by command: ${commands}.`,
  }));
}

function clearMemory() {
  byId("figures").replaceChildren();
  byId("cycles").replaceChildren();
}
