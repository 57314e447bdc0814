/** The page: its text, and what it shows of it. */
import { load } from "./lbk.js";
import { AnswerView } from "./answer.js";
import { ColumnsView } from "./columns.js";
import { DecidedText } from "./decided.js";
import { EXAMPLES } from "./examples.js";
import { testLine } from "./notation.js";
import { passageAt } from "./passage.js";
import { directionOf } from "./pieces.js";
import { PositionsView } from "./positions.js";

const find = (id) => document.getElementById(id);
const field = find("text");
const profile = find("profile");

/** The position of the first example that is chosen where the page opens: the comma of a number. */
const FIRST_CHOSEN = 23;
/** The field finds the direction of each paragraph in texts of so many units at most, and else has that of the text. */
const MOST_OF_AUTO = 20_000;
/** How many bytes of a dropped file are read. */
const MOST_OF_FILE = 1_000_000;

/** The text, as it was given: a text field makes LF of CR. */
let text = "";

function takeText(given) {
  text = given;
  // A browser that looks for the direction of each paragraph takes seconds for a key in a long one, and lays all out
  // where it is set.
  const direction = text.length > MOST_OF_AUTO ? directionOf(text) : "auto";
  if (field.dir !== direction) field.dir = direction;
}

function setText(given) {
  takeText(given);
  field.value = given;
}

/** Takes the text and the profile of a link, and returns the place of the position that it chooses, if it does. */
function readFragment() {
  const given = new URLSearchParams(location.hash.slice(1));
  if (given.has("text")) setText(given.get("text"));
  if (["1", "2"].includes(given.get("profile"))) profile.value = given.get("profile");
  return /^\d+$/.test(given.get("at")) ? Number(given.get("at")) : undefined;
}

function linkToText(at) {
  const given = new URLSearchParams({ text, profile: profile.value, ...(at === undefined ? {} : { at }) });
  return `${location.href.split("#")[0]}#${given}`;
}

async function copy(given, what) {
  try {
    await navigator.clipboard.writeText(given);
    find("done").textContent = `${what} copied.`;
  } catch {
    find("done").textContent = "This browser does not let the page copy.";
  }
}

function fillExamples() {
  EXAMPLES.forEach(([name, rule], k) => {
    const option = document.createElement("option");
    option.textContent = `${name} (LB${rule})`;
    option.value = k;
    find("example").append(option);
  });
}

/** Has a file that is dropped anywhere read as the text, and `taken` called with what is to be said of it. */
function takeFiles(taken) {
  document.addEventListener("dragover", (event) => {
    if (!event.dataTransfer.types.includes("Files")) return;
    event.preventDefault();
    field.classList.add("over");
  });
  document.addEventListener("dragleave", () => field.classList.remove("over"));
  document.addEventListener("drop", async (event) => {
    const [file] = event.dataTransfer.files;
    field.classList.remove("over");
    if (!file) return;
    event.preventDefault();
    try {
      setText(await file.slice(0, MOST_OF_FILE).text());
      taken(file.size > MOST_OF_FILE ? `The first ${MOST_OF_FILE} bytes of ${file.name} were read.` : "");
    } catch (error) {
      taken(`${file.name} cannot be read: ${error.message}`);
    }
  });
}

/** The place of the first position that a rule decides, or else of the first break, in the first paragraphs. */
function firstPlace(decided, rule) {
  let first;
  for (let index = 0; index < Math.min(10, decided.paragraphs.length); index++) {
    const found = decided.positionsIn(index, 0, decided.paragraphs[index].length);
    const wanted = found.find((it) => it.rule === rule);
    if (wanted) return decided.startOf(index) + wanted.at;
    const isBreak = found.find((it) => it.kind !== "no");
    if (isBreak) first ??= decided.startOf(index) + isBreak.at;
  }
  return first ?? 0;
}

/** What the page shows of a text: the positions, the answer at the chosen one, and the columns. */
class Views {
  #table;
  #decided;
  #columns = new ColumnsView(find("ours"), find("theirs"), find("differences"));
  #positions;
  #passage;

  constructor(table) {
    this.#table = table;
    this.#decided = new DecidedText(table);
    const answer = new AnswerView(find("detail"), this.#decided, table);
    this.#positions = new PositionsView(find("positions"), find("detail"), this.#decided, (before, after) => {
      answer.show(before, after);
      this.#showPassage(before.at);
    });
  }

  get chosenAt() {
    return this.#positions.chosenAt;
  }

  get line() {
    return testLine(text, this.#table.positions(text, { profile: Number(profile.value) }));
  }

  /** Shows a text or a profile that is new, with the position at a place chosen, or else one that a rule decides. */
  begin(at, rule) {
    this.#decided.set(text, Number(profile.value));
    this.#show(at ?? firstPlace(this.#decided, rule));
  }

  edit(at) {
    this.#decided.edit(text);
    this.#show(at);
  }

  widen() {
    find("width-told").value = `${find("width").value} pixels`;
    this.#columns.width = find("width").value;
  }

  #show(at) {
    this.#passage = undefined;
    this.#positions.show();
    this.#positions.choose(at);
    find("done").textContent = "";
  }

  /** Shows the passage with a place, and keeps one that is shown as long as places in it are chosen. */
  #showPassage(at) {
    const shown = this.#passage;
    if (shown && at >= shown.offset && at <= shown.offset + shown.text.length) return;
    this.#passage = passageAt(this.#decided, at);
    this.#columns.show(this.#passage);
  }
}

function listen(views) {
  field.addEventListener("input", () => {
    takeText(field.value);
    views.edit(field.selectionStart);
  });
  // What is typed is not read out at each key.
  field.addEventListener("focus", () => find("detail").setAttribute("aria-live", "off"));
  field.addEventListener("blur", () => find("detail").setAttribute("aria-live", "polite"));
  profile.addEventListener("change", () => views.begin(views.chosenAt));
  find("example").addEventListener("change", ({ target }) => {
    const [, rule, given] = EXAMPLES[target.value] ?? [];
    if (given !== undefined) setText(given);
    views.begin(undefined, rule);
  });
  find("width").addEventListener("input", () => views.widen());
  find("copy").addEventListener("click", () => copy(views.line, "The line"));
  find("link").addEventListener("click", () => copy(linkToText(views.chosenAt), "The link"));
  window.addEventListener("hashchange", () => views.begin(readFragment()));
  takeFiles((told) => {
    views.begin();
    find("done").textContent = told;
  });
}

function start(table, chosen) {
  const views = new Views(table);
  listen(views);
  views.widen();
  views.begin(chosen ?? (text === EXAMPLES[0][2] ? FIRST_CHOSEN : undefined));
  document.documentElement.dataset.readyAfter = performance.now();
  document.documentElement.dataset.ready = "yes";
}

const loading = load();
fillExamples();
setText(EXAMPLES[0][2]);
const chosen = readFragment();
try {
  start(await loading, chosen);
} catch (error) {
  find("fault").hidden = false;
  find("fault").textContent = `The page cannot start: ${error.message}`;
  throw error;
}
