/** What the page shows of a text, and how it takes one. */
import { EXAMPLES } from "/modules/examples.js";
import { testLine } from "/modules/notation.js";
import { change, equal, matches, openPage, press, say, signs, untilTrue, write } from "./harness.js";

function shows(page, what, wanted) {
  matches(what, page.find("detail").textContent, wanted);
}

function namesOf(page) {
  return [...page.document.querySelectorAll(".hidden-character")].map((it) => it.textContent).filter((it) =>
    it !== "·");
}

/** Each example has a position that its rule decides, and CR stays what it is. */
function tryExamples(page, table) {
  const missing = EXAMPLES.filter(([, rule, text]) => ![...table.positions(text)].some((it) => it.rule === rule));
  equal("each example has a position of its rule", missing.map(([name]) => name), []);
  change(page, "example", EXAMPLES.findIndex(([name]) => name === "Hidden characters"));
  equal("an example can hold CR LF", namesOf(page), ["ZWSP", "NBSP", "WJ", "SHY", "CR", "LF"]);
}

async function tryDrop(page) {
  const files = new page.window.DataTransfer();
  files.items.add(new page.window.File(["dropped text"], "text.txt"));
  page.find("text").dispatchEvent(new page.window.DragEvent("drop",
    { dataTransfer: files, cancelable: true, bubbles: true }));
  await untilTrue(() => page.find("text").value === "dropped text", "the text of a dropped file");
  say("a file can be dropped");
}

/** The page opens with an answer, its class in words, and a line that says what to do. */
function tryOpening(page) {
  shows(page, "the page opens with an answer", /^×.*No break between “,” \(U\+002C\) and “2” \(U\+0032\)\.Rule LB25 /);
  shows(page, "classes are in words", /Before: IS, infix separator\. After: NU, digit\./);
  matches("a line says what to do", page.find("how").textContent, /Point .* tap .* arrow keys/);
}

function tryChoosing(page) {
  write(page, "ab cd");
  equal("a text that is typed is shown", signs(page), "×××÷×!");
  press(page, "Home");
  for (let k = 0; k < 3; k++) press(page, "ArrowRight");
  shows(page, "keys choose a position", /between a space .* and “c”/);
  shows(page, "its rule is told", /Rule LB18/);
  page.document.querySelector(".position").click();
  shows(page, "a click chooses a position", /Rule LB2 /);
  page.document.querySelectorAll(".letter")[3].click();
  const rules = [...page.document.querySelectorAll("#detail .rule")].map((it) => it.textContent);
  equal("a letter shows the positions on both sides", rules, ["Rule LB18", "Rule LB28"]);
  const chosen = [...page.document.querySelectorAll(".chosen")].map((it) => it.textContent).join(" ");
  equal("and marks them", chosen, "c ÷ ×");
}

function tryShown(page) {
  write(page, "a\u200bb\u00a0c\u00add\u2060e");
  equal("characters that are not seen have names", namesOf(page), ["ZWSP", "NBSP", "SHY", "WJ"]);
  write(page, "a « b », c");
  const first = signs(page);
  change(page, "profile", "2");
  say("the profile changes positions", signs(page) === first ? "they are the same" : "");
  change(page, "profile", "1");
  const read = page.document.querySelectorAll("#positions .letters:not([aria-hidden=true])");
  equal("the row of letters is no text for screen readers", read.length, 0);
}

export async function tryPage(table) {
  const page = await openPage();
  tryOpening(page);
  tryChoosing(page);
  tryShown(page);
  await tryDrop(page);
  tryExamples(page, table);
  const line = testLine("a\u{1F600} b", table.positions("a\u{1F600} b"));
  equal("a line of the break test is written", line, "× 0061 ÷ 1F600 × 0020 ÷ 0062 ÷\t# 2 31 7 18 3");
  equal("no error in the page", page.faults, []);
  const asked = page.window.performance.getEntriesByType("resource").map((it) => new URL(it.name));
  equal("the page asks its own server alone", asked.filter((it) => it.origin !== location.origin).map(String), []);
  const files = [...new Set(asked.map((it) => it.pathname.replace("/page/", "")))].sort();
  equal("and asks it for three files", files, ["lbk.wasm", "page.css", "page.js"]);
  const controls = [...page.document.querySelectorAll("input, select, textarea, button")];
  const unlabelled = controls.filter((it) => !it.labels?.length && !it.textContent.trim());
  equal("each control has a label", unlabelled.map((it) => it.id), []);
}

export async function tryLinks() {
  const page = await openPage("#text=a%20b&profile=2");
  equal("a link holds the text", [page.find("text").value, page.find("profile").value, signs(page)],
    ["a b", "2", "××÷!"]);
  shows(page, "where it chooses none the first break is chosen", /Rule LB18/);
  const chosen = await openPage("#text=a%20b&profile=1&at=2");
  shows(chosen, "a link chooses a position", /Rule LB18.*At offset 2 \(UTF-16 units\)/);
  const ends = await openPage("#text=a%0D%0Ab&at=2");
  equal("a link can hold CR LF", [signs(ends), /Rule LB5 /.test(ends.find("detail").textContent)], ["×××!!", true]);
  const joined = await openPage("#text=" + encodeURIComponent("a\u0301\u0308 \u0301") + "&at=3");
  shows(joined, "a mark joins the character before it", /Before: AL, letter\. After: SP, space\./);
  joined.document.querySelectorAll(".position")[4].click();
  shows(joined, "a mark after a space is a letter", /Before: SP, space\. After: AL, letter\./);
  const wide = "A narrow window shows all of a text that is longer than it.";
  const narrow = await openPage(`#text=${encodeURIComponent(wide)}`, 320);
  const { scrollWidth } = narrow.document.documentElement;
  say("nothing is wider than 320 pixels", scrollWidth <= 320 ? "" : `${scrollWidth} pixels`);
}
