/** Tries the package and the page in this browser, and posts what was found to the server that scripts/page runs. */
import { Words } from "/package/words.js";
import { load } from "/shown/lbk.js";
import { tryColumns } from "./column-tests.js";
import { equal, openPage, results, say, untilTrue } from "./harness.js";
import { tryLetters } from "./letter-tests.js";
import { tryLinks, tryPage } from "./page-tests.js";

async function digestOf(count, line) {
  const lines = Array.from({ length: count }, (_, k) => line(k)).join("");
  const hash = await crypto.subtle.digest("SHA-256", new TextEncoder().encode(lines));
  return [...new Uint8Array(hash)].map((it) => it.toString(16).padStart(2, "0")).join("");
}

async function bytesOf(file) {
  return new Uint8Array(await (await fetch(file)).arrayBuffer());
}

async function tryCases(table) {
  const words = await Words.load();
  for (const [digest, call, profile, file] of await (await fetch("cases.json")).json()) {
    const text = await bytesOf(file);
    let found;
    if (call === "word") {
      const { start, end } = words.wordColumns(text);
      found = await digestOf(start.length, (k) => `W ${start[k]} ${end[k]}\n`);
    } else {
      const { at, kind, rule } = table[`${call}Columns`](text, { profile: Number(profile) });
      found = await digestOf(at.length, (k) => `${at[k]} ${kind[k]} ${table.ruleLabel(rule[k])}\n`);
    }
    equal(`${call}s of ${file}${profile && ` in profile ${profile}`} are those of the C library`, found, digest);
  }
}

/** The lines of the published test, each alone, and strings with lone surrogates. */
async function tryStrings(table) {
  const rows = await (await fetch("strings.json")).json();
  const show = (found) => [...found].map(({ at, kind, rule }) => `${at} ${kind} ${rule}`);
  const wrong = rows.filter(([text, profile, wanted]) => {
    const positions = show(table.positions(text, { profile }));
    const breaks = show(table.breaks(text, { profile }));
    return positions.join(", ") !== wanted || breaks.join() !== positions.filter((it) => !it.includes(" no ")).join();
  });
  equal(`positions and breaks of ${rows.length} strings are those of the C library`, wrong.slice(0, 3), []);
}

/** Fifty times a text that ends with its last line has fifty times its breaks. */
async function tryPieces(table) {
  const [, , , file] = (await (await fetch("cases.json")).json()).find((row) => row[3].endsWith("latin"));
  const text = new TextDecoder().decode(await bytesOf(file));
  const once = table.breakColumns(text);
  const { at, kind } = table.breakColumns(text.repeat(50));
  const count = once.at.length;
  const isWrong = (place, k) => place !== Math.floor(k / count) * text.length + once.at[k % count]
    || kind[k] !== once.kind[k % count];
  equal("50 MB in pieces have the breaks that their parts have", [at.length, at.findIndex(isWrong)], [50 * count, -1]);
}

/** The shortest time of each action. They take turns for three seconds, as browsers compile better what runs long. */
function bestTimes(actions) {
  const best = actions.map(() => Infinity);
  for (const began = performance.now(); performance.now() - began < 3000; ) {
    actions.forEach((action, k) => {
      const start = performance.now();
      action();
      best[k] = Math.min(best[k], performance.now() - start);
    });
  }
  return best;
}

/** Goes over a text with the line iterator of ICU that Chromium has. */
function goWithIcu(text) {
  const iterator = new Intl.v8BreakIterator("en", { type: "line" });
  iterator.adoptText(text);
  iterator.first();
  while (iterator.next() >= 0);
}

/** The speed of columns, compared with the C library and with Chromium's ICU line iterator. Speeds are of UTF-8, in
 * MB/s. */
async function trySpeed(table) {
  for (const [name, file, whole, pieces] of await (await fetch("speed.json")).json()) {
    const bytes = await bytesOf(file);
    const text = new TextDecoder().decode(bytes);
    const actions = [() => table.breakColumns(bytes), () => table.breakColumns(text)];
    if (Intl.v8BreakIterator) actions.push(() => goWithIcu(text));
    const [ours, ofString, icu] = bestTimes(actions).map((time) => Math.round(bytes.length / time / 1000));
    const share = [whole, pieces].map((it) => `${(ours / it).toFixed(2)} of`);
    const ofBytes = `columns ${ours} MB/s, ${share[0]} lbk_breaks and ${share[1]} lbk_feed in C (${whole}, ${pieces})`;
    const beside = icu ? `, ICU ${icu}` : "";
    const isSlow = icu && 4 * ours < whole;
    say(`speed over ${name}: ${ofBytes}; of a string ${ofString}${beside}`, ofString <= icu ? "slower than ICU" : isSlow
      ? "less than a quarter" : "");
  }
}

/** How long the page takes until it shows its first text, at first and at best. With --speed Chromium has 100 ms. */
async function tryStart() {
  const isHeld = Intl.v8BreakIterator && (await (await fetch("speed.json")).json()).length > 0;
  const times = [];
  for (let k = 0; k < 16; k++) {
    const page = await openPage();
    times.push(Math.round(page.document.documentElement.dataset.readyAfter));
  }
  const best = Math.min(...times);
  say(`the page is ready ${times[0]} ms after it was asked for, ${best} at best of ${times.length}`,
    isHeld && best > 100 ? "over 100 ms" : "");
}

/** The pages in docs/javascript.md show the output below them. */
async function tryShown() {
  const wanted = await (await fetch("shown.json")).json();
  for (const [number, text] of wanted.entries()) {
    const frame = document.createElement("iframe");
    frame.src = `/shown/shown-${number}.html`;
    document.body.append(frame);
    const shows = () => frame.contentDocument?.body?.innerText.trim();
    await untilTrue(() => shows() === text.trim(), `what the docs show, but ${JSON.stringify(shows())}`).catch(() =>
      {});
    equal(`page ${number + 1} of the docs`, shows(), text.trim());
    frame.remove();
  }
}

try {
  await tryStart();
  const table = await load();
  await tryCases(table);
  await tryStrings(table);
  await tryPieces(table);
  await trySpeed(table);
  await tryPage(table);
  await tryLinks();
  await tryLetters();
  await tryColumns(table);
  await tryShown();
} catch (error) {
  say("the tests came to their end", String(error.stack ?? error));
}
await fetch("report", { method: "POST", body: JSON.stringify(results) });
