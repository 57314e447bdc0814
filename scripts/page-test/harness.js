/** What the tests in a browser share: their results, and the page in a frame. */

export const results = [];

export function say(what, fault = "") {
  results.push([what, fault]);
}

export function equal(what, found, wanted) {
  const [one, other] = [JSON.stringify(found), JSON.stringify(wanted)];
  say(what, one === other ? "" : `${one}, and not ${other}`);
}

export function matches(what, found, wanted) {
  say(what, wanted.test(found) ? "" : `${JSON.stringify(found)}, which is not as ${wanted}`);
}

export async function untilTrue(holds, what) {
  for (let k = 0; k < 200; k++) {
    if (holds()) return;
    await new Promise((done) => setTimeout(done, 25));
  }
  throw new Error(`${what} did not come within 5 s`);
}

export async function openPage(fragment = "", width = 900) {
  document.querySelector("iframe")?.remove();
  const frame = document.createElement("iframe");
  frame.style.cssText = `width: ${width}px; height: 900px`;
  frame.src = `/page/index.html${fragment}`;
  document.body.append(frame);
  const faults = [];
  await new Promise((done) => frame.addEventListener("load", done, { once: true }));
  frame.contentWindow.addEventListener("error", (event) => faults.push(event.message));
  await untilTrue(() => frame.contentDocument.documentElement.dataset.ready === "yes", "the page");
  return { window: frame.contentWindow, document: frame.contentDocument, faults,
    find: (id) => frame.contentDocument.getElementById(id) };
}

/** Gives a page a text by a link, which keeps CR. */
export async function follow(page, text) {
  const told = new Promise((done) => page.window.addEventListener("hashchange", done, { once: true }));
  page.window.location.hash = `#${new URLSearchParams({ text })}`;
  await told;
}

export function write(page, text) {
  page.find("text").value = text;
  page.find("text").dispatchEvent(new page.window.Event("input"));
}

export function change(page, id, value, event = "change") {
  page.find(id).value = value;
  page.find(id).dispatchEvent(new page.window.Event(event));
}

export function press(page, key) {
  page.find("positions").dispatchEvent(new page.window.KeyboardEvent("keydown",
    { key, bubbles: true, cancelable: true }));
}

export function signs(page) {
  return [...page.document.querySelectorAll(".position")].map((it) => it.textContent).join("");
}
