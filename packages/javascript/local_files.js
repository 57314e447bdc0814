// Local files, in Node.
import { readFile } from "node:fs/promises";
import { fileURLToPath } from "node:url";

/** The path that a string or a URL names, if it is a local one. A string with a scheme, as "https://", is a URL. */
function pathOf(source) {
  if (source instanceof URL || /^[a-z][a-z\d+.-]+:\/\//i.test(source)) {
    return new URL(source).protocol === "file:" ? fileURLToPath(source) : undefined;
  }
  return typeof source === "string" ? source : undefined;
}

/** The bytes of a local file. Returns nothing for another source. */
export function bytesAt(source) {
  const path = pathOf(source);
  return path === undefined ? undefined : readFile(path);
}
