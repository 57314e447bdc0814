// What needs no module: where bytes come from, and what the types refuse.
import assert from "node:assert/strict";
import { readFileSync } from "node:fs";
import { createServer } from "node:http";
import { relative } from "node:path";
import { test } from "node:test";
import { fileURLToPath } from "node:url";
import { bytesAt } from "../local_files.js";
import { bytesOf } from "../module_memory.js";

const OWN = fileURLToPath(import.meta.url);

test("a string with a scheme is a URL", async () => {
  const server = createServer((request, response) => response.end(`from ${request.url}`));
  await new Promise((done) => server.listen(0, "127.0.0.1", done));
  const address = `http://127.0.0.1:${server.address().port}/a`;
  try {
    for (const source of [address, address.replace("http", "HTTP"), new URL(address), await fetch(address)]) {
      assert.equal(new TextDecoder().decode(await bytesOf(source)), "from /a");
    }
    assert.equal(bytesAt(address), undefined);
  } finally {
    server.close();
    server.closeAllConnections();
  }
});

test("a URL of a file, and a string without a scheme, are paths", async () => {
  for (const source of [OWN, relative("", OWN), import.meta.url, new URL(import.meta.url)]) {
    assert.deepEqual(Buffer.from(await bytesOf(source)), readFileSync(OWN));
  }
  for (const absent of ["c:/absent", "ab:absent", "absent://"]) {
    await assert.rejects(bytesOf(absent), absent.endsWith("//") ? TypeError : { code: "ENOENT" });
  }
});

test("the types have no constructor where there is none to call", async () => {
  for (const [file, name] of [["lbk", "Table"], ["words", "Words"]]) {
    const types = readFileSync(new URL(`../${file}.d.ts`, import.meta.url), "utf8");
    assert.ok(types.includes(`export class ${name} {\n  private constructor();\n`), name);
    const { [name]: made } = await import(`../${file}.js`);
    assert.throws(() => new made());
  }
});
