// The printed module runs, and renders what plain calls render, with five seats free and taken in all 32 ways.

import assert from "node:assert/strict";
import { join } from "node:path";
import test from "node:test";
import { findParser } from "../src/babel.js";
import { build, RefusedError } from "../src/index.js";
import { render } from "../src/jsx-runtime.js";
import { html } from "./plain/renderer.js";
import { plain } from "./plain/transform.js";
import { RENDERED, STATES } from "./states.js";
import { ROOT, source, sources, withProgram, workplace } from "./support.js";

const EXAMPLES = join(ROOT, "examples");
const OWN = { importSource: "jsx-precompile" };
const { load } = workplace();

for (const { name, text, exported, props, distinct = STATES.length } of RENDERED) {
  test(`${name}: HTML as of plain calls`, withProgram, async (t) => {
    const built = (await load(build(text, OWN)))[exported];
    const called = (await load(plain(text)))[exported];
    const seen = new Set();
    for (const state of STATES) {
      const expected = html(called(props(state)));
      assert.equal(render(built(props(state))), expected, `${name}, state ${state}`);
      seen.add(expected);
    }
    assert.equal(seen.size, distinct, "states that look alike");
    t.diagnostic(`${name}: ${STATES.length} states, ${seen.size} of them distinct`);
  });
}

test("every example is printed as a module without JSX, or refused", withProgram, (t) => {
  const refused = [];
  const names = sources(EXAMPLES);
  for (const name of names) {
    try {
      findParser().parse(build(source(EXAMPLES, name)), { sourceType: "module" });
    } catch (error) {
      if (!(error instanceof RefusedError)) throw new Error(`examples/${name}.jsx: ${error.message}`);
      refused.push(name);
    }
  }
  assert.deepEqual(refused, ["k7-left", "mixed-case", "twice"]);
  t.diagnostic(`${names.length - refused.length} examples are printed and parse`);
});

test("what must stay in front does", withProgram, async () => {
  const printed = build(`#!/usr/bin/env node\n"use client";\nimport "node:fs";\nexport const a = <p/>;\n`, OWN);
  assert.ok(printed.startsWith(`#!/usr/bin/env node\n"use client";\nimport { jsxTemplate`), printed);
  assert.equal(render((await load(printed)).a), "<p></p>");
});

test("a template is declared before the export that calls it", withProgram, async () => {
  const { default: page } = await load(build("export default <p>Hi</p>;\nexport const n = 1;\n", OWN));
  assert.equal(render(page), "<p>Hi</p>");
});

test("names of the output may be the module's own", withProgram, async () => {
  const text = "const _jsxTemplate = 7, $$_tpl_1 = 8;\nexport const a = <p title={$$_tpl_1}>{_jsxTemplate}</p>;\n";
  assert.equal(render((await load(build(text, OWN))).a), `<p title="8">7</p>`);
});

test("a refusal of the program is an error of its own", withProgram, () => {
  assert.throws(() => build("a;\n\n  <><></></>;"), (error) => {
    assert.ok(error instanceof RefusedError);
    // The fragment that is left, or the one in it.
    assert.match(`${error.line}:${error.column}`, /^3:[35]$/);
    assert.match(error.message, /^3:[35]: .*\b10\b/);
    return true;
  });
  const twice = /^2:3: .*\b16 \(attribute twice\): the attributes `class` and `className` are one in HTML$/;
  assert.throws(() => build(`a;\n  <p class="a" className="b"/>;`), (error) => error instanceof RefusedError && twice.test(error.message));
  assert.throws(() => build("<p><bR/></p>"), /\b19 \(mixed case\): `bR` is a void element in HTML; write `br`$/);
  assert.throws(() => build("<p/>", { program: "/nowhere/jsx-precompile" }), /no such program/);
});

test("options reach the program", withProgram, () => {
  const printed = build(`<p class="a"><b/></p>`, { importSource: "own", skipElements: ["b", "i"], skipAttributes: ["class", "id"] });
  assert.match(printed, /from "own\/jsx-runtime"/);
  assert.match(printed, /_jsx\("b", null\)/);
  assert.match(printed, /_jsxAttr\("class", "a"\)/);
  assert.match(build("<td>{2 * 12 + 3} seats</td>", { sums: true }), /<td>27 seats<\/td>/);
  assert.match(build("<td>{2 * 12 + 3} seats</td>"), /_jsxEscape\(2 \* 12 \+ 3\)/);
});
