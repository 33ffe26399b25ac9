// What docs/FORMAT.md says of `key` and `ref`, and of HTML that is not that of plain JSX. Where the parser and the program
// are there, each row of these two tables is shown here.

import assert from "node:assert/strict";
import { readFileSync } from "node:fs";
import { join } from "node:path";
import test from "node:test";
import { build } from "../src/index.js";
import { render } from "../src/jsx-runtime.js";
import { html } from "./plain/renderer.js";
import { plain } from "./plain/transform.js";
import { ROOT, withProgram, workplace } from "./support.js";

const { load } = workplace();

/** How many rows a table of FORMAT.md has, by its section. */
function rowsOf(section) {
  const text = readFileSync(join(ROOT, "docs", "FORMAT.md"), "utf8").split("\n## ").find((part) => part.startsWith(section));
  return text.split("\n").filter((line) => line.startsWith("| ")).length - 1;
}

test("key and ref", withProgram, () => {
  // Written, on an element, on a component: what stands in the output; null: refused.
  const rows = [
    [`key="7"`, `_jsxAttr("key", "7")`, `_jsx(Foo, null, "7")`],
    ["key={x}", `_jsxAttr("key", x)`, "_jsx(Foo, null, x)"],
    [`key={"7"}`, `["<p key=\\"7\\"></p>"]`, `_jsx(Foo, null, "7")`],
    ["key", `_jsxAttr("key", true)`, "_jsx(Foo, { key: true })"],
    ["key={x} key={y}", null, "_jsx(Foo, null, y)"],
    [`ref="7"`, `_jsxAttr("ref", "7")`, `_jsx(Foo, { ref: "7" })`],
    [`ref={"7"}`, `["<p ref=\\"7\\"></p>"]`, `_jsx(Foo, { ref: "7" })`],
  ];
  for (const [written, element, component] of rows) {
    if (element === null) assert.throws(() => build(`<p ${written}/>`), /: 16 \(/, written);
    const printed = build(element === null ? `<Foo ${written}/>` : `<p ${written}/>; <Foo ${written}/>`);
    for (const part of [element ?? "", component]) assert.ok(printed.includes(part), `${written}: ${part} in ${printed}`);
  }
  assert.equal(rows.length, rowsOf("`key` and `ref`"));
  const capital = build("<p KEY={x}/>; <Foo KEY={x}/>; <p {...a} KEY={x}/>");
  for (const part of [`_jsxAttr("key", x)`, "_jsx(Foo, { KEY: x })", `_jsx("p", { ...a }, x)`]) assert.ok(capital.includes(part), capital);
});

test("HTML that is not that of plain JSX", withProgram, async () => {
  // Written, here, plain.
  const rows = [
    ["<p>Hi </p>", "<p>Hi</p>", "<p>Hi </p>"],
    ["<p>Hi \n<b/></p>", "<p>Hi <b></b></p>", "<p>Hi<b></b></p>"],
    [`<Foo>a{"<"}<i/></Foo>`, "a&amp;lt;<i></i>", "a&lt;<i></i>"],
    [`<p key={"7"} ref={7}/>`, `<p key="7" ref="7"></p>`, "<p></p>"],
    ["<p b={-0}/>", `<p b="-0"></p>`, `<p b="0"></p>`],
    [`<i disabled={f("")}/>`, "<i></i>", `<i disabled=""></i>`],
    [`<Foo a="x\n  y"/>`, "x y", "x\n  y"],
    ["<p>\n\u00a0\n</p>", "<p></p>", "<p>\u00a0</p>"],
  ];
  const module = (tag) => `const f = (x) => x;\nconst Foo = ({ a, children }) => [a, children];\nexport const page = ${tag};\n`;
  for (const [tag, here, elsewhere] of rows) {
    const text = module(tag);
    assert.equal(render((await load(build(text, { importSource: "jsx-precompile" }))).page), here, tag);
    assert.equal(html((await load(plain(text))).page), elsewhere, tag);
  }
  assert.equal(rows.length, rowsOf("Where the HTML is not"));
});
