// The runtime's helpers, one by one.

import assert from "node:assert/strict";
import test from "node:test";
import { Fragment, jsx, jsxAttr, jsxEscape, jsxTemplate, render } from "../src/jsx-runtime.js";

test("jsxAttr: texts, numbers and booleans", () => {
  const rows = [
    ["title", `"A" & <b>'s`, `title="&quot;A&quot; &amp; &lt;b&gt;&#39;s"`],
    ["tabindex", 0, `tabindex="0"`],
    ["title", "", `title=""`],
    ["hidden", true, "hidden"],
    ["hidden", false, ""],
    ["title", null, ""],
    ["title", undefined, ""],
    ["onclick", () => {}, ""],
    ["aria-checked", false, `aria-checked="false"`],
    ["data-wide", true, `data-wide="true"`],
    ["className", "a", `class="a"`],
    ["style", { fontSize: "2em", color: null, top: 0 }, `style="font-size:2em;top:0"`],
    ["style", "top:0", `style="top:0"`],
    ["key", "7", ""],
    ["ref", "7", ""],
    [`a"><script`, "x", ""],
  ];
  for (const [name, value, text] of rows) assert.equal(jsxAttr(name, value), text, name);
});

test("jsxEscape: texts are escaped once, children stay", () => {
  assert.equal(jsxEscape("<&>"), "&lt;&amp;&gt;");
  assert.equal(jsxEscape(12.5), "12.5");
  assert.equal(jsxEscape(7n), "7");
  for (const nothing of [null, undefined, true, false, () => {}]) assert.equal(jsxEscape(nothing), null);
  assert.equal(render(jsxTemplate(["<p>", "</p>"], jsxEscape(["<", jsx("b", null), [1]]))), "<p>&lt;<b></b>1</p>");
});

test("jsxTemplate: an attribute that falls away leaves no space, a text keeps its own", () => {
  assert.equal(render(jsxTemplate(["<p ", "></p>"], jsxAttr("hidden", false))), "<p></p>");
  assert.equal(render(jsxTemplate(["<i ", " ", ">a</i>"], "", "disabled")), "<i disabled>a</i>");
  assert.equal(render(jsxTemplate(["<p>Hi ", "</p>"], jsxEscape(""))), "<p>Hi </p>");
  assert.equal(render(jsxTemplate(["Hi ", "!"], null)), "Hi !");
  assert.equal(render(jsxTemplate(["<p>", "</p>"], 7n)), "<p>7</p>");
  assert.throws(() => jsxTemplate(["<p>", "</p>"]), /0 expressions for a template of 2 strings/);
});

test("jsx: elements and components", () => {
  const Hall = ({ name, children }) => jsx("section", { id: name, children });
  assert.equal(render(jsx(Hall, { name: "A", children: ["<", jsx("br", { class: "x" })] })), `<section id="A">&lt;<br class="x"></section>`);
  assert.equal(render(jsx(Fragment, { children: [1, null, "a"] })), "1a");
  assert.equal(render(jsx("div", { dangerouslySetInnerHTML: { __html: "<b>" } })), "<div><b></div>");
  assert.equal(render(jsx("p", null, "key")), "<p></p>");
  assert.throws(() => render({}), TypeError);
});

test("jsx: a component that is not rendered is not called", () => {
  const Never = () => assert.fail("called");
  assert.equal(render(jsx(() => "a", { icon: jsx(Never, null) })), "a");
});
