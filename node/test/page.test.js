// The kind that each part of a module's text gets, and what is refused before the library is asked.

import assert from "node:assert/strict";
import test from "node:test";
import { PageError, toPage } from "../src/index.js";
import { readModule } from "../src/page.js";
import { withParser } from "./support.js";
import { tree } from "./tree.js";

/** The fields of `<a b={...}/>`'s expression. */
function expression(text) {
  const whole = tree(toPage(`<a b={${text}}/>`));
  const [, inside] = whole.match(/^12\(30\(40"a" 50\(40"b" 52\((.*)\)\)\)\)$/s);
  return inside;
}

function items(text) {
  return tree(toPage(text));
}

test("expressions have the kinds that swc gives them", withParser, () => {
  const rows = [
    [`"x"`, `70"x"`],
    [`'\\u00e9\\n'`, `70"é\\n"`],
    [`("x")`, `79(20"(\\"x\\")")`],
    ["`x`", "79(20\"`x`\")"],
    [`"\\ud800"`, `79(20"\\"\\\\ud800\\"")`],
    [`"\\ud83d\\ude00"`, `70"😀"`],
    ["12", "71=12"],
    ["0x10", "71=16"],
    ["1e3", "71=1000"],
    ["1_000", "71=1000"],
    ["2.0", "71=2"],
    ["9007199254740991", "71=9007199254740991"],
    ["9007199254740992", `79(20"9007199254740992")`],
    ["12.5", "7a=125/1"],
    ["12.50", "7a=125/1"],
    ["0.05", "7a=5/2"],
    [".5", "7a=5/1"],
    ["1.25e1", "7a=125/1"],
    ["5e-3", "7a=5/3"],
    ["1_000.25", "7a=100025/2"],
    ["99999999999999.9", "7a=999999999999999/1"],
    ["0.999999999999999", "7a=999999999999999/15"],
    ["0.000001", "7a=1/6"],
    ["0.000001000000001", "7a=1000000001/15"],
    // sixteen digits or places, and what JavaScript prints with an exponent
    ["100000000000000.1", `79(20"100000000000000.1")`],
    ["0.9999999999999999", `79(20"0.9999999999999999")`],
    ["0.0000010000000001", `79(20"0.0000010000000001")`],
    ["0.0000001", `79(20"0.0000001")`],
    ["1e-7", `79(20"1e-7")`],
    ["1e400", `79(20"1e400")`],
    // two spellings of one number
    ["0.1000000000000000055511151231257827", "7a=1/1"],
    ["(12.5)", `79(20"(12.5)")`],
    ["(1)", `79(20"(1)")`],
    ["-0", "75=0"],
    ["- 7", "75=7"],
    ["-(7)", `79(20"-(7)")`],
    ["-7.5", "7b=75/1"],
    ["- 0.05", "7b=5/2"],
    ["-1e-7", `79(20"-1e-7")`],
    ["-(7.5)", `79(20"-(7.5)")`],
    ["- -7.5", `79(20"- -7.5")`],
    ["+7.5", `79(20"+7.5")`],
    ["-7n", `79(20"-7n")`],
    ["+7", `79(20"+7")`],
    ["true", "72=1"],
    ["false", "72=0"],
    ["!0", `79(20"!0")`],
    ["null", "73"],
    ["undefined", `79(20"undefined")`],
    ["7n", `74"7n"`],
    ["/a[/]b/g", `74"/a[/]b/g"`],
    ["[]", "76()"],
    ["[1, , ...a, [x]]", `76(71=1 78 77(79(20"a")) 76(79(20"x")))`],
    ["[a, ,]", `76(79(20"a") 78)`],
    ["<i/>", `30(40"i")`],
    ["<></>", "31()"],
    ["(<i/>)", `79(20"(" 30(40"i") 20")")`],
    ["a && <i/> || <></>", `79(20"a && " 30(40"i") 20" || " 31())`],
    ["a /* note */", `79(20"a")`],
    ["a /* note */ + b", `79(20"a /* note */ + b")`],
    ["(a, b)", `79(20"(a, b)")`],
    ["{ x: 1 }", `79(20"{ x: 1 }")`],
  ];
  for (const [text, fields] of rows) assert.equal(expression(text), fields, text);
});

test("items have the kinds that swc gives them", withParser, () => {
  const rows = [
    ["export const a = 1;", `10(20"export const a = 1;")`],
    ["export function f() {}", `10(20"export function f() {}")`],
    ["export class A {}", `10(20"export class A {}")`],
    ["export default function () {}", `10(20"export default function () {}")`],
    ["export default class {}", `10(20"export default class {}")`],
    ["export default async function f() {}", `10(20"export default async function f() {}")`],
    ["export default () => 1;", `11(20"export default () => 1;")`],
    ["export default (function () {});", `11(20"export default (function () {});")`],
    ["export default <p/>;", `11(20"export default " 30(40"p") 20";")`],
    ["const a = 1; export { a };", `12(20"const a = 1;") 11(20"export { a };")`],
    [`export * from "a";`, `11(20"export * from \\"a\\";")`],
    [`export { a } from "a";`, `11(20"export { a } from \\"a\\";")`],
    [`import "a"`, `11(20"import \\"a\\"")`],
    [";", "13"],
    ["f();;", `12(20"f();") 13`],
    ["// one\nf(/* two */) // three\n/* four */ g();", `12(20"f(/* two */)") 12(20"g();")`],
    [`"use strict"; f();`, `12(20"\\"use strict\\";") 12(20"f();")`],
    ["#!/usr/bin/env node\nf();", `12(20"f();")`],
    ["\uFEFFf();", `12(20"f();")`],
    ["", ""],
  ];
  for (const [text, fields] of rows) assert.equal(items(text), fields, text);
});

test("elements, attributes and children", withParser, () => {
  const rows = [
    ["<a.b.c/>", `30(41(40"a" 40"b" 40"c"))`],
    ["<this.b/>", `30(41(40"this" 40"b"))`],
    ["<a:b c:d='e'/>", `30(42(40"a" 40"b") 50(42(40"c" 40"d") 51"e"))`],
    ["<a-b c-d/>", `30(40"a-b" 50(40"c-d"))`],
    ["<a b='&quot;&lt;&#65;&#x42;&nbsp;&unknown;&'/>", `30(40"a" 50(40"b" 51"\\"<AB\u00a0&unknown;&"))`],
    ["<a b='\\n'/>", `30(40"a" 50(40"b" 51"\\\\n"))`],
    ["<a b='one\n  two'/>", `30(40"a" 50(40"b" 51"one\\n  two"))`],
    ["<a b=<i/> c=<></>/>", `30(40"a" 50(40"b" 30(40"i")) 50(40"c" 31()))`],
    ["<a {...b} {...<i/>}/>", `30(40"a" 53(79(20"b")) 53(30(40"i")))`],
    ["<a>one &amp; two\n</a>", `30(40"a" 60"one & two\\n")`],
    ["<a> {b} {} {/* c */}{...d}</a>", `30(40"a" 60" " 52(79(20"b")) 60" " 52() 60" " 52() 61(79(20"d")))`],
    ["<><i/>x</>", `31(30(40"i") 60"x")`],
    ["<a>&#xd800;</a>", `30(40"a" 60"\uFFFD")`],
  ];
  for (const [text, fields] of rows) assert.equal(items(text), `12(${fields})`, text);
});

test("source beside a tag is as written", withParser, () => {
  assert.equal(items("function f() { return<p/> }"), `12(20"function f() { return" 30(40"p") 20" }")`);
  assert.equal(items("<></>in a"), `12(31() 20"in a")`);
  assert.equal(items("a( <p/> )"), `12(20"a( " 30(40"p") 20" )")`);
});

test("tags in a piece stand in the source's order; where swc's is another, a note says so", withParser, () => {
  const rows = [
    ["f(<a/>, <b/>) ? <c/> : `${<d/>}`", "abcd", false],
    ["for (<a/>; <b/>; <c/>) f(<d/>);", "abcd", false],
    ["if (<a/>) f(<b/>); else f(<c/>);", "abc", false],
    ["switch (<a/>) { case <b/>: f(<c/>); default: f(<d/>) }", "abcd", false],
    ["try { f(<a/>) } catch ({ a = <b/> }) { f(<c/>) } finally { f(<d/>) }", "abcd", false],
    ["const { [<a/>]: b = <b/>, ...c } = <c/>;", "abc", false],
    ["const o = { a: <a/>, [<b/>]: 1, get c() { return <c/> }, d(e = <d/>) { f(<e/>) } };", "abcde", false],
    ["class A { [<a/>] = <b/>; static { f(<c/>) } d(e = <d/>) { f(<e/>) } }", "abcde", false],
    ["do f(<a/>); while (<b/>);", "ab", true],
    ["do f(); while (<a/>);", "a", false],
    ["class A extends f(<a/>) { b = <b/> }", "ab", true],
    ["const A = class extends f(<a/>) { b = <b/> };", "ab", true],
    ["class A extends f(<a/>) { b = 1 }", "a", false],
  ];
  for (const [text, letters, noted] of rows) {
    const { page, notes } = readModule(text);
    assert.equal([...tree(page).matchAll(/30\(40"(.)"\)/g)].map(([, letter]) => letter).join(""), letters, text);
    assert.equal(notes.length, noted ? 1 : 0, `${text}: ${notes}`);
  }
});

test("a first line for the shell is no part of the page", withParser, () => {
  const { page, prologue } = readModule(`#!/usr/bin/env node\n"use client";\nf();`);
  assert.equal(prologue, "#!/usr/bin/env node\n");
  assert.equal(tree(page), `12(20"\\"use client\\";") 12(20"f();")`);
});

test("templates are declared before an export that calls them", withParser, () => {
  const rows = [
    ["export default <p/>; f();", `12() 11(20"export default " 30(40"p") 20";") 12(20"f();")`],
    [`import "a"; export default <p/>`, `11(20"import \\"a\\";") 12() 11(20"export default " 30(40"p"))`],
    ["f(); export default <p/>", `12(20"f();") 11(20"export default " 30(40"p"))`],
    ["export default 1; f(<p/>);", `11(20"export default 1;") 12(20"f(" 30(40"p") 20");")`],
  ];
  for (const [text, fields] of rows) assert.equal(tree(readModule(text, { runnable: true }).page), fields, text);
});

test("refused with a place before the library is asked", withParser, () => {
  const nested = (count) => `a;\n${"<i>".repeat(count)}${"</i>".repeat(count)}`;
  const rows = [
    ["a;\n <\u00e9/>", 5, "2:3"],
    [`<${"n".repeat(129)}/>`, 5, "1:2"],
    ["<a.b-c/>", 5, "1:4"],
    ["<a.a.a.a.a.a.a.a.a/>", 4, "1:2"],
    [nested(46), 8, "2:137"],
    [`a;\nb("${"c".repeat(32_768)}");`, 2, "2:1"],
    [`a;\nb("${"c".repeat(65_536)}");`, 2, "2:1"],
  ];
  for (const [text, number, place] of rows) {
    assert.throws(() => toPage(text), (error) => {
      assert.ok(error instanceof PageError, `${error}`);
      assert.equal(`${error.line}:${error.column}`, place, error.message);
      assert.equal(error.number, number, error.message);
      return true;
    });
  }
  for (const text of [nested(45), `<${"n".repeat(128)}/>`, "<a.a.a.a.a.a.a.a/>"]) toPage(text);
  assert.throws(() => toPage("a = <p>"), SyntaxError);
});

test("a page of the greatest length is taken, one byte more is not", withParser, () => {
  const text = (bytes) => `f("${"x".repeat(bytes - 9 - `f("");`.length)}");`;
  assert.equal(toPage(text(32_768)).length, 32_768);
  assert.throws(() => toPage(text(32_769)), /32769 bytes.*refusal 2/);
});
