// The examples of docs/FORMAT.md: each `jsx` gives its `page`, and through the program its `js`. With FORMAT_WRITE=1 both
// are written anew, as far as the parser and the program are there; host/tests/format.rs has the rest.

import assert from "node:assert/strict";
import { readFileSync, writeFileSync } from "node:fs";
import { join } from "node:path";
import test from "node:test";
import { build, toPage } from "../src/index.js";
import { ROOT, withParser, withProgram } from "./support.js";

const FILE = join(ROOT, "docs", "FORMAT.md");
const WRITES = process.env.FORMAT_WRITE === "1";
// The columns of an example: its keys, and the whole.
const KEY = 11;
const LINE = 118;

const BLOCK = /^```page\n(.*?)^```$/gms;

function rows(block) {
  const found = [];
  for (const line of block.trimEnd().split("\n")) {
    const key = line.slice(0, KEY).trim();
    if (key) found.push([key, [line.slice(KEY)]]);
    else found.at(-1)[1].push(line.slice(KEY));
  }
  return new Map(found);
}

function examples() {
  return [...readFileSync(FILE, "utf8").matchAll(BLOCK)].map(([, block]) => rows(block)).filter((example) => example.has("jsx"));
}

function source(example) {
  return example.get("jsx").join("\n");
}

function bytes(example, key) {
  return (example.get(key) ?? []).join("").replace(/[ -]/g, "");
}

// The options field by field: 02 and 03 hold a 20 for each name, 04 is text, 05 is there or not.
function options(example) {
  const read = (all) => {
    const found = [];
    for (let at = 0; at < all.length; at += 3 + all.readUInt16BE(at + 1)) {
      found.push([all[at], all.subarray(at + 3, at + 3 + all.readUInt16BE(at + 1))]);
    }
    return found;
  };
  const all = new Map(read(Buffer.from(bytes(example, "options"), "hex")));
  const names = (tag) => read(all.get(tag) ?? Buffer.alloc(0)).map(([, name]) => name.toString());
  return { skipElements: names(0x02), skipAttributes: names(0x03), importSource: all.get(0x04)?.toString(), sums: all.has(0x05) };
}

function javascript(example) {
  return build(source(example), options(example)).trimEnd().split("\n");
}

if (WRITES && !withParser.skip) {
  const written = readFileSync(FILE, "utf8").replace(BLOCK, (_, block) => {
    const example = rows(block);
    if (example.has("jsx")) example.set("page", wrapped(spaced(toPage(source(example)))));
    if (example.has("js") && !withProgram.skip) example.set("js", javascript(example));
    const lines = [...example].flatMap(([key, values]) => values.map((value, at) => ((at === 0 ? key : "").padEnd(KEY) + value).trimEnd()));
    return ["```page", ...lines, "```"].join("\n");
  });
  writeFileSync(FILE, written);
}

// Bytes as hex, with a space behind each tag, length and body.
function spaced(page) {
  const inner = new Set([0x01, 0x10, 0x11, 0x12, 0x30, 0x31, 0x41, 0x42, 0x50, 0x52, 0x53, 0x61, 0x76, 0x77, 0x79]);
  const words = [];
  for (let at = 0; at < page.length; ) {
    const length = page.readUInt16BE(at + 1);
    words.push(page.toString("hex", at, at + 1), page.toString("hex", at + 1, at + 3));
    const body = inner.has(page[at]) ? 0 : length;
    if (body > 0) words.push(page.toString("hex", at + 3, at + 3 + body));
    at += 3 + body;
  }
  return words;
}

function wrapped(words) {
  return words.reduce((lines, word) => {
    const line = lines.pop();
    if (line === "") return [...lines, word];
    return KEY + line.length + 1 + word.length <= LINE ? [...lines, `${line} ${word}`] : [...lines, line, word];
  }, [""]);
}

test("the sources in FORMAT.md give their pages", withParser, (t) => {
  const all = examples();
  for (const example of all) assert.equal(toPage(source(example)).toString("hex"), bytes(example, "page"), source(example));
  assert.ok(all.length >= 10, `${all.length} examples`);
  t.diagnostic(`${all.length} sources of docs/FORMAT.md give their pages`);
});

test("the pages in FORMAT.md are printed as said", withProgram, (t) => {
  const all = examples().filter((example) => example.has("js"));
  for (const example of all) assert.deepEqual(javascript(example), example.get("js"), source(example));
  assert.ok(all.length >= 10, `${all.length} examples`);
  t.diagnostic(`${all.length} examples of docs/FORMAT.md are printed as said`);
});
