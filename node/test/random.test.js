// Pages made from seeds render as plain calls do, in all 32 states. RENDER_SEEDS says how many, RENDER_SEEDS_FROM the first.

import assert from "node:assert/strict";
import test from "node:test";
import { build } from "../src/index.js";
import { render } from "../src/jsx-runtime.js";
import { html } from "./plain/renderer.js";
import { plain } from "./plain/transform.js";
import { pageOf } from "./random.js";
import { STATES } from "./states.js";
import { withProgram, workplace } from "./support.js";

const COUNT = Number(process.env.RENDER_SEEDS ?? 300);
const FROM = Number(process.env.RENDER_SEEDS_FROM ?? 1);
const { load } = workplace();

function seats(state) {
  return Object.fromEntries([..."abcde"].map((name, at) => [name, Boolean((state >> at) & 1)]));
}

test("pages from seeds: HTML as of plain calls", withProgram, async (t) => {
  let [bytes, distinct] = [0, 0];
  for (let seed = FROM; seed < FROM + COUNT; seed += 1) {
    const text = pageOf(seed);
    const printed = build(text, { importSource: "jsx-precompile" });
    const words = () => `seed ${seed}\n${text}\n${printed}`;
    const built = await load(printed).catch((error) => assert.fail(`${error}: ${words()}`));
    const called = await load(plain(text));
    const seen = new Set();
    for (const state of STATES) {
      const expected = html(called.Page(seats(state)));
      assert.equal(render(built.Page(seats(state))), expected, `state ${state}, ${words()}`);
      seen.add(expected);
      bytes += expected.length;
    }
    distinct += seen.size;
  }
  // Pages that look alike in all states would show little.
  assert.ok(distinct > 2 * COUNT, `${distinct} distinct`);
  t.diagnostic(`${COUNT} pages, ${COUNT * STATES.length} renderings alike, ${distinct} distinct, ${bytes} bytes of HTML`);
});
