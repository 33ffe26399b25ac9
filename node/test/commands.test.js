// The commands of the READMEs from .jsx to HTML, run as they stand; what they print is what is printed there.

import assert from "node:assert/strict";
import { spawnSync } from "node:child_process";
import { mkdirSync, readFileSync } from "node:fs";
import { join } from "node:path";
import test from "node:test";
import { PACKAGE, ROOT, withParser, withProgram } from "./support.js";

const BLOCK = /^```console\n(.*?)^```$/gms;

/** The blocks of commands that build a module, as pairs of a command and its output. */
function sessions(file) {
  const blocks = [...readFileSync(join(ROOT, file), "utf8").matchAll(BLOCK)].map(([, text]) => text);
  return blocks.filter((text) => text.includes("jsx-build.js")).map((text) => {
    const parts = text.split(/^\$ /m).slice(1).map((part) => part.match(/^([^\n]*)\n(.*)$/s).slice(1));
    return parts.map(([command, output]) => ({ command, output }));
  });
}

const all = [...sessions("node/README.md"), ...sessions("README.md")];

test("the commands from .jsx to HTML", withProgram, (t) => {
  mkdirSync(join(ROOT, "target"), { recursive: true });
  assert.ok(all.length > 0, "no commands");
  for (const { command, output } of all.flat()) {
    const { status, stdout, stderr } = spawnSync("sh", ["-c", command], { cwd: ROOT, encoding: "utf8" });
    assert.equal(status, 0, `${command}: ${stderr}`);
    assert.equal(stdout, output, command);
  }
  t.diagnostic(`${all.flat().length} commands printed what the READMEs say`);
});

function run(name, parameters, input = "") {
  const file = join(PACKAGE, "bin", name);
  return spawnSync(process.execPath, [file, ...parameters], { cwd: ROOT, input });
}

test("jsx-build: pages, messages and statuses", withParser, () => {
  const page = run("jsx-build.js", ["--page", "examples/worked.jsx"]);
  assert.equal(page.status, 0);
  assert.deepEqual(page.stdout, readFileSync(join(ROOT, "examples", "worked.page")));
  const rows = [
    [["--page", "-"], "a;\n<a.b-c/>", 1, /^-:2:4: .*refusal 5/],
    [["--page", "-"], "a = <p>", 1, /^-:1:8: Unexpected token\n$/],
    [["nowhere.jsx"], "", 1, /^nowhere\.jsx: ENOENT/],
    [[], "", 2, /^usage:/],
    [["a", "b"], "", 2, /^usage:/],
    [["--unknown", "a"], "", 2, /unknown[^]*usage:/],
  ];
  for (const [parameters, input, status, words] of rows) {
    const ran = run("jsx-build.js", parameters, input);
    assert.equal(ran.status, status, `${parameters}: ${ran.stderr}`);
    assert.match(ran.stderr.toString(), words);
    assert.equal(ran.stdout.length, 0);
  }
  const help = run("jsx-build.js", ["--help"]);
  assert.deepEqual([help.status, help.stderr.length], [0, 0]);
  assert.match(help.stdout.toString(), /^usage: jsx-build/);
});

test("jsx-build: a refusal of the program, and a note", withProgram, () => {
  const refused = run("jsx-build.js", ["-"], "a;\n  <><></></>");
  assert.equal(refused.status, 1);
  assert.match(refused.stderr.toString(), /^-:2:[35]: .*\b10\b/);
  const noted = run("jsx-build.js", ["--import-source", "preact", "-"], "do f(<a/>); while (<b/>);");
  assert.equal(noted.status, 0, `${noted.stderr}`);
  assert.match(noted.stderr.toString(), /^-:1:1: swc visits/);
  assert.match(noted.stdout.toString(), /from "preact\/jsx-runtime"/);
});

test("jsx-render: calls and messages", () => {
  assert.equal(run("jsx-render.js", []).status, 2);
  const module = join(PACKAGE, "test", "plain", "renderer.js");
  const none = run("jsx-render.js", [module, "nothing"]);
  assert.equal(none.status, 1);
  assert.match(none.stderr.toString(), /exports h, html, and no nothing/);
  assert.equal(run("jsx-render.js", [module, "html", `"<"`]).stdout.toString(), "&amp;lt;\n");
});
