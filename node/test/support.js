// What the tests share: where things are, and what is said where something is not there.

import { spawnSync } from "node:child_process";
import { mkdirSync, mkdtempSync, readdirSync, readFileSync, rmSync, symlinkSync, writeFileSync } from "node:fs";
import { tmpdir } from "node:os";
import { join } from "node:path";
import { after } from "node:test";
import { fileURLToPath, pathToFileURL } from "node:url";
import { findParser, findProgram } from "../src/index.js";

export const PACKAGE = fileURLToPath(new URL("..", import.meta.url));
export const ROOT = fileURLToPath(new URL("../..", import.meta.url));

/** The options of a test that needs the parser. */
export const withParser = skipped(findParser().missing);

/** The options of a test that needs the parser and the program. */
export const withProgram = skipped(findParser().missing ?? noProgram());

function skipped(why) {
  return why ? { skip: `skipped: ${why}` } : {};
}

function noProgram() {
  const program = findProgram();
  const { status, error } = spawnSync(program, ["--version"]);
  if (status === 0) return undefined;
  const why = `${program} --version: ${error?.code ?? `status ${status}`}`;
  // A program that was named must be there.
  if (process.env.JSX_PRECOMPILE_BIN) throw new Error(why);
  return why;
}

/** The names of a folder's .jsx files, without their ending. */
export function sources(folder) {
  const names = readdirSync(folder).filter((name) => name.endsWith(".jsx"));
  return names.map((name) => name.slice(0, -".jsx".length)).sort();
}

export function source(folder, name) {
  return readFileSync(join(folder, `${name}.jsx`), "utf8");
}

/** A folder in which modules find this package by its name, as behind `npm install`; gone after the tests. */
export function workplace() {
  const folder = mkdtempSync(join(tmpdir(), "jsx-precompile-"));
  after(() => rmSync(folder, { recursive: true }));
  mkdirSync(join(folder, "node_modules"));
  symlinkSync(PACKAGE, join(folder, "node_modules", "jsx-precompile"));
  let count = 0;
  return {
    folder,
    /** Loads a module from its text. */
    load(text) {
      count += 1;
      const file = join(folder, `${count}.mjs`);
      writeFileSync(file, text);
      return import(pathToFileURL(file).href);
    },
  };
}
