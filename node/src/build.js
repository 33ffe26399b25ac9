// JSX in, JavaScript out, through the program `jsx-precompile`.

import { spawnSync } from "node:child_process";
import { statSync } from "node:fs";
import { fileURLToPath } from "node:url";
import { readModule } from "./page.js";

const NAME = "jsx-precompile";
const VARIABLE = "JSX_PRECOMPILE_BIN";
const OWN = ["release", "debug"].map((kind) => fileURLToPath(new URL(`../../host/target/${kind}/${NAME}`, import.meta.url)));
// The program's status for a page that is refused.
const REFUSED = 1;
// Outputs are at most 512 times their page.
const MAX_OUTPUT = 64 * 1024 * 1024;

/** The program refused the page; the message has its words, behind the line and column that its byte is from. */
export class RefusedError extends Error {
  constructor(words, places) {
    const byte = Number(words.match(/\bbyte (\d+)/)?.[1]);
    const { line, column } = places.findLast(({ at }) => at <= byte) ?? {};
    super(line ? `${line}:${column}: ${words}` : words);
    Object.assign(this, { name: "RefusedError", line, column });
  }
}

/** The program's path: what the variable JSX_PRECOMPILE_BIN says, else this repository's last build, else by its name. */
export function findProgram() {
  const time = (path) => statSync(path, { throwIfNoEntry: false })?.mtimeMs ?? 0;
  const [newest] = OWN.filter(time).sort((one, other) => time(other) - time(one));
  return process.env[VARIABLE] ?? newest ?? NAME;
}

/**
 * A module with JSX as a module of JavaScript. Options: `importSource`, `skipElements`, `skipAttributes`, `sums`
 * (docs/FORMAT.md), `program` (its path), `parserPlugins` (more of Babel's), `onNote` (called with each note on the module).
 */
export function build(text, options = {}) {
  const { program = findProgram(), parserPlugins, onNote = () => {} } = options;
  const { page, prologue, places, notes } = readModule(text, { runnable: true, parserPlugins });
  notes.forEach(onNote);
  return prologue + run(program, ["build", ...flags(options), "-"], page, places);
}

function flags({ importSource, skipElements = [], skipAttributes = [], sums = false }) {
  const source = importSource === undefined ? [] : ["--import-source", importSource];
  const elements = skipElements.flatMap((name) => ["--skip-element", name]);
  const attributes = skipAttributes.flatMap((name) => ["--skip-attribute", name]);
  return [...source, ...elements, ...attributes, ...(sums ? ["--sums"] : [])];
}

function run(program, parameters, input, places) {
  const { error, status, signal, stdout, stderr } = spawnSync(program, parameters, { input, maxBuffer: MAX_OUTPUT });
  if (error?.code === "ENOENT") {
    throw new Error(`${program}: no such program; build it (host/README.md), or say where it is in ${VARIABLE}`);
  }
  if (error) throw error;
  const words = stderr.toString().trimEnd();
  if (status === REFUSED) throw new RefusedError(words, places);
  if (status !== 0) throw new Error(`${program} ended with ${signal ?? status}: ${words}`);
  return stdout.toString();
}
