#!/usr/bin/env node
// jsx-build FILE.jsx: the module as JavaScript on standard output.

import { readFileSync, writeFileSync } from "node:fs";
import { parseArgs } from "node:util";
import { build, toPage } from "../src/index.js";

const HELP = `usage: jsx-build [options] FILE.jsx|-

Writes the module as JavaScript to standard output: static HTML as templates, all else as calls.

  --import-source NAME    import the helpers from NAME/jsx-runtime (react)
  --skip-element NAME     leave elements of this name to the runtime; may be repeated
  --skip-attribute NAME   leave attributes of this name to the runtime; may be repeated
  --sums                  work out sums of whole numbers in braces: {2 * 12 + 3} is 27
  --page                  write the page's bytes instead (docs/FORMAT.md)
  --program PATH          the program jsx-precompile (else JSX_PRECOMPILE_BIN, else this repository's build)
  --help

Status: 0 done, 1 the module is refused, 2 a bad call.
`;

const OPTIONS = {
  "import-source": { type: "string" },
  "skip-element": { type: "string", multiple: true },
  "skip-attribute": { type: "string", multiple: true },
  sums: { type: "boolean" },
  page: { type: "boolean" },
  program: { type: "string" },
  help: { type: "boolean" },
};

function main() {
  const { values, positionals } = read();
  if (values.help) return end(0, HELP);
  if (positionals.length !== 1) return end(2, HELP);
  const [file] = positionals;
  try {
    writeFileSync(1, result(readFileSync(file === "-" ? 0 : file, "utf8"), values, file));
  } catch (error) {
    end(1, `${file}:${placed(error)}\n`);
  }
}

function read() {
  try {
    return parseArgs({ options: OPTIONS, allowPositionals: true });
  } catch (error) {
    return end(2, `${error.message}\n\n${HELP}`);
  }
}

function result(text, values, file) {
  if (values.page) return toPage(text);
  return build(text, {
    importSource: values["import-source"],
    skipElements: values["skip-element"],
    skipAttributes: values["skip-attribute"],
    sums: values.sums,
    program: values.program,
    onNote: (note) => process.stderr.write(`${file}:${note}\n`),
  });
}

// A message that begins with its place, where there is one.
function placed(error) {
  if (error.line) return error.message;
  if (!error.loc) return ` ${error.message}`;
  const { line, column } = error.loc;
  return `${line}:${column + 1}: ${error.message.replace(/ \(\d+:\d+\)$/, "")}`;
}

function end(status, words) {
  (status === 0 ? process.stdout : process.stderr).write(words);
  process.exit(status);
}

main();
