#!/usr/bin/env node
// jsx-render MODULE NAME [PROPS]: the HTML of what a module that jsx-build made exports.

import { register } from "node:module";
import { pathToFileURL } from "node:url";
import { render } from "../src/jsx-runtime.js";

const HELP = `usage: jsx-render MODULE.mjs NAME [PROPS]

Writes the HTML of the export NAME ("default" for the default one) to standard output. A function is called with PROPS,
an object in JSON. What the module imports as .../jsx-runtime is the runtime of this package.
`;

// The module may name any runtime: here it gets this one.
const HOOKS = `
  const own = ${JSON.stringify(new URL("../src/jsx-runtime.js", import.meta.url).href)};
  export async function resolve(name, context, next) {
    return name.endsWith("/jsx-runtime") ? { url: own, shortCircuit: true } : next(name, context);
  }
`;

const [file, name, props = "{}", ...more] = process.argv.slice(2);
if (file === "--help") {
  process.stdout.write(HELP);
} else if (name === undefined || more.length > 0) {
  process.stderr.write(HELP);
  process.exitCode = 2;
} else {
  register(`data:text/javascript,${encodeURIComponent(HOOKS)}`);
  const module = await import(pathToFileURL(file).href);
  if (!(name in module)) {
    process.stderr.write(`${file} exports ${Object.keys(module).join(", ") || "nothing"}, and no ${name}\n`);
    process.exit(1);
  }
  const exported = module[name];
  process.stdout.write(`${render(typeof exported === "function" ? exported(JSON.parse(props)) : exported)}\n`);
}
