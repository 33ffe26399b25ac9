// Babel's parser: of npm (`@babel/parser`), or of Debian, where the package node-babel7-standalone has it inside.

import { createRequire } from "node:module";

// Debian's own node looks here by itself, others do not.
const DEBIAN = "/usr/share/nodejs/";

const PARSER = "@babel/parser";
const STANDALONE = "@babel/standalone";

let found;

/** The parser, as `{ parse, name, version }`; where there is none, `{ missing }` with the reason. */
export function findParser() {
  found ??= look();
  return found;
}

const require = createRequire(import.meta.url);

function look() {
  for (const [name, parseOf] of [[PARSER, (parser) => parser.parse], [STANDALONE, parseInside]]) {
    for (const place of [name, DEBIAN + name]) {
      const loaded = load(place);
      if (loaded) return { parse: parseOf(loaded), name, version: require(`${place}/package.json`).version };
    }
  }
  return { missing: `neither ${PARSER} nor ${STANDALONE} is installed (tools/setup.sh installs Debian's)` };
}

function load(place) {
  try {
    return require(place);
  } catch (error) {
    if (error.code === "MODULE_NOT_FOUND") return undefined;
    throw error;
  }
}

// The standalone build does not hand out its parser, but a plugin may replace it and is given it for that.
function parseInside(standalone) {
  let inside;
  const plugin = () => ({
    parserOverride(text, options, parse) {
      inside = parse;
      return parse(text, options);
    },
  });
  standalone.transform("", { plugins: [plugin], babelrc: false, configFile: false });
  return inside;
}
