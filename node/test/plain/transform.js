// The plain way, apart from all that is tested: each tag becomes a call of `h` where it stands, nothing is precompiled.

import { findParser } from "../../src/babel.js";

const RENDERER = new URL("./renderer.js", import.meta.url).href;

/** A module with JSX as one with calls of `h`, which it imports. */
export function plain(text) {
  const { program } = findParser().parse(text, { sourceType: "module", plugins: ["jsx"] });
  return `import { h } from ${JSON.stringify(RENDERER)};\n${replaced(program, text)}`;
}

// The source of a node, the tags in it replaced.
function replaced(node, text) {
  const tags = [];
  find(node, tags);
  tags.sort((one, other) => one.start - other.start);
  let [result, from] = ["", node.start];
  for (const tag of tags) {
    result += `${text.slice(from, tag.start)}(${call(tag, text)})`;
    from = tag.end;
  }
  return result + text.slice(from, node.end);
}

function find(value, tags) {
  if (value === null || typeof value !== "object") return;
  if (value.type === "JSXElement" || value.type === "JSXFragment") tags.push(value);
  else for (const [key, part] of Object.entries(value)) if (!/omments$|^loc$|^extra$/.test(key)) find(part, tags);
}

function call(node, text) {
  const children = node.children.map((child) => childText(child, text)).filter((child) => child !== "");
  if (node.type === "JSXFragment") return `h(null, null, [${children.join(", ")}])`;
  const { name, attributes } = node.openingElement;
  const props = attributes.map((attribute) => propText(attribute, text));
  const written = text.slice(name.start, name.end);
  const isTag = name.type !== "JSXMemberExpression" && !/^[A-Z]/.test(written);
  return `h(${isTag ? JSON.stringify(written) : written}, { ${props.join(", ")} }, [${children.join(", ")}])`;
}

function propText(node, text) {
  if (node.type === "JSXSpreadAttribute") return `...(${replaced(node.argument, text)})`;
  const name = JSON.stringify(text.slice(node.name.start, node.name.end));
  if (node.value === null) return `${name}: true`;
  if (node.value.type === "StringLiteral") return `${name}: ${JSON.stringify(node.value.value)}`;
  return `${name}: (${replaced(node.value.expression, text)})`;
}

function childText(node, text) {
  if (node.type === "JSXText") {
    const words = lines(node.value);
    return words === "" ? "" : JSON.stringify(words);
  }
  if (node.type !== "JSXExpressionContainer") return call(node, text);
  return node.expression.type === "JSXEmptyExpression" ? "" : `(${replaced(node.expression, text)})`;
}

// JSX's rule: lines are trimmed where they meet, empty ones fall away, the others join with one space.
function lines(text) {
  const all = text.split(/\r\n|\n|\r/);
  const trimmed = all.map((line, at) => {
    const front = at === 0 ? line : line.replace(/^[ \t]+/, "");
    return at === all.length - 1 ? front : front.replace(/[ \t]+$/, "");
  });
  return trimmed.filter((line) => line !== "").join(" ");
}
