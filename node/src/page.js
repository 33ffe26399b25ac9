// A module's text as page bytes: Babel's tree, with the kinds that swc would give each part (docs/FORMAT.md).

import { findParser } from "./babel.js";
import { FieldWriter } from "./fields.js";
import { MAX_DEPTH, MAX_DIGITS, MAX_MEMBERS, MAX_NAME, MAX_NUMBER, MAX_PAGE, MAX_PLACES } from "./limits.js";
import { ordered, outermost } from "./order.js";

/** Why a module's text has no page: the line and column, from 1, and the `number` of the refusal that it would be. */
export class PageError extends Error {
  constructor(node, message, number) {
    const { line, column } = placeOf(node);
    super(`${line}:${column}: ${message} (refusal ${number})`);
    Object.assign(this, { name: "PageError", line, column, number });
  }
}

/** The page of a module's text. Throws a SyntaxError of Babel's, or a PageError. */
export function toPage(text, options) {
  return readModule(text, options).page;
}

/**
 * The page, the text that stays before all else (a `#!` line, which is no part of a page), the places of its fields in the
 * source, and notes on what swc would do otherwise. With `runnable` the page gets a place for the templates before the
 * first item that needs them.
 */
export function readModule(text, { runnable = false, parserPlugins = [] } = {}) {
  const { parse, missing } = findParser();
  if (missing) throw new Error(missing);
  const source = text.replace(/^\uFEFF/, "");
  // Parentheses are nodes of swc's tree, and so `("x")` is no string literal.
  const options = { sourceType: "module", plugins: ["jsx", ...parserPlugins], createParenthesizedExpressions: true };
  const { program } = parse(source, { ...options, attachComment: false });
  const items = [...program.directives, ...program.body];
  const walk = new Walk(source);
  walk.page(program, runnable ? placed(items) : items);
  const { interpreter } = program;
  const prologue = interpreter ? `${source.slice(interpreter.start, interpreter.end)}\n` : "";
  return { page: walk.writer.bytes, prologue, places: walk.places, notes: walk.notes };
}

// Templates go before the first 10 or 12. `export default <p/>` is an 11 and may stand before that: a statement without
// pieces then marks the place.
function placed(items) {
  const first = items.findIndex((node) => itemTag(node) === 0x11 && outermost(node).length > 0);
  if (first < 0 || items.slice(0, first).some((node) => [0x10, 0x12].includes(itemTag(node)))) return items;
  const { start, loc } = items[first];
  return [...items.slice(0, first), { type: "NoStatement", start, end: start, loc }, ...items.slice(first)];
}

const NAME = /^[A-Za-z_$][A-Za-z0-9_$-]*$/;
const LONE_SURROGATE = /\p{Surrogate}/u;

class Walk {
  writer = new FieldWriter();
  // Of each field, front to back: the byte at which it begins, and its line and column in the source.
  places = [];
  notes = [];

  constructor(source) {
    this.source = source;
  }

  field(tag, node, inside) {
    if (this.writer.depth === MAX_DEPTH) {
      throw new PageError(node, `nested too deep: fields lie more than ${MAX_DEPTH} deep`, 8);
    }
    this.places.push({ at: this.writer.length, ...placeOf(node) });
    this.writer.field(tag, inside);
  }

  leaf(tag, node, body) {
    this.field(tag, node, () => this.writer.body(body));
  }

  page(program, items) {
    let over;
    this.field(0x01, program, () => {
      for (const node of items) {
        this.item(node);
        if (this.writer.length > MAX_PAGE) over ??= node;
      }
    });
    if (over) {
      const words = `the page has ${this.writer.length} bytes, ${MAX_PAGE} are taken and end in this item: split the module`;
      throw new PageError(over, words, 2);
    }
  }

  item(node) {
    const tag = itemTag(node);
    if (tag === 0x13) this.leaf(tag, node, "");
    else this.field(tag, node, () => this.pieces(node));
  }

  // Source text, and the outermost elements and fragments in it.
  pieces(node) {
    const tags = outermost(node);
    if (!ordered(tags)) this.note(node, "swc visits tags here in another order, and numbers their templates otherwise");
    tags.sort((one, other) => one.start - other.start);
    let from = node.start;
    for (const tag of tags) {
      this.text(from, tag.start, node);
      this.tag(tag);
      from = tag.end;
    }
    this.text(from, node.end, node);
  }

  text(from, to, node) {
    if (from < to) this.leaf(0x20, node, this.source.slice(from, to));
  }

  tag(node) {
    if (node.type === "JSXFragment") {
      this.field(0x31, node, () => this.children(node));
      return;
    }
    const { name, attributes } = node.openingElement;
    this.field(0x30, node, () => {
      this.name(name);
      attributes.forEach((attribute) => this.attribute(attribute));
      this.children(node);
    });
  }

  name(node) {
    if (node.type === "JSXNamespacedName") {
      this.field(0x42, node, () => {
        this.identifier(node.namespace);
        this.identifier(node.name);
      });
    } else if (node.type === "JSXMemberExpression") {
      this.member(node);
    } else {
      this.identifier(node);
    }
  }

  member(node) {
    const names = [];
    let object = node;
    for (; object.type === "JSXMemberExpression"; object = object.object) names.unshift(object.property);
    names.unshift(object);
    if (names.length > MAX_MEMBERS) {
      throw new PageError(node, `a member of ${names.length} names, at most ${MAX_MEMBERS} are taken`, 4);
    }
    const hyphen = names.find(({ name }) => name.includes("-"));
    if (hyphen) throw new PageError(hyphen, `\`${hyphen.name}\`: a hyphen may not stand in a member`, 5);
    this.field(0x41, node, () => names.forEach((name) => this.identifier(name)));
  }

  identifier(node) {
    const { name } = node;
    if (!NAME.test(name)) throw new PageError(node, `\`${name}\`: names are ASCII letters, digits, _, $ and -`, 5);
    if (name.length > MAX_NAME) throw new PageError(node, `a name of ${name.length} bytes, at most ${MAX_NAME} are taken`, 5);
    this.leaf(0x40, node, name);
  }

  attribute(node) {
    if (node.type === "JSXSpreadAttribute") {
      this.field(0x53, node, () => this.expression(node.argument));
      return;
    }
    this.field(0x50, node, () => {
      this.name(node.name);
      if (node.value === null) return;
      if (node.value.type === "StringLiteral") this.leaf(0x51, node.value, node.value.value);
      else if (node.value.type === "JSXExpressionContainer") this.container(node.value);
      else this.tag(node.value);
    });
  }

  container(node) {
    this.field(0x52, node, () => {
      if (node.expression.type !== "JSXEmptyExpression") this.expression(node.expression);
    });
  }

  children(node) {
    for (const child of node.children) {
      if (child.type === "JSXText") this.leaf(0x60, child, child.value);
      else if (child.type === "JSXExpressionContainer") this.container(child);
      else if (child.type === "JSXSpreadChild") this.field(0x61, child, () => this.expression(child.expression));
      else this.tag(child);
    }
  }

  expression(node) {
    switch (node.type) {
      case "JSXElement":
      case "JSXFragment":
        return this.tag(node);
      case "StringLiteral":
        // Half of a surrogate pair has no UTF-8; its escape in the source has.
        return LONE_SURROGATE.test(node.value) ? this.other(node) : this.leaf(0x70, node, node.value);
      case "NumericLiteral":
        return this.number(node, node.value, 0x71, 0x7a);
      case "BooleanLiteral":
        return this.leaf(0x72, node, [Number(node.value)]);
      case "NullLiteral":
        return this.leaf(0x73, node, "");
      case "BigIntLiteral":
      case "RegExpLiteral":
        return this.leaf(0x74, node, this.source.slice(node.start, node.end));
      case "UnaryExpression":
        if (node.operator !== "-" || node.argument.type !== "NumericLiteral") return this.other(node);
        return this.number(node, node.argument.value, 0x75, 0x7b);
      case "ArrayExpression":
        return this.field(0x76, node, () => node.elements.forEach((element) => this.arrayItem(element, node)));
      default:
        return this.other(node);
    }
  }

  // The value counts and not its spelling: `1e3` is 1000, `1.50` is 1.5.
  number(node, value, wholeTag, decimalTag) {
    const decimal = decimalOf(value);
    if (Number.isInteger(value) && value <= MAX_NUMBER) this.leaf(wholeTag, node, eightBytes(BigInt(value)));
    else if (decimal) this.leaf(decimalTag, node, [...eightBytes(decimal.digits), decimal.places]);
    else this.other(node);
  }

  arrayItem(node, array) {
    if (node === null) this.leaf(0x78, array, "");
    else if (node.type === "SpreadElement") this.field(0x77, node, () => this.expression(node.argument));
    else this.expression(node);
  }

  other(node) {
    this.field(0x79, node, () => this.pieces(node));
  }

  note(node, message) {
    const { line, column } = placeOf(node);
    this.notes.push(`${line}:${column}: ${message}`);
  }
}

// Babel counts columns from 0, editors from 1.
function placeOf({ loc: { start } }) {
  return { line: start.line, column: start.column + 1 };
}

// swc's kinds: `export` before a declaration, `export default` before a function or class; other imports and exports.
function itemTag(node) {
  switch (node.type) {
    case "ExportNamedDeclaration":
      return node.declaration ? 0x10 : 0x11;
    case "ExportDefaultDeclaration":
      return ["FunctionDeclaration", "ClassDeclaration"].includes(node.declaration.type) ? 0x10 : 0x11;
    case "ImportDeclaration":
    case "ExportAllDeclaration":
      return 0x11;
    case "EmptyStatement":
      return 0x13;
    default:
      return 0x12;
  }
}

function eightBytes(number) {
  const bytes = Buffer.alloc(8);
  bytes.writeBigUInt64BE(number);
  return bytes;
}

// A number with a fraction as digits and places, those with which JavaScript prints it: the page then has the text that a
// call would give. Where that has an exponent (`1e-7`), or too many digits, there is none.
function decimalOf(value) {
  const [, whole, fraction] = /^(\d+)\.(\d+)$/.exec(String(value)) ?? [];
  if (fraction === undefined || fraction.length > MAX_PLACES) return undefined;
  const digits = BigInt(whole + fraction);
  return digits > MAX_DIGITS ? undefined : { digits, places: fraction.length };
}
