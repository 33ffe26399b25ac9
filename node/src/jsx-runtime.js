// The helpers that the output imports, for rendering on a server. docs/FORMAT.md says what any runtime must do in each.

const VOID = new Set("area base br col embed hr img input link meta param source track wbr".split(" "));
const RENAMED = new Map([["className", "class"], ["htmlFor", "for"]]);
const ESCAPES = new Map([["&", "&amp;"], ["<", "&lt;"], [">", "&gt;"], ["'", "&#39;"], ['"', "&quot;"]]);

class Element {
  constructor(type, props, key) {
    Object.assign(this, { type, props, key });
  }
}

class Template {
  constructor(strings, fillings) {
    Object.assign(this, { strings, fillings });
  }
}

/** An element or component that did not become a template. It is called when it is rendered. */
export function jsx(type, props, key) {
  return new Element(type, props ?? {}, key);
}

/** Static strings, and what stands between them. */
export function jsxTemplate(strings, ...fillings) {
  if (fillings.length !== strings.length - 1) {
    throw new TypeError(`${fillings.length} expressions for a template of ${strings.length} strings`);
  }
  return new Template(strings, fillings);
}

/** An attribute as it stands in an opening tag; empty where it falls away. `key` and `ref` are not for HTML. */
export function jsxAttr(name, value) {
  const isUnsafe = /[\s"'<>/=]/.test(name) || name === "";
  if (name === "key" || name === "ref" || isUnsafe) return "";
  if (value == null || typeof value === "function" || typeof value === "symbol") return "";
  const written = RENAMED.get(name) ?? name;
  // `aria-checked={false}` says something, `hidden={false}` does not.
  if (typeof value === "boolean" && !/^(aria|data)-/.test(name)) return value ? written : "";
  const text = written === "style" && typeof value === "object" ? styleText(value) : String(value);
  return `${written}="${escapeHtml(text)}"`;
}

/** A child: texts escaped, elements and lists of children as they are, to be rendered later. */
export function jsxEscape(value) {
  if (value == null || typeof value === "boolean" || typeof value === "function") return null;
  return typeof value === "object" ? value : escapeHtml(String(value));
}

/** A component that is its children. */
export function Fragment({ children }) {
  return children;
}

// What other compilers of JSX import.
export { jsx as jsxs };

/** The HTML of a child: of what `jsx` or `jsxTemplate` gives, of a text, or of a list of these. */
export function render(value) {
  if (value == null || typeof value === "boolean" || typeof value === "function") return "";
  if (value instanceof Template) return filled(value);
  if (value instanceof Element) return typeof value.type === "function" ? render(value.type(value.props)) : tag(value);
  if (Array.isArray(value)) return value.map(render).join("");
  if (typeof value === "object" || typeof value === "symbol") throw new TypeError(`${String(value)} is no child`);
  return escapeHtml(String(value));
}

function tag({ type, props: { children, dangerouslySetInnerHTML, ...attributes } }) {
  const written = Object.entries(attributes).map(([name, value]) => jsxAttr(name, value)).filter((text) => text !== "");
  const opening = `<${[type, ...written].join(" ")}>`;
  if (VOID.has(type)) return opening;
  return `${opening}${dangerouslySetInnerHTML?.__html ?? render(children)}</${type}>`;
}

function filled({ strings, fillings }) {
  const inTag = attributeGaps(strings);
  return fillings.reduce((html, filling, at) => {
    // A string is HTML already: of jsxAttr, of jsxEscape, or a boolean attribute's name.
    const text = typeof filling === "string" ? filling : render(filling);
    // An attribute that falls away takes the space before it along.
    return (inTag[at] && text === "" ? html.trimEnd() : html + text) + strings[at + 1];
  }, strings[0]);
}

const known = new WeakMap();

// Of each gap whether it lies in an opening tag. Values are escaped, so a bare `<` or `>` is a tag's.
function attributeGaps(strings) {
  if (!known.has(strings)) {
    let open = false;
    const gaps = strings.slice(0, -1).map((string) => {
      const last = Math.max(string.lastIndexOf("<"), string.lastIndexOf(">"));
      if (last >= 0) open = string[last] === "<";
      return open;
    });
    known.set(strings, gaps);
  }
  return known.get(strings);
}

function styleText(style) {
  const rules = Object.entries(style).filter(([, value]) => value != null && value !== false);
  return rules.map(([name, value]) => `${name.replace(/[A-Z]/g, (capital) => `-${capital.toLowerCase()}`)}:${value}`).join(";");
}

function escapeHtml(text) {
  return text.replace(/[&<>'"]/g, (sign) => ESCAPES.get(sign));
}
