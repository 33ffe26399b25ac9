// Renders what calls of `h` give, by the rules of JSX on a server; written apart from the package's runtime.

export function h(type, props, children) {
  return { h: true, type, props, children };
}

const VOID = /^(area|base|br|col|embed|hr|img|input|link|meta|param|source|track|wbr)$/;
// The names that the test pages write otherwise than HTML does; the rest goes to small letters.
const NAMES = { className: "class", htmlFor: "for", strokeWidth: "stroke-width", fillOpacity: "fill-opacity", viewBox: "viewBox" };

export function html(value) {
  if (value === null || value === undefined || value === true || value === false) return "";
  if (Array.isArray(value)) return value.map((one) => html(one)).join("");
  if (!value.h) return escaped(value);
  const { type, props, children } = value;
  if (type === null) return html(children);
  if (typeof type === "string") return element(type, props, children);
  const { key, ref, ...own } = props;
  const given = children.length === 0 ? own : { ...own, children: children.length === 1 ? children[0] : children };
  return html(type(given));
}

function element(type, props, children) {
  let tag = `<${type}`;
  for (const [name, value] of Object.entries(props)) tag += attribute(name, value);
  if (VOID.test(type)) return `${tag}>`;
  const inside = props.dangerouslySetInnerHTML ? props.dangerouslySetInnerHTML.__html : html(props.children ?? children);
  return `${tag}>${inside}</${type}>`;
}

function attribute(written, value) {
  const special = ["key", "ref", "children", "dangerouslySetInnerHTML"].includes(written);
  if (special || value === null || value === undefined || typeof value === "function") return "";
  const name = NAMES[written] ?? written.toLowerCase();
  const speaks = name.startsWith("aria-") || name.startsWith("data-");
  if (value === false && !speaks) return "";
  if (value === true && !speaks) return ` ${name}`;
  return ` ${name}="${escaped(value)}"`;
}

function escaped(value) {
  const text = `${value}`;
  return text.split("&").join("&amp;").split("<").join("&lt;").split(">").join("&gt;").split("'").join("&#39;").split('"').join("&quot;");
}
