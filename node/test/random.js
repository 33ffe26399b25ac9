// Pages from a seed: a component of five booleans `a` to `e`, with every kind of tag, attribute, child and expression whose
// HTML is that of plain JSX (docs/FORMAT.md lists where it is not).

const TAGS = ["p", "div", "li", "b", "seat-map", "svg", "button"];
const VOIDS = ["br", "hr", "input", "img"];
const COMPONENTS = ["Box", "Own.Box"];
const NAMES = ["title", "id", "className", "htmlFor", "tabIndex", "data-x", "aria-y", "strokeWidth", "viewBox", "hidden", "lang"];
const BOOLEANS = ["disabled", "checked", "required", "readOnly", "autoFocus", "open"];
// What a component hands on as a spread is for the runtime to write: names that are HTML's own, or nearly.
const HANDED_ON = ["title", "id", "className", "htmlFor", "data-x", "aria-y", "hidden", "disabled", "open"];
const TEXTS = ["seat", "a &amp; b", "&lt;i&gt;", "\n  row\n    seat\n  ", "\n  ", "it's &quot;x&quot;", "é €", " seat"];
const PLAIN_STRINGS = [`"row"`, `'seat 7'`, `" "`, `"\\u00e9"`];
const STRINGS = [...PLAIN_STRINGS, `"<&>"`, `'"'`, `"it's"`, `"\\\\n"`];

/** The text of a module that exports `Page`. */
export function pageOf(seed) {
  const make = new Maker(seed);
  return `const Box = ({ children, title, ...rest }) => <section title={title} {...rest}>{children}</section>;
const Own = { Box: ({ children }) => <>{children}</> };
export function Page({ a, b, c, d, e }) {
  let t = 0;
  const f = (value) => value;
  return ${make.tag(4)};
}
`;
}

class Maker {
  constructor(seed) {
    this.state = (seed * 2_654_435_761 + 1) >>> 0;
  }

  // xorshift32: small, and the same everywhere.
  below(count) {
    for (const [left, by] of [[true, 13], [false, 17], [true, 5]]) {
      this.state = (this.state ^ (left ? this.state << by : this.state >>> by)) >>> 0;
    }
    return this.state % count;
  }

  one(of) {
    return of[this.below(of.length)];
  }

  some(most, make) {
    return Array.from({ length: this.below(most + 1) }, make);
  }

  tag(depth) {
    const kind = this.below(10);
    if (kind === 0) return `<${this.one(VOIDS)}${this.attributes()}/>`;
    if (kind === 1) return `<>${this.children(depth, true) || "seat"}</>`;
    if (kind === 2) return this.element(this.one(COMPONENTS), this.attributes(HANDED_ON), this.children(depth, true));
    if (kind === 3) return this.element(this.one(TAGS), ` {...f({ title: (${this.text()}) })}${this.attributes()}`, this.children(depth, true));
    return this.element(this.one(TAGS), this.attributes(), this.children(depth, false));
  }

  element(name, attributes, children) {
    return children === "" ? `<${name}${attributes}/>` : `<${name}${attributes}>${children}</${name}>`;
  }

  // Each name once.
  attributes(from) {
    const names = new Set(this.some(3, () => this.one(from ?? (this.below(3) === 0 ? BOOLEANS : NAMES))));
    return [...names].map((name) => ` ${name}${this.value(name)}`).join("") + (this.below(6) === 0 ? ` key={${this.flag()}}` : "");
  }

  value(name) {
    if (BOOLEANS.includes(name)) return this.one(["", `={${this.flag()}}`, "={true}", "={false}", `="on"`, `={${this.flag()}}`]);
    return this.one(["", `="x &amp; y"`, `={${this.text()}}`, `={${this.below(99)}}`, `={-7}`, `={${this.decimal()}}`, `={-${this.decimal()}}`, `={${this.one(STRINGS)}}`, `={${this.flag()}}`, "={null}", "={() => 1}"]);
  }

  // `called`: these are the children of a call, or of a fragment that may be in one, where strings are escaped twice.
  children(depth, called) {
    if (depth === 0) return this.one(["", "seat", `{${this.text()}}`]);
    return this.some(4, () => this.child(depth - 1, called)).join("").replace(/ +$/, "");
  }

  child(depth, called) {
    const kind = this.below(8);
    if (kind < 2) return this.one(TEXTS);
    if (kind < 4) return this.tag(depth);
    if (kind === 4) return `{${this.one(called ? PLAIN_STRINGS : STRINGS)}}`;
    if (kind === 5) return this.one(["{}", "{/* none */}", "{true}", "{null}", "{7}", "{-7}", "{7n}", `{${this.decimal()}}`, `{-${this.decimal()}}`, "{0x10}"]);
    return `{${this.expression(depth)}}`;
  }

  // A number with a fraction, of any size, as it may be written.
  decimal() {
    return this.one(["12.50", "0.05", ".5", "1.25e1", "1e-7", "0.1234567890123456", `${this.below(1000)}.${this.below(100)}`]);
  }

  expression(depth) {
    const inner = () => this.tag(Math.max(depth - 1, 0));
    switch (this.below(10)) {
      case 0: return `${this.flag()} && ${inner()}`;
      case 1: return `(${this.flag()}) ? ${inner()} : ${this.one(["null", `"none"`, inner()])}`;
      case 2: return `[1, 2].map((n) => ${inner()})`;
      case 3: return `(() => { if (${this.flag()}) return${inner()}; return ${this.text()} })()`;
      case 4: return `t = 1, ${inner()}`;
      case 5: return `[${inner()}, , (${this.text()}), ...[(${this.text()})]]`;
      case 6: return inner();
      case 7: return `(${inner()})`;
      default: return this.text();
    }
  }

  // An expression that is true or false.
  flag() {
    const [x, y, z] = [this.one("abcde"), this.one("abcde"), this.one("abcde")];
    return this.one([x, `!${x}`, `${x} && ${y}`, `${x} || ${y}`, `${x} ? ${y} : ${z}`, `(${x}, ${y})`, `${x}, ${y}`, `t = ${x}`, `f(${x})`]);
  }

  // An expression that is a text or number, and no literal.
  text() {
    const x = this.one("abcde");
    return this.one([`${x} ? "<x>" : 'y'`, `\`\${${x}} & t\``, `String(${x})`, `${x} + 1`, `t += 1, "u"`, `f(\`"\`)`, `[${x}].length`]);
  }
}
