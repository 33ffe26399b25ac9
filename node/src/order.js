// The tags in a piece of source, and the order in which swc's visitor comes to them.

// swc goes by the order in which its types declare their fields, which is the source's but for these.
const VISITED = new Map([
  ["DoWhileStatement", ["test", "body"]],
  ["ClassDeclaration", ["id", "decorators", "body", "superClass"]],
  ["ClassExpression", ["id", "decorators", "body", "superClass"]],
]);

// What a node has beside its parts.
const NO_PARTS = new Set(["type", "loc", "start", "end", "extra", "leadingComments", "trailingComments", "innerComments"]);

/** The outermost elements and fragments in a node, in swc's order. */
export function outermost(node) {
  const tags = [];
  const waiting = [node];
  while (waiting.length > 0) {
    const next = waiting.pop();
    if (next.type === "JSXElement" || next.type === "JSXFragment") tags.push(next);
    else waiting.push(...parts(next).reverse());
  }
  return tags;
}

/** Whether these stand in the source's order. */
export function ordered(nodes) {
  return nodes.every((node, at) => at === 0 || nodes[at - 1].end <= node.start);
}

function parts(node) {
  const known = VISITED.get(node.type);
  const keys = known ?? Object.keys(node).filter((key) => !NO_PARTS.has(key));
  const found = keys.flatMap((key) => node[key]).filter((part) => part?.type);
  return known ? found : found.sort((one, other) => one.start - other.start);
}
