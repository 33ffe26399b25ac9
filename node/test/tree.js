// A page's bytes as text: `12(20"a = " 30(40"p"))`, a decimal as its digits and places: `7a=125/1`. Reads the format by itself, apart from what writes it.

const HOLDS_FIELDS = new Set([0x01, 0x10, 0x11, 0x12, 0x30, 0x31, 0x41, 0x42, 0x50, 0x52, 0x53, 0x61, 0x76, 0x77, 0x79]);
const NUMBERS = new Set([0x71, 0x75]);
const DECIMALS = new Set([0x7a, 0x7b]);

/** The items of a page. */
export function tree(page) {
  const all = fields(page);
  if (all.length !== 1 || all[0].tag !== 0x01) throw new Error("not one field 01");
  return fields(all[0].body).map(shown).join(" ");
}

function fields(bytes) {
  const found = [];
  for (let at = 0; at < bytes.length; ) {
    const end = at + 3 + bytes.readUInt16BE(at + 1);
    if (end > bytes.length) throw new Error(`a field runs past the end at byte ${at}`);
    found.push({ tag: bytes[at], body: bytes.subarray(at + 3, end) });
    at = end;
  }
  return found;
}

function shown({ tag, body }) {
  const name = tag.toString(16).padStart(2, "0");
  if (HOLDS_FIELDS.has(tag)) return `${name}(${fields(body).map(shown).join(" ")})`;
  if (NUMBERS.has(tag)) return `${name}=${body.readBigUInt64BE()}`;
  if (DECIMALS.has(tag) && body.length === 9) return `${name}=${body.readBigUInt64BE()}/${body[8]}`;
  if (tag === 0x72) return `${name}=${body[0]}`;
  return body.length === 0 && (tag === 0x13 || tag === 0x73 || tag === 0x78) ? name : `${name}${JSON.stringify(body.toString())}`;
}
