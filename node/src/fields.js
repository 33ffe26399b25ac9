// Fields: a tag byte, a length of two bytes, high byte first, and a body.

const HEADER = 3;
const MAX_BODY = 0xffff;

/** Writes fields one behind the other; a length is filled in behind its body. */
export class FieldWriter {
  #bytes = Buffer.alloc(1024);
  #length = 0;
  #depth = 0;

  get length() {
    return this.#length;
  }

  /** How deep the field lies that is written now. */
  get depth() {
    return this.#depth;
  }

  get bytes() {
    return Buffer.from(this.#bytes.subarray(0, this.#length));
  }

  /** A field whose body `inside` writes. A body that is too long for its length leaves 0 there: the page is too long too. */
  field(tag, inside) {
    const at = this.#length;
    this.body([tag, 0, 0]);
    this.#depth += 1;
    inside();
    this.#depth -= 1;
    const body = this.#length - at - HEADER;
    this.#bytes.writeUInt16BE(body > MAX_BODY ? 0 : body, at + 1);
  }

  /** These bytes, or this text in UTF-8, within a field. */
  body(content) {
    const bytes = Buffer.from(content);
    const end = this.#length + bytes.length;
    if (end > this.#bytes.length) {
      this.#bytes = Buffer.concat([this.#bytes], Math.max(end, 2 * this.#bytes.length));
    }
    bytes.copy(this.#bytes, this.#length);
    this.#length = end;
  }
}
