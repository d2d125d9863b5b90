// Messages as bytes: a header that says how long the body is, an empty line, and the body.

const MOST_HEADER = 4096;
const MOST_BODY = 256 * 1024 * 1024;

/** The bytes of a message. */
export function framed(body) {
  return `Content-Length: ${Buffer.byteLength(body)}\r\n\r\n${body}`;
}

/** Takes bytes piece by piece and hands on whole bodies. Each piece is copied once, however many pieces a body comes in. */
export class Frames {
  constructor(onBody) {
    this.onBody = onBody;
    this.pieces = [];
    this.held = 0;
    this.length = null;
  }

  push(piece) {
    this.pieces.push(piece);
    this.held += piece.length;
    while (this.length === null ? this.readHeader() : this.readBody());
  }

  joined() {
    if (this.pieces.length > 1) this.pieces = [Buffer.concat(this.pieces, this.held)];
    return this.pieces[0] ?? Buffer.alloc(0);
  }

  drop(count) {
    const rest = this.joined().subarray(count);
    this.pieces = rest.length ? [rest] : [];
    this.held = rest.length;
  }

  /** Whether a whole header was there. One that makes no sense is thrown: where the following message begins is not known then. */
  readHeader() {
    if (!this.held) return false;
    const bytes = this.joined(),
      end = bytes.subarray(0, MOST_HEADER).indexOf('\r\n\r\n');
    if (end < 0) {
      if (bytes.length >= MOST_HEADER) throw new Error('a header has no end');
      return false;
    }
    const found = /^content-length:[ \t]*(\d+)[ \t]*$/im.exec(bytes.toString('latin1', 0, end).replaceAll('\r', ''));
    if (!found || Number(found[1]) > MOST_BODY) throw new Error('a header has no Content-Length, or one that is too large');
    this.length = Number(found[1]);
    this.drop(end + 4);
    return true;
  }

  readBody() {
    if (this.held < this.length) return false;
    const text = this.joined().toString('utf8', 0, this.length);
    this.drop(this.length);
    this.length = null;
    this.onBody(text);
    return this.held > 0;
  }
}
