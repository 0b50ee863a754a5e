// The replies of a session, read by the rules of docs/PROTOCOL.md.

/**
 * A place in a text: both count from 1, and the column counts characters.
 * @typedef {{ line: number, column: number }} Place
 *
 * Where a text begins, and the place behind it.
 * @typedef {{ from: Place, to: Place }} Span
 *
 * @typedef {'warn' | 'debug' | 'fatal'} MessageKind
 * @typedef {{ kind: MessageKind, path: string, span: Span, text: string }} Message
 * @typedef {{ path: string, cause: string }} Ran
 * @typedef {{ code: number, path: string, span: Span }} Fault
 *
 * The reply to a compile. Exactly one of `css` and `fault` is there, unless memory was missing.
 * @typedef {object} Reply
 * @property {Message[]} messages in the order in which they were said
 * @property {Ran[]} ran the modules whose bodies ran, in the order in which these ended
 * @property {Buffer | null} css
 * @property {Fault | null} fault
 * @property {boolean} memory whether the compile was refused for want of memory
 *
 * The reply to an edit: 0 for `ok`, else the code of the refusal.
 * @typedef {{ refused: number }} EditReply
 */

/** The bytes are no reply. */
export class ReplyError extends Error {
  /** @param {string} message */
  constructor(message) {
    super(message);
    this.name = 'ReplyError';
  }
}

const LINE_FEED = 10;
const PLACE = /^([0-9]+):([0-9]+)$/;
const KINDS = ['warn', 'debug', 'fatal'];

/**
 * A span that is written as two words `L:C`.
 * @param {string} from
 * @param {string} to
 * @returns {Span}
 * @throws {ReplyError} where a word is no place
 */
export function spanOf(from, to) {
  const [first, last] = [from, to].map((it) => PLACE.exec(it ?? ''));
  if (!first || !last) throw new ReplyError(`no places of a text: ${from} ${to}`);
  return {
    from: { line: Number(first[1]), column: Number(first[2]) },
    to: { line: Number(last[1]), column: Number(last[2]) },
  };
}

// A reader of lines and counted bytes; `null` says that more bytes have to come.
class Cursor {
  /** @param {Buffer} bytes */
  constructor(bytes) {
    this.bytes = bytes;
    this.at = 0;
    /** How many bytes there have to be before another look is of use. */
    this.needs = 0;
  }

  /** @returns {string | null} */
  line() {
    const end = this.bytes.indexOf(LINE_FEED, this.at);
    if (end < 0) {
      this.needs = this.bytes.length + 1;
      return null;
    }
    const line = this.bytes.toString('latin1', this.at, end);
    this.at = end + 1;
    return line;
  }

  /**
   * So many bytes, and the line feed behind them.
   * @param {string} count
   * @returns {Buffer | null}
   */
  counted(count) {
    if (!/^[0-9]+$/.test(count ?? '')) throw new ReplyError(`no count of bytes: ${count}`);
    const end = this.at + Number(count);
    if (this.bytes.length <= end) {
      this.needs = end + 1;
      return null;
    }
    if (this.bytes[end] !== LINE_FEED) throw new ReplyError('no line feed behind counted bytes');
    const taken = this.bytes.subarray(this.at, end);
    this.at = end + 1;
    return taken;
  }
}

/**
 * @param {Cursor} cursor
 * @returns {EditReply | null}
 */
function readEdit(cursor) {
  const line = cursor.line();
  if (line === null) return null;
  const found = /^(?:ok|refused ([0-9]+))$/.exec(line);
  if (!found) throw new ReplyError(`no reply to an edit: ${line}`);
  return { refused: Number(found[1] ?? 0) };
}

/** @returns {Reply} */
function emptyReply() {
  return { messages: [], ran: [], css: null, fault: null, memory: false };
}

/**
 * Reads what a line of a reply to a compile begins.
 * @param {Cursor} cursor behind the line
 * @param {string} line
 * @param {Reply} reply gets what is read
 * @returns {'more' | 'end' | null} whether it ends the reply; null where more bytes have to come
 * @throws {ReplyError} where it is no such line
 */
function readItem(cursor, line, reply) {
  const [word, ...rest] = line.split(' ');
  if (KINDS.includes(word) && rest.length === 4) {
    const text = cursor.counted(rest[3]);
    if (text === null) return null;
    const kind = /** @type {MessageKind} */ (word);
    reply.messages.push({ kind, path: rest[0], span: spanOf(rest[1], rest[2]), text: text.toString('utf8') });
    return 'more';
  }
  if (word === 'ran' && rest.length === 2) {
    reply.ran.push({ path: rest[0], cause: rest[1] });
    return 'more';
  }
  if (word === 'css' && rest.length === 1) {
    reply.css = cursor.counted(rest[0]);
    return reply.css && 'end';
  }
  if (word === 'error' && rest.length === 4 && /^[0-9]+$/.test(rest[0])) {
    reply.fault = { code: Number(rest[0]), path: rest[1], span: spanOf(rest[2], rest[3]) };
    return 'end';
  }
  if (line !== 'memory') throw new ReplyError(`no line of a reply: ${line}`);
  reply.memory = true;
  return 'end';
}

/**
 * @param {Cursor} cursor
 * @returns {Reply | null}
 */
function readCompile(cursor) {
  const reply = emptyReply();
  for (;;) {
    const line = cursor.line();
    const found = line === null ? null : readItem(cursor, line, reply);
    if (found === null) return null;
    if (found === 'end') return reply;
  }
}

/**
 * Reads what a command of the program wrote, with its standard error before it, behind it or without it: the messages and
 * the outcome of the last compile. Answers to edits are passed over.
 * @param {Buffer} bytes
 * @returns {Reply | null} null where it begins with something else, as the CSS of `once` does
 * @throws {ReplyError} where something else follows, or it ends in the middle
 */
export function readWritten(bytes) {
  const cursor = new Cursor(bytes);
  let reply = emptyReply();
  let isOver = false;
  for (let count = 0; cursor.at < bytes.length; count += 1) {
    const line = cursor.line() ?? bytes.toString('utf8', cursor.at);
    if (/^(?:ok|refused [0-9]+)$/.test(line)) continue;
    // Behind an outcome come its messages again, as standard error has them, or the next compile.
    if (isOver && line.startsWith('ran ')) [reply, isOver] = [emptyReply(), false];
    try {
      const found = readItem(cursor, line, reply);
      if (found === null) throw new ReplyError(`it ends in the middle of: ${line}`);
      isOver ||= found === 'end';
    } catch (error) {
      if (count === 0 && !(/^(?:css|error|warn|debug|fatal) /.test(line))) return null;
      throw error;
    }
  }
  return reply;
}

/**
 * Reads one reply at the start of some bytes.
 * @param {'edit' | 'compile'} kind
 * @param {Buffer} bytes
 * @returns {{ reply: EditReply | Reply | null, taken: number, needs: number }} the reply and how many bytes it has; or
 *   `null`, and how many bytes there have to be before another look is of use
 * @throws {ReplyError} where no reply begins so
 */
export function readReply(kind, bytes) {
  const cursor = new Cursor(bytes);
  const reply = kind === 'edit' ? readEdit(cursor) : readCompile(cursor);
  return reply ? { reply, taken: cursor.at, needs: 0 } : { reply: null, taken: 0, needs: cursor.needs };
}
