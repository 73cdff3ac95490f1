// A connection to a hub that outlives its sockets: hub protocol version 2 in JSON over Debian's node-ws 8.11.
//
// Of the five kinds of messages that are numbered, those that we send are kept until the server acknowledges them, and those that come
// are counted, so that after a lost socket each side says again what the other may lack, and passes over what it has.
import { createRequire } from "node:module";

// Debian puts it where only `require` looks, by NODE_PATH=/usr/share/nodejs.
export const WebSocket = createRequire(import.meta.url)("ws");

export const INVOCATION = 1, ITEM = 2, COMPLETION = 3, STREAM = 4, CANCEL = 5, PING = 6, CLOSE = 7, ACK = 8, SEQUENCE = 9;
export const RECORD = "\x1e";
const LAST_NUMBERED = CANCEL;
const ACK_AFTER = 16; // messages; a server keeps at most 1,024

export const spelled = (message) => JSON.stringify(message) + RECORD;

export const socketAddress = (base, token) => base.replace(/^http/, "ws") + (token ? `?id=${token}` : "");

/** The messages of a socket, each as it is waited for. */
export class Inbox {
  #come = [];
  #waiting = [];

  constructor(address) {
    this.socket = new WebSocket(address);
    this.opened = new Promise((done, fail) => this.socket.on("open", done).on("error", fail));
    this.closed = new Promise((done) => this.socket.on("close", done)); // with the status of the server's close frame
    this.socket.on("message", (data) => this.#put(data));
  }

  #put(data) {
    const wanted = this.#waiting.shift();
    wanted ? wanted(data) : this.#come.push(data);
  }

  /** The next message, as a Buffer. */
  next() {
    return this.#come.length > 0 ? Promise.resolve(this.#come.shift()) : new Promise((done) => this.#waiting.push(done));
  }
}

export class Hub {
  frames = []; // come, and not handled
  lastId = 0;
  sent = 0; // how many numbered messages we sent
  kept = []; // { number, text } of those that aren't acknowledged
  processed = 0; // the number of the last message that we processed
  coming = 1; // the number of the next one on this socket
  told = 0; // the last number that we acknowledged
  acks = true;
  duplicates = 0;
  items = new Map(); // by the call's id
  endings = new Map();
  calls = []; // that the server made

  constructor(base, token) {
    this.address = socketAddress(base, token);
  }

  // Sockets

  /** The first socket: the handshake is the first frame each way. Answers the server's. */
  async open() {
    await this.#connect();
    this.#write('{"protocol":"json","version":2}' + RECORD);
    const answer = await this.#frame();
    if (JSON.parse(answer).error) throw new Error(answer);
    return answer;
  }

  /** A later socket: no handshake, but the number from which on we say our messages, and these. */
  async openAgain() {
    this.frames = [];
    this.coming = undefined; // until the server tells it
    await this.#connect();
    this.#write(spelled({ type: SEQUENCE, sequenceId: this.kept[0]?.number ?? this.sent + 1 }));
    for (const { text } of this.kept) this.#write(text);
  }

  async #connect() {
    this.inbox = new Inbox(this.address);
    await this.inbox.opened;
  }

  /** The socket is gone without a word, as if the network had failed. */
  lose() {
    this.inbox.socket.terminate();
    this.inbox = undefined;
  }

  /** Ends the connection, and answers the status with which the server closes the socket. */
  async close() {
    this.#write(spelled({ type: CLOSE }));
    return this.inbox.closed;
  }

  // What goes out

  #write(text) {
    this.inbox.socket.send(text);
  }

  /** Sends a numbered message. Without a socket it is only kept. */
  send(message) {
    this.sent += 1;
    const text = spelled(message);
    this.kept.push({ number: this.sent, text });
    if (this.inbox) this.#write(text);
  }

  acknowledge() {
    this.told = this.processed;
    this.#write(spelled({ type: ACK, sequenceId: this.processed }));
  }

  /** Sends a call, and answers its id and those of its uploads. */
  begin(kind, target, args, uploads = 0) {
    const [call, ...streams] = Array.from({ length: 1 + uploads }, (_, n) => String(this.lastId + 1 + n));
    this.lastId += 1 + uploads;
    const message = { type: kind, invocationId: call, target, arguments: args };
    this.send(uploads > 0 ? { ...message, streamIds: streams } : message);
    return [call, ...streams];
  }

  // What comes in

  async #frame() {
    while (this.frames.length === 0) {
      const message = String(await this.inbox.next());
      this.frames = message.split(RECORD).slice(0, -1);
    }
    return this.frames.shift();
  }

  /** Counts a numbered message, and answers whether it didn't come before. */
  #isNew() {
    if (this.coming === undefined) return false;
    const number = this.coming;
    this.coming += 1;
    if (number <= this.processed) {
      this.duplicates += 1;
      return false;
    }
    this.processed = number;
    return true;
  }

  /** Waits for a message, and does what it asks for. */
  async #handle() {
    const message = JSON.parse(await this.#frame());
    if (message.type <= LAST_NUMBERED) {
      if (this.#isNew()) this.#take(message);
      if (this.acks && this.processed - this.told >= ACK_AFTER) this.acknowledge();
    } else if (message.type === SEQUENCE) {
      this.coming = message.sequenceId;
    } else if (message.type === ACK) {
      this.kept = this.kept.filter(({ number }) => number > message.sequenceId);
    } else if (message.type === CLOSE) {
      throw new Error(`closed: ${message.error}`);
    }
  }

  #take(message) {
    if (message.type === ITEM) this.itemsOf(message.invocationId).push(message.item);
    else if (message.type === COMPLETION) this.endings.set(message.invocationId, message);
    else if (message.type === INVOCATION) this.calls.push(message);
  }

  itemsOf(call) {
    if (!this.items.has(call)) this.items.set(call, []);
    return this.items.get(call);
  }

  /** The completion of a call, once it came. */
  async ending(call) {
    while (!this.endings.has(call)) await this.#handle();
    return this.endings.get(call);
  }

  /** Waits until so many items of a stream came. */
  async someItems(call, count) {
    while (this.itemsOf(call).length < count) await this.#handle();
  }

  /** The next call that the server makes. */
  async serverCall() {
    while (this.calls.length === 0) await this.#handle();
    return this.calls.shift();
  }

  /** Makes a call, and answers its completion. */
  async call(target, ...args) {
    const [call] = this.begin(INVOCATION, target, args);
    return this.ending(call);
  }

  /** Asks for a stream, and answers its completion. */
  async stream(target, ...args) {
    const [call] = this.begin(STREAM, target, args);
    return this.ending(call);
  }
}
