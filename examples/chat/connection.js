// A SignalR connection over the browser's WebSocket, in the JSON hub protocol, version 2, that goes on after its socket is lost.
//
//     const connection = new Connection(new URL("hub", document.baseURI));
//     connection.on("Posted", (room, who, text) => show(who, text));   // the server calls it
//     connection.onstart = () => connection.call("Join", "lobby");     // a new connection: the server knows nothing of us
//     connection.onstate = (state) => tell(state);                     // connecting, connected, resuming, stopped
//     connection.start();
//     const sum = await connection.call("Add", 2, 3);
//
// How it goes on. Both sides number the messages of types 1 to 5 that they send, from 1; pings, acks, sequences and closes have no
// number. Each side keeps a message until an Ack of the other covers its number. A later socket has the same token. On it each side
// first says, in a Sequence, the number of the first message that it keeps, and then these messages again. So each knows which of
// them it had before, and passes over these: a call is made once, and an item comes once, however many sockets it takes.
//
// A token lives for a while after the loss. Once the server knows it no more, all calls that are open fail and a new connection begins.
// Of a call that failed in this way nobody knows whether it was made.
//
// Calls, streams of the server, and calls by the server are here; streams to the server aren't.

const SEPARATOR = "\u001e";
const [INVOCATION, ITEM, COMPLETION, STREAM, CANCEL, PING, CLOSE, ACK, SEQUENCE] = [1, 2, 3, 4, 5, 6, 7, 8, 9];

const PING_AFTER = 15_000; // milliseconds without a word of ours
const LOST_AFTER = 30_000; // milliseconds without a word of the server
const ANSWERED_WITHIN = 10_000; // milliseconds until a socket is open, or a request answered
const ACK_AFTER = 500; // milliseconds: one Ack for all messages of that time
const ACK_EACH = 16; // messages for which no longer is waited, so that the server keeps few
const MOST_KEPT = 1_000; // messages of ours that wait for an Ack
const PAUSES = [0, 250, 500, 1_000, 2_000, 5_000]; // milliseconds before the first try, the second, ..
const MOST_PAUSE = 1_000; // milliseconds while we resume, since the server waits for half a minute only

/** What we sent and the server didn't acknowledge: frames with consecutive numbers. */
class Outbox {
  #frames = [];
  first = 1; // the number of the first that is kept, or of the next if none is

  get size() {
    return this.#frames.length;
  }

  push(frame) {
    this.#frames.push(frame);
  }

  acknowledge(upto) {
    this.first += this.#frames.splice(0, Math.max(0, upto - this.first + 1)).length;
  }

  frames() {
    return [...this.#frames];
  }
}

/** Which messages of the server were processed: all up to a number. */
class Inbox {
  processed = 0;
  #next = 1; // the number of the next message on this link, or null before a later link's Sequence

  beginLink() {
    this.#next = null;
  }

  /** False if messages are missing between what was processed and `first`. */
  sequence(first) {
    if (first > this.processed + 1) return false;
    this.#next = first;
    return true;
  }

  /** Counts the next message. False if it isn't to be processed, since it was before or has no number yet. */
  count() {
    if (this.#next === null) return false;
    const number = this.#next++;
    if (number <= this.processed) return false;
    this.processed = number;
    return true;
  }
}

/** The reply to a POST without a body, or null if none came. */
function post(url) {
  return fetch(url, { method: "POST", signal: AbortSignal.timeout(ANSWERED_WITHIN) }).catch(() => null);
}

/** What the page does wrong is told on its console, and doesn't stop the connection. */
function safely(method, ...values) {
  try {
    method(...values);
  } catch (error) {
    reportError(error);
  }
}

export class Connection {
  onstart = () => {}; // a new connection stands
  onstate = (state, why) => {}; // `why` is an Error or absent
  state = "stopped";
  id = null; // by which the server names this connection to others
  resumed = 0; // how often this connection went on over another socket

  #url;
  #methods = new Map();
  #run = 0; // rises with each new connection and each stop: what an older run awaited is dropped
  #token = null;
  #resumes = false; // the server granted it
  #shaken = false;
  #socket = null;
  #greeted = false; // messages may go out on this socket
  #rest = "";
  #tries = 0;
  #heardAt = 0;
  #wroteAt = 0;
  #clock = null;
  #ackClock = null;
  #acknowledged = 0; // the greatest Ack that we sent on this link
  #outbox = new Outbox();
  #inbox = new Inbox();
  #lastId = 0;
  #calls = new Map(); // by id: { resolve, reject, onItem }

  /** `url` is the hub's, with the scheme http or https. */
  constructor(url) {
    this.#url = new URL(url);
  }

  get processed() {
    return this.#inbox.processed;
  }

  get kept() {
    return this.#outbox.size;
  }

  /** What is done when the server calls `target`. What `method` returns is the answer, if the server wants one. */
  on(target, method) {
    this.#methods.set(target, method);
  }

  /** Begins a new connection, and tries until one stands. */
  start() {
    this.#forget(new Error("A new connection was started."));
    this.#tries = 0;
    this.#connect();
  }

  /** Ends the connection for good, so that the server doesn't wait for another socket. */
  stop() {
    if (this.#greeted) this.#write({ type: CLOSE });
    this.#end();
  }

  /** Loses the socket, as a network may, and goes on over another one a second later. */
  cut() {
    if (!this.#greeted) return;
    this.#tries = PAUSES.length;
    this.#lose();
  }

  /** Resolves with the result, and rejects with the server's error or if the connection is lost for good. */
  call(target, ...values) {
    return this.#begin(INVOCATION, target, values, null).ended;
  }

  /** Calls without an answer. */
  notify(target, ...values) {
    this.#send({ type: INVOCATION, target, arguments: values });
  }

  /** Hands each item to `onItem`, in order. `ended` resolves at the stream's end, `cancel()` asks the server to end it. */
  stream(target, values, onItem) {
    const { id, ended } = this.#begin(STREAM, target, values, onItem);
    const cancel = () => this.#calls.has(id) && this.#send({ type: CANCEL, invocationId: id });
    return { ended, cancel };
  }

  #begin(type, target, values, onItem) {
    const id = String(++this.#lastId);
    const ended = new Promise((resolve, reject) => {
      this.#send({ type, invocationId: id, target, arguments: values }); // throws, and so rejects, if it can't be sent
      this.#calls.set(id, { resolve, reject, onItem });
    });
    return { id, ended };
  }

  // A new connection

  async #connect() {
    this.#tell("connecting");
    const run = this.#run;
    const answer = await this.#negotiate();
    if (run !== this.#run) return;
    if (!answer) return this.#later(() => this.#connect());
    this.id = answer.connectionId;
    this.#token = answer.connectionToken;
    this.#resumes = answer.useStatefulReconnect === true;
    this.#open();
  }

  async #negotiate() {
    const url = new URL(this.#url);
    url.pathname += "/negotiate";
    url.search = "negotiateVersion=1&useStatefulReconnect=true";
    const reply = await post(url);
    return reply?.ok ? reply.json().catch(() => null) : null;
  }

  #later(what) {
    const run = this.#run;
    const pause = PAUSES[Math.min(this.#tries++, PAUSES.length - 1)];
    setTimeout(() => run === this.#run && what(), this.#shaken ? Math.min(pause, MOST_PAUSE) : pause);
  }

  #urlWithToken() {
    const url = new URL(this.#url);
    url.searchParams.set("id", this.#token);
    return url;
  }

  // A link, which is one socket

  #open() {
    const url = this.#urlWithToken();
    url.protocol = url.protocol === "https:" ? "wss:" : "ws:";
    this.#socket = new WebSocket(url);
    this.#heardAt = performance.now();
    this.#socket.onopen = () => this.#greet();
    this.#socket.onmessage = (event) => this.#hear(event.data);
    this.#socket.onclose = () => this.#lose();
    this.#clock = setInterval(() => this.#tick(), 1_000);
  }

  #greet() {
    if (!this.#shaken) return this.#write({ protocol: "json", version: 2 });
    this.#inbox.beginLink();
    this.#greeted = true;
    this.#write({ type: SEQUENCE, sequenceId: this.#outbox.first });
    this.#acknowledge(); // before what may be long: the server keeps all that isn't acknowledged
    for (const frame of this.#outbox.frames()) this.#writeFrame(frame);
  }

  #leave() {
    clearInterval(this.#clock);
    clearTimeout(this.#ackClock);
    this.#ackClock = null;
    this.#greeted = false;
    this.#rest = "";
    this.#acknowledged = 0;
    if (!this.#socket) return;
    // A socket whose network is gone tells its close much later, when another has taken its place.
    this.#socket.onopen = this.#socket.onmessage = this.#socket.onclose = null;
    this.#socket.close();
    this.#socket = null;
  }

  #lose() {
    const wasGreeted = this.#greeted;
    this.#leave();
    if (!this.#shaken || !this.#resumes) return this.#beginAnew(new Error("The connection was lost."));
    this.#tell("resuming");
    if (wasGreeted) return this.#later(() => this.#open());
    this.#later(() => this.#openIfKnown());
  }

  // A browser tells no script with which status an upgrade was refused. A POST tells whether the token is known, and changes nothing:
  // 404 if it isn't known, and else another refusal (`sr` says 409), since such a token takes no posts.
  async #openIfKnown() {
    const run = this.#run;
    const reply = await post(this.#urlWithToken());
    if (run !== this.#run) return;
    if (reply?.status === 404) return this.#beginAnew(new Error("The server waited no longer."));
    if (reply?.status < 500) return this.#open();
    this.#later(() => this.#openIfKnown()); // no network, or a proxy without its server
  }

  #beginAnew(why) {
    this.#forget(why);
    this.#later(() => this.#connect());
    this.#tell("connecting", why);
  }

  #end(why) {
    this.#forget(why ?? new Error("The connection was stopped."));
    this.#tell("stopped", why);
  }

  #forget(why) {
    this.#leave();
    this.#run++;
    this.#shaken = false;
    this.#token = this.id = null;
    this.resumed = 0;
    this.#outbox = new Outbox();
    this.#inbox = new Inbox();
    const open = [...this.#calls.values()];
    this.#calls.clear();
    for (const call of open) call.reject(why);
  }

  #tell(state, why) {
    this.state = state;
    safely(this.onstate, state, why);
  }

  #tick() {
    const now = performance.now();
    const patience = this.#socket.readyState === WebSocket.CONNECTING ? ANSWERED_WITHIN : LOST_AFTER;
    if (now - this.#heardAt >= patience) this.#lose();
    else if (this.#greeted && now - this.#wroteAt >= PING_AFTER) this.#write({ type: PING });
  }

  // What goes out

  #send(message) {
    if (!this.#shaken) throw new Error("There is no connection.");
    if (this.#outbox.size >= MOST_KEPT) throw new Error("Too many messages wait for the server.");
    const frame = JSON.stringify(message) + SEPARATOR;
    if (this.#resumes) this.#outbox.push(frame);
    if (this.#greeted) this.#writeFrame(frame);
  }

  #write(message) {
    this.#writeFrame(JSON.stringify(message) + SEPARATOR);
  }

  #writeFrame(frame) {
    this.#socket.send(frame);
    this.#wroteAt = performance.now();
  }

  #acknowledgeSoon() {
    if (!this.#resumes) return;
    if (this.#inbox.processed - this.#acknowledged >= ACK_EACH) this.#acknowledge();
    else this.#ackClock ??= setTimeout(() => this.#acknowledge(), ACK_AFTER);
  }

  #acknowledge() {
    clearTimeout(this.#ackClock);
    this.#ackClock = null;
    if (this.#inbox.processed === this.#acknowledged) return;
    this.#acknowledged = this.#inbox.processed;
    this.#write({ type: ACK, sequenceId: this.#acknowledged });
  }

  // What comes in

  #hear(text) {
    const run = this.#run;
    this.#heardAt = performance.now();
    this.#tries = 0;
    const frames = (this.#rest + text).split(SEPARATOR);
    this.#rest = frames.pop();
    for (const frame of frames) {
      this.#takeFrame(frame);
      if (run !== this.#run) return;
    }
  }

  #takeFrame(frame) {
    let message;
    try {
      message = JSON.parse(frame);
    } catch (error) {
      return this.#end(error); // the two sides don't understand each other
    }
    this.#take(message);
  }

  #take(message) {
    if (!this.#shaken) return this.#takeHandshake(message);
    switch (message.type) {
      case PING:
        // A page in the background has slow timers, but hears at once; so the server's pings keep both sides awake.
        return this.#write({ type: PING });
      case CLOSE:
        return this.#takeClose(message);
      case ACK:
        return this.#outbox.acknowledge(message.sequenceId);
      case SEQUENCE:
        return this.#takeSequence(message);
      case INVOCATION:
      case ITEM:
      case COMPLETION:
      case STREAM:
      case CANCEL:
        if (this.#inbox.count()) this.#process(message);
        this.#acknowledgeSoon();
    }
  }

  #takeHandshake({ error }) {
    if (error) return this.#end(new Error(error));
    this.#shaken = this.#greeted = true;
    this.#tell("connected");
    safely(this.onstart);
  }

  #takeClose({ error, allowReconnect }) {
    const why = new Error(error ?? "The server closed the connection.");
    if (allowReconnect) this.#beginAnew(why);
    else this.#end(why);
  }

  #takeSequence({ sequenceId }) {
    if (!this.#inbox.sequence(sequenceId)) return this.#beginAnew(new Error("Messages of the server are missing."));
    if (this.state === "resuming") {
      this.resumed++;
      this.#tell("connected");
    }
  }

  #process(message) {
    const call = this.#calls.get(message.invocationId);
    switch (message.type) {
      case INVOCATION:
      case STREAM:
        return void this.#answer(message);
      case ITEM:
        return call?.onItem && safely(call.onItem, message.item);
      case COMPLETION:
        this.#calls.delete(message.invocationId);
        if (message.error == null) call?.resolve(message.result);
        else call?.reject(new Error(message.error));
    }
  }

  async #answer({ type, invocationId, target, arguments: values }) {
    const run = this.#run;
    const answer = { type: COMPLETION, invocationId };
    try {
      const method = this.#methods.get(target);
      if (!method || type === STREAM) throw new Error(`This client has no ${type === STREAM ? "stream" : "method"} ${target}.`);
      answer.result = await method(...values); // JSON has no field for undefined, and so says nothing of it
    } catch (error) {
      answer.error = String(error?.message ?? error);
    }
    if (invocationId != null && run === this.#run) this.#send(answer);
    else if (answer.error) console.error(answer.error);
  }
}
