#!/usr/bin/env node
// A SignalR hub client over Node's `http` and the package `ws`, to measure `sr client` beside. It is no test.
//
//     node bench/serve/node_client.mjs URL < SCRIPT
//
// It does what bench/client.py asks for, and prints what `sr client` prints: its script, which it reads whole first, has lines `call TARGET ARGS` and
// `wait`. It negotiates, asks for a connection that outlives its socket, keeps what isn't acknowledged, and acknowledges what comes. What is to be
// said when a message was heard goes out in one message, and what is to be printed in one write. It doesn't dial again.
import { readFileSync } from 'node:fs';
import { request } from 'node:http';
import { createRequire } from 'node:module';

const SEPARATOR = '\x1e';
const [INVOCATION, COMPLETION, PING, CLOSE, ACK] = [1, 3, 6, 7, 8];
const LAST_NUMBERED = 5;
const KEEP_ALIVE = 15_000;
const MOST_KEPT = 1_024;
const MOST_KEPT_BYTES = 100_000;

const { WebSocket } = installed('ws');

// A package that stands beside this file, or where Debian puts it, which other builds of Node don't look for.
function installed(name) {
  const require = createRequire(import.meta.url);
  try {
    return require(name);
  } catch {
    return require(`/usr/share/nodejs/${name}`);
  }
}

function parsed(text) {
  return text
    .split('\n')
    .filter((line) => line !== '' && !line.startsWith('#'))
    .map((line) => {
      if (line === 'wait') return null;
      const [, target, words] = /^call ([^ ]+) (.*)$/.exec(line);
      return { target, arguments: JSON.parse(words) };
    });
}

function negotiated(url) {
  return new Promise((done, fail) => {
    const asked = request(`${url}/negotiate?negotiateVersion=1&useStatefulReconnect=true`, { method: 'POST' }, async (response) => {
      const pieces = await response.toArray();
      done(JSON.parse(Buffer.concat(pieces).toString()).connectionToken);
    });
    asked.on('error', fail).end();
  });
}

class Client {
  constructor(script, socket) {
    this.script = script;
    this.socket = socket;
    this.passed = 0;
    this.isShaken = false;
    this.isClosed = false;
    this.rest = '';
    this.live = new Set();
    this.made = 0;
    this.sent = 0;
    this.kept = []; // the bytes of each message that isn't acknowledged
    this.keptBytes = 0;
    this.processed = 0;
    this.acknowledged = 0;
    this.said = [];
    this.printed = [];
    this.saidAt = Date.now();
    socket.on('message', (bytes) => this.hear(bytes.toString()));
    socket.on('close', () => process.exit(this.isClosed ? 0 : 8));
    setInterval(() => this.ping(), 1_000).unref();
    this.write(JSON.stringify({ protocol: 'json', version: 2 }) + SEPARATOR);
  }

  hear(text) {
    const held = this.rest === '' ? text : this.rest + text;
    let begin = 0;
    for (let end = held.indexOf(SEPARATOR); end >= 0; end = held.indexOf(SEPARATOR, begin)) {
      this.take(JSON.parse(held.slice(begin, end)));
      begin = end + 1;
    }
    this.rest = held.slice(begin);
    this.obey();
    this.tell();
  }

  take(message) {
    if (!this.isShaken) {
      this.isShaken = true;
      this.printed.push('shaken\n');
    } else if (message.type <= LAST_NUMBERED) {
      this.processed += 1;
      if (message.type === COMPLETION) this.end(message);
    } else if (message.type === ACK) {
      const count = this.kept.length - (this.sent - message.sequenceId);
      for (const text of this.kept.splice(0, count)) this.keptBytes -= text.length;
    } else if (message.type === CLOSE) {
      this.printed.push(`closed ${message.error ?? '-'}\n`);
    }
  }

  end({ invocationId, error, result }) {
    if (!this.live.delete(invocationId)) return;
    const ending = error !== undefined ? `error ${JSON.stringify(error)}` : result === undefined ? 'void' : `result ${JSON.stringify(result)}`;
    this.printed.push(`ended ${invocationId} ${ending}\n`);
  }

  obey() {
    while (this.passed < this.script.length && this.line(this.script[this.passed])) this.passed += 1;
    if (this.passed === this.script.length && this.live.size === 0) this.isClosed = true;
  }

  // Whether the line is done.
  line(call) {
    if (call === null) return this.live.size === 0;
    const invocationId = String(this.made + 1);
    const text = JSON.stringify({ arguments: call.arguments, invocationId, target: call.target, type: INVOCATION }) + SEPARATOR;
    if (this.kept.length === MOST_KEPT || this.keptBytes + text.length > MOST_KEPT_BYTES) return false;
    this.made += 1;
    this.sent += 1;
    this.live.add(invocationId);
    this.kept.push(text);
    this.keptBytes += text.length;
    this.said.push(text);
    this.printed.push(`call ${invocationId}\n`);
    return true;
  }

  // Says and prints what came of a message.
  tell() {
    if (this.isClosed) {
      this.said.push(JSON.stringify({ type: CLOSE }) + SEPARATOR);
    } else if (this.processed > this.acknowledged) {
      this.acknowledged = this.processed;
      this.said.unshift(JSON.stringify({ sequenceId: this.processed, type: ACK }) + SEPARATOR);
    }
    if (this.said.length > 0) this.write(this.said.join(''));
    if (this.printed.length > 0) process.stdout.write(this.printed.join(''));
    this.said = [];
    this.printed = [];
    if (this.isClosed) this.socket.close(1000);
  }

  ping() {
    if (Date.now() - this.saidAt >= KEEP_ALIVE) this.write(JSON.stringify({ type: PING }) + SEPARATOR);
  }

  write(text) {
    this.saidAt = Date.now();
    this.socket.send(text, { binary: false });
  }
}

const [url] = process.argv.slice(2);
const script = parsed(readFileSync(0, 'utf8'));
const token = await negotiated(url);
const socket = new WebSocket(`${url.replace('http', 'ws')}?id=${encodeURIComponent(token)}`, { perMessageDeflate: false });
socket.on('open', () => new Client(script, socket));
socket.on('error', () => process.exit(8));
