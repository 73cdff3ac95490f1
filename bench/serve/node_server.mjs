#!/usr/bin/env node
// A SignalR hub server over Node's `http` and the package `ws`, to measure `sr serve` beside. It is no test.
//
//     node bench/serve/node_server.mjs PORT [single]
//
// It has what bench/serve/load.c asks for: negotiate, WebSockets, the hub protocol in JSON, Echo, Join, Post and Count, pings and
// silences. A stream says 64 items and then lets others have a turn: in one message, or with `single` in 64. It prints `serving PORT`
// once it listens.
import { randomBytes } from 'node:crypto';
import { once } from 'node:events';
import { createServer } from 'node:http';
import { createRequire } from 'node:module';
import { setImmediate } from 'node:timers/promises';

const BASE = '/hub';
const SEPARATOR = '\x1e';
const PING = JSON.stringify({ type: 6 }) + SEPARATOR;
const KEEP_ALIVE = 15_000;
const SILENCE = 30_000;
const FRESH = 30_000;
const MOST = 1_048_576;
const TURN = 64;

const port = Number(process.argv[2]);
const isSingle = process.argv[3] === 'single';
const { WebSocketServer } = installed('ws');

const connections = new Set();
const rooms = new Map();
const rows = [];
const tokens = new Map();
let made = 0;

// A package that stands beside this file, or where Debian puts it, which other builds of Node don't look for.
function installed(name) {
  const require = createRequire(import.meta.url);
  try {
    return require(name);
  } catch {
    return require(`/usr/share/nodejs/${name}`);
  }
}

class Connection {
  constructor(socket, stream) {
    made += 1;
    this.number = String(made);
    this.socket = socket;
    this.stream = stream;
    this.rest = '';
    this.isShaken = false;
    this.streams = new Set();
    this.rooms = new Set();
    this.heardAt = this.saidAt = Date.now();
    connections.add(this);
    socket.on('message', (bytes) => this.hear(bytes.toString()));
    socket.on('close', () => this.end());
    socket.on('error', () => socket.terminate());
  }

  end() {
    connections.delete(this);
    this.streams.clear();
    for (const room of this.rooms) leave(room, this);
  }

  hear(text) {
    this.heardAt = Date.now();
    const held = this.rest === '' ? text : this.rest + text;
    let begin = 0;
    for (let end = held.indexOf(SEPARATOR); end >= 0; end = held.indexOf(SEPARATOR, begin)) {
      const frame = held.slice(begin, end);
      begin = end + 1;
      if (this.isShaken) this.take(JSON.parse(frame));
      else this.shake(JSON.parse(frame));
    }
    this.rest = held.slice(begin);
  }

  shake({ protocol, version }) {
    this.isShaken = protocol === 'json' && version <= 2;
    this.write(this.isShaken ? '{}' + SEPARATOR : JSON.stringify({ error: 'The protocol is not known.' }) + SEPARATOR);
    if (!this.isShaken) this.socket.close();
  }

  take(message) {
    switch (message.type) {
      case 1:
        return this.call(message);
      case 4:
        return this.count(message);
      case 5:
        return this.streams.delete(message.invocationId);
      case 7:
        return this.socket.close();
    }
  }

  call({ invocationId, target, arguments: words }) {
    const method = methods[target];
    const ending = method ? { result: method(this, ...words) } : { error: 'Unknown method.' };
    if (invocationId !== undefined) this.say({ type: 3, invocationId, ...ending });
  }

  async count({ invocationId, target, arguments: [count] }) {
    if (target !== 'Count') return this.say({ type: 3, invocationId, error: 'Unknown method.' });
    this.streams.add(invocationId);
    for (let next = 1; next <= count && this.streams.has(invocationId); ) {
      const items = [];
      for (const end = Math.min(count, next + TURN - 1); next <= end; next += 1) {
        items.push(JSON.stringify({ type: 2, invocationId, item: next }) + SEPARATOR);
      }
      if (isSingle) for (const item of items) this.write(item);
      else this.write(items.join(''));
      if (this.stream.writableNeedDrain) await once(this.stream, 'drain');
      else await setImmediate();
    }
    this.streams.delete(invocationId);
    this.say({ type: 3, invocationId });
  }

  say(message) {
    this.write(JSON.stringify(message) + SEPARATOR);
  }

  write(text) {
    this.saidAt = Date.now();
    this.socket.send(text, { binary: false });
  }
}

const methods = {
  Echo: (_connection, value) => value,

  Join(connection, room) {
    connection.rooms.add(room);
    if (!rooms.has(room)) rooms.set(room, new Set());
    rooms.get(room).add(connection);
  },

  Post(connection, room, text) {
    rows.push([room, connection.number, text]);
    const call = { type: 1, target: 'Posted', arguments: [room, connection.number, text] };
    const bytes = Buffer.from(JSON.stringify(call) + SEPARATOR);
    for (const member of rooms.get(room) ?? []) member.write(bytes);
  },
};

function leave(room, connection) {
  const members = rooms.get(room);
  members.delete(connection);
  if (members.size === 0) rooms.delete(room);
}

function keepAlive() {
  const now = Date.now();
  for (const connection of connections) {
    if (now - connection.heardAt >= SILENCE) connection.socket.terminate();
    else if (now - connection.saidAt >= KEEP_ALIVE) connection.write(PING);
  }
  for (const [token, at] of tokens) {
    if (now - at < FRESH) break;
    tokens.delete(token);
  }
}

function negotiate(request, response) {
  const { pathname } = new URL(request.url, 'http://localhost');
  if (request.method !== 'POST' || pathname !== `${BASE}/negotiate`) return response.writeHead(404).end();
  const token = randomBytes(16).toString('base64url');
  tokens.set(token, Date.now());
  const transports = [{ transport: 'WebSockets', transferFormats: ['Text'] }];
  const body = JSON.stringify({ connectionId: token, connectionToken: token, negotiateVersion: 1, availableTransports: transports });
  return response.writeHead(200, { 'Content-Type': 'application/json', 'Content-Length': body.length }).end(body);
}

function upgrade(request, stream, head) {
  const { pathname, searchParams } = new URL(request.url, 'http://localhost');
  const token = searchParams.get('id');
  if (pathname !== BASE || (token !== null && !tokens.delete(token))) {
    stream.end('HTTP/1.1 404 Not Found\r\nContent-Length: 0\r\n\r\n');
    return;
  }
  sockets.handleUpgrade(request, stream, head, (socket) => new Connection(socket, stream));
}

const sockets = new WebSocketServer({ noServer: true, perMessageDeflate: false, maxPayload: MOST, clientTracking: false });
const server = createServer({ noDelay: true }, negotiate);
server.on('upgrade', upgrade);
server.listen({ port, host: '127.0.0.1', backlog: 1024 }, () => console.log(`serving ${port}`));
setInterval(keepAlive, 1_000);
