// A session with a hub server, as a client in JavaScript has it: Node, and Debian's node-ws 8.11.
//
//     NODE_PATH=/usr/share/nodejs node session.mjs http://127.0.0.1:PORT/hub
//
// The server must be a fresh one, since connections are counted. What is printed has to be session.txt; session.py prints the same.
import http from "node:http";
import { INVOCATION, ITEM, COMPLETION, STREAM, CANCEL, RECORD, Hub, Inbox, WebSocket, socketAddress, spelled } from "./hub.mjs";
import { framed, frames, packed, unpacked } from "./pack.mjs";

const NESTED = { list: [1, -2, null, true, [], ""], map: { a: { b: {} } }, text: 'grüße 😀 "\\\n', whole: 9007199254740991 };

const print = (line) => process.stdout.write(`${line}\n`);
const shown = JSON.stringify;

/** How a call ended, in words. */
function ending(completion) {
  if ("error" in completion) return `error ${completion.error}`;
  return "result" in completion ? `result ${shown(completion.result)}` : "void";
}

const isFromOne = (items) => items.every((item, place) => item === place + 1);

/** One request on a connection of its own: the status and the body of its reply. */
function request(base, method, path, body) {
  const fields = body === undefined ? {} : { "Content-Length": Buffer.byteLength(body) };
  return new Promise((done, fail) => {
    const asked = http.request(base + path, { method, headers: fields, agent: false }, async (reply) => {
      const pieces = await reply.toArray();
      done({ status: reply.statusCode, body: String(Buffer.concat(pieces)) });
    });
    asked.on("error", fail).end(body);
  });
}

async function negotiate(base, query = "&useStatefulReconnect=true") {
  const { status, body } = await request(base, "POST", `/negotiate?negotiateVersion=1${query}`);
  return { status, told: JSON.parse(body) };
}

async function connect(base) {
  const { told } = await negotiate(base);
  const hub = new Hub(base, told.connectionToken);
  await hub.open();
  return hub;
}

async function greet(base) {
  const { status, told } = await negotiate(base);
  const { negotiateVersion, connectionId, useStatefulReconnect } = told;
  print(`negotiate ${status} version ${negotiateVersion} connection ${connectionId} reconnect ${useStatefulReconnect}`);
  for (const { transport, transferFormats } of told.availableTransports) print(`transport ${transport} ${transferFormats.join(" ")}`);
  const hub = new Hub(base, told.connectionToken);
  print(`handshake ${await hub.open()}`);
  return hub;
}

async function calls(hub) {
  print(`Add ${ending(await hub.call("Add", 2, 3))}`);
  print(`Echo ${ending(await hub.call("Echo", NESTED))}`);
  print(`Fail ${ending(await hub.call("Fail", "broken"))}`);
  print(`Nothing ${ending(await hub.call("Nothing"))}`);
  print(`Add of one ${ending(await hub.call("Add", 1))}`);
  print(`Count as a call ${ending(await hub.call("Count", 5))}`);
  print(`Echo as a stream ${ending(await hub.stream("Echo", 5))}`);
}

async function streams(hub) {
  const [count] = hub.begin(STREAM, "Count", [5]);
  const end = await hub.ending(count);
  print(`Count items ${shown(hub.itemsOf(count))} ${ending(end)}`);
  const [call, upload] = hub.begin(INVOCATION, "Sum", [], 1);
  for (const item of [1, 2, 3]) hub.send({ type: ITEM, invocationId: upload, item });
  hub.send({ type: COMPLETION, invocationId: upload });
  print(`Sum ${ending(await hub.ending(call))}`);
  const [long] = hub.begin(STREAM, "Count", [1_000_000]);
  await hub.someItems(long, 10);
  hub.send({ type: CANCEL, invocationId: long });
  const cancelled = ending(await hub.ending(long));
  const items = hub.itemsOf(long);
  print(`Count cancelled ${cancelled} in order ${isFromOne(items)} early ${items.length < 1_000_000}`);
}

async function clientResult(hub) {
  const [ask] = hub.begin(INVOCATION, "Ask", ["Confirm", 7]);
  const asked = await hub.serverCall();
  print(`asked ${asked.target} ${shown(asked.arguments)}`);
  hub.send({ type: COMPLETION, invocationId: asked.invocationId, result: asked.arguments[0] });
  print(`Ask ${ending(await hub.ending(ask))}`);
}

async function room(base, first) {
  const second = await connect(base);
  for (const hub of [first, second]) print(`Join ${ending(await hub.call("Join", "lobby"))}`);
  print(`Post ${ending(await first.call("Post", "lobby", "hello"))}`);
  for (const [name, hub] of Object.entries({ first, second })) {
    const posted = await hub.serverCall();
    print(`${name} got ${posted.target} ${shown(posted.arguments)} answer wanted ${"invocationId" in posted}`);
  }
  print(`Leave ${ending(await second.call("Leave", "lobby"))}`);
  print(`Post ${ending(await second.call("Post", "lobby", "from outside"))}`);
  print(`first got ${shown((await first.serverCall()).arguments)}`);
  print(`History ${ending(await first.call("History", "lobby", 10))}`);
  print(`second closed ${await second.close()}, and was called ${second.calls.length} times more`);
}

/** The socket is dropped in the middle of a stream. While we acknowledge nothing, the server has to say all of it again. */
async function losses(hub) {
  hub.acknowledge();
  hub.acks = false;
  const [count] = hub.begin(STREAM, "Count", [200]);
  await hub.someItems(count, 50);
  hub.lose();
  const [echo] = hub.begin(INVOCATION, "Echo", ["said without a socket"]);
  await hub.openAgain();
  const end = ending(await hub.ending(count));
  const items = hub.itemsOf(count);
  print(`Count across sockets ${items.length} items in order ${isFromOne(items)} ${end} duplicates ${hub.duplicates}`);
  print(`Echo ${ending(await hub.ending(echo))}`);
  hub.acknowledge();
  print(`Add ${ending(await hub.call("Add", 1, 2))}`);
  hub.duplicates = 0;
  hub.lose();
  await hub.openAgain();
  print(`Add ${ending(await hub.call("Add", 20, 22))} duplicates ${hub.duplicates}`);
  hub.acks = true;
}

/** A connection without a negotiate. Its handshake is JSON, and what follows is MessagePack. */
async function messagePack(base) {
  const inbox = new Inbox(socketAddress(base));
  await inbox.opened;
  inbox.socket.send('{"protocol":"messagepack","version":1}' + RECORD);
  print(`pack handshake ${String(await inbox.next()).replace(RECORD, "")}`);
  inbox.socket.send(framed(packed([1, {}, "1", "Add", [2, 3], []])));
  const answer = await inbox.next();
  print(`pack answer ${answer.toString("hex")}`);
  for (const frame of frames(answer)) print(`pack says ${shown(unpacked(frame)[0])}`);
  inbox.socket.close();
}

async function longPolling(base) {
  const { told } = await negotiate(base, "");
  const target = `?id=${told.connectionToken}`;
  const ask = async (name, method, body) => {
    const reply = await request(base, method, target, body);
    print(`${name} ${reply.status} ${reply.body.replaceAll(RECORD, " ").trim()}`);
  };
  print(`poll reconnect ${told.useStatefulReconnect ?? false}`);
  await ask("first poll", "GET");
  const call = { type: INVOCATION, invocationId: "1", target: "Add", arguments: [2, 3] };
  await ask("post", "POST", '{"protocol":"json","version":1}' + RECORD + spelled(call));
  await ask("poll", "GET");
  await ask("delete", "DELETE");
  await ask("poll", "GET");
}

async function refusals(base) {
  print(`no version ${(await request(base, "POST", "/negotiate")).status} `);
  print(`wrong id ${(await request(base, "GET", "?id=nobody")).status} `);
  const socket = new WebSocket(socketAddress(base, "nobody"));
  const status = await new Promise((done) => socket.on("unexpected-response", (_, reply) => done(reply.statusCode)));
  print(`socket with a wrong id ${status}`);
}

const [base] = process.argv.slice(2);
const hub = await greet(base);
await calls(hub);
await streams(hub);
await clientResult(hub);
await room(base, hub);
await losses(hub);
await messagePack(base);
await longPolling(base);
await refusals(base);
print(`closed ${await hub.close()}`);
process.exit(0);
