// The page of a chat: one room at a time, and a stream that shows that nothing is lost or told twice. Names, times and who is in a room
// are texts that pages post: the server knows none of it.

import { Connection } from "./connection.js";

const EARLIER = 50; // texts of a room that are shown to one who joins, or fewer if these are long
const ITEMS = 1_000;

const byId = (id) => document.getElementById(id);
const controls = [...document.querySelectorAll("#post input, #post button, #ask, #stream")];

const connection = new Connection(new URL("hub", document.baseURI));
let room = null; // the room that we are in, or are to be in once there is a connection
let newer = null; // what was posted while the room's history is on its way
let here = new Map(); // the names of those in the room, by the numbers of their connections

// The log

/** A text of a page is JSON with a name and a time, of which the server knows nothing. One of another program is a text alone. */
function parsed(text) {
  try {
    const { name, at, said } = JSON.parse(text);
    if (typeof name === "string" && typeof said === "string") return { name, at, said };
  } catch {
    // a text alone
  }
  return { said: text };
}

function show(kind, { name, at, said }) {
  const line = document.createElement("li");
  line.className = kind;
  if (Number.isFinite(at)) line.append(element("time", new Date(at).toLocaleTimeString([], { timeStyle: "short" })));
  if (name) line.append(element("b", name));
  line.append(said);
  const log = byId("log");
  log.append(line);
  log.scrollTop = log.scrollHeight;
}

function element(kind, text) {
  const made = document.createElement(kind);
  made.textContent = text;
  return made;
}

const note = (said) => show("note", { said });

function showPost(who, text) {
  show(who === connection.id ? "mine" : "theirs", { name: who, ...parsed(text) });
}

// Rooms

const myName = () => byId("name").value;

connection.on("Posted", (where, who, text) => {
  if (where === hall(room)) return meet(who, text);
  if (where !== room) return;
  if (newer) newer.push([who, text]);
  else showPost(who, text);
});

/** The last texts of a room: half as many, and again, where so many are too long for one answer. */
async function lastTexts(count) {
  try {
    return await connection.call("History", room, count);
  } catch (error) {
    if (error.message !== "The answer is too long." || count === 0) throw error;
    return lastTexts(Math.floor(count / 2));
  }
}

/** History tells no connections, so what was posted since we joined is shown by what was called, and not a second time by the history. */
async function enter(name) {
  room = name;
  newer = [];
  here = new Map();
  try {
    await connection.call("Join", room);
    await connection.call("Join", hall(room));
    const earlier = await lastTexts(EARLIER);
    const known = new Set(newer.map(([, text]) => text));
    for (const line of byId("log").querySelectorAll("li:not(.fault)")) line.remove();
    for (const text of earlier.filter((text) => !known.has(text))) show("earlier", { name: "earlier", ...parsed(text) });
    note(`You are ${connection.id} in the room ${room}.`);
    for (const [who, text] of newer) showPost(who, text);
    callRoll();
  } catch (error) {
    note(error.message);
  }
  newer = null;
}

// Who is in the room: pages say so in a second room, its hall, so that the room's history has none of it. One who enters asks, and each
// answers. Who left without a word is still named until somebody asks again.

const hall = (name) => `${name} (who is here)`;

const sayHere = (what) => connection.notify("Post", hall(room), JSON.stringify({ name: myName(), ...what }));

const callRoll = () => sayHere({ asks: true });

function meet(who, text) {
  const { name, asks, leaves } = JSON.parse(text);
  if (asks) here.clear();
  if (asks && who !== connection.id) sayHere({});
  if (leaves) here.delete(who);
  else here.set(who, String(name));
  byId("here").textContent = [...here.values()].sort().join(", ");
}

function leave() {
  sayHere({ leaves: true });
  connection.notify("Leave", hall(room));
  connection.notify("Leave", room);
}

const isThere = () => connection.state === "connected" || connection.state === "resuming";

async function change(name) {
  if (isThere()) {
    if (room !== name) leave();
    return enter(name);
  }
  room = name; // which is entered once there is a connection
  if (connection.state === "stopped") connection.start();
}

connection.onstart = () => enter(room);

// The forms

byId("join").addEventListener("submit", (event) => {
  event.preventDefault();
  change(byId("room").value);
});

byId("post").addEventListener("submit", (event) => {
  event.preventDefault();
  const said = byId("text").value;
  byId("text").value = "";
  const text = JSON.stringify({ name: myName(), at: Date.now(), said });
  connection.call("Post", room, text).catch(() => show("fault", { said: `It isn't known whether this was posted: ${said}` }));
});

byId("ask").addEventListener("click", callRoll);

// Nothing is lost by it: the connection goes on over another socket.
byId("cut").addEventListener("click", () => connection.cut());

byId("stream").addEventListener("click", async () => {
  let count = 0;
  let gaps = 0;
  const tell = (text) => (byId("items").textContent = text);
  byId("stream").disabled = true;
  try {
    const { ended } = connection.stream("Count", [ITEMS], (item) => {
      count++;
      if (item !== count) gaps++;
      byId("progress").value = count;
      tell(`${count} items`);
    });
    await ended;
    tell(gaps === 0 && count === ITEMS ? `${count} items in order, no gap` : `${count} items, ${gaps} out of order`);
  } catch (error) {
    tell(`${count} items, then: ${error.message}`);
  }
  byId("stream").disabled = connection.state === "stopped";
});

// The state

connection.onstate = (state, why) => {
  byId("state").textContent = byId("state").dataset.state = state;
  // While a connection resumes, all may be used: what is sent then is kept until there is a socket.
  for (const control of controls) control.disabled = !isThere();
  byId("cut").disabled = state !== "connected";
  if (why) note(why.message);
};

setInterval(() => {
  const { id, resumed, processed, kept } = connection;
  byId("counts").textContent = id
    ? `connection ${id} · resumptions ${resumed} · processed messages ${processed} · unacknowledged ${kept}`
    : "";
}, 200);

// A page that is left ends its connection, else the server keeps it for a while.
addEventListener("pagehide", () => {
  if (isThere()) leave();
  connection.stop();
});
