// A scheduler over node: `http` with an agent that keeps one connection, or with the word fetch after the port over `fetch` and its
// pool: node with_node.js PORT [fetch].
const http = require("http");

const [port, way] = process.argv.slice(2);
const path = "/api/v1/scheduler";
const info = { user: "root", name: "n" };
const many = 200;
const agent = new http.Agent({ keepAlive: true, maxSockets: 1 });
const sockets = new Set();
const states = [];
const statuses = {};
let framework, stream;
let launched = false;

function options(own) {
  const fields = { "Content-Type": "application/json" };
  if (stream) fields["Mesos-Stream-Id"] = stream;
  return { host: "127.0.0.1", port, path, method: "POST", headers: fields, agent: own };
}

// Sends a call by `http`, and returns its response.
function post(call, own) {
  return new Promise((resolve, reject) => {
    const body = JSON.stringify(call);
    const asked = http.request(options(own), resolve);
    asked.on("error", reject);
    asked.on("socket", (socket) => own && sockets.add(socket));
    asked.setHeader("Content-Length", Buffer.byteLength(body));
    asked.end(body);
  });
}

async function send(call) {
  let status;
  if (way === "fetch") {
    const { headers } = options();
    const response = await fetch(`http://127.0.0.1:${port}${path}`, { method: "POST", headers, body: JSON.stringify(call) });
    await response.arrayBuffer();
    status = response.status;
  } else {
    const response = await post(call, agent);
    for await (const _ of response);
    status = response.statusCode;
  }
  statuses[status] = (statuses[status] || 0) + 1;
}

function call(type, body) {
  return { type, framework_id: framework, ...(body && { [type.toLowerCase()]: body }) };
}

async function hear(event) {
  if (event.type === "SUBSCRIBED") framework = event.subscribed.framework_id;
  if (event.type === "OFFERS" && !launched) {
    launched = true;
    const offer = event.offers.offers[0];
    const task = { name: "t", task_id: { value: "T1" }, agent_id: offer.agent_id, resources: offer.resources };
    await send(call("ACCEPT", { offer_ids: [offer.id], operations: [{ type: "LAUNCH", launch: { task_infos: [task] } }] }));
  }
  if (event.type !== "UPDATE") return;
  const { agent_id, task_id, uuid, state } = event.update.status;
  states.push(state);
  await send(call("ACKNOWLEDGE", { agent_id, task_id, uuid }));
  if (state === "TASK_RUNNING") {
    for (let at = 0; at < many; at += 20) {
      await Promise.all(Array.from({ length: 20 }, () => send(call("REVIVE"))));
    }
    await send(call("KILL", { task_id: { value: "T1" } }));
  }
  if (state === "TASK_KILLED") await send(call("TEARDOWN"));
}

async function main() {
  const subscribe = { type: "SUBSCRIBE", subscribe: { framework_info: info } };
  let pieces;
  if (way === "fetch") {
    const { headers } = options();
    const response = await fetch(`http://127.0.0.1:${port}${path}`, { method: "POST", headers, body: JSON.stringify(subscribe) });
    stream = response.headers.get("mesos-stream-id");
    pieces = response.body;
  } else {
    pieces = await post(subscribe);
    stream = pieces.headers["mesos-stream-id"];
  }
  let data = Buffer.alloc(0);
  for await (const piece of pieces) {
    data = Buffer.concat([data, piece]);
    for (let end; (end = data.indexOf(10) + 1) && data.length >= end + Number(data.subarray(0, end)); ) {
      const size = Number(data.subarray(0, end));
      await hear(JSON.parse(data.subarray(end, end + size)));
      data = data.subarray(end + size);
    }
  }
  agent.destroy();
  console.log(states.join(" "));
  console.log(Object.entries(statuses).map(([status, count]) => `${count} ${status}`).join(" "));
  console.log(`connections ${way === "fetch" ? "kept" : sockets.size}`);
}

main();
