// The network at a glance: each node, what is open, and what goes through.

import { ask, facts, make, Refused, say, table, tag } from "./parts.js";

const SECONDS = 2;

// A switch forgets its oldest entries by design: a full table is as it should be.
const fills = (node) => !node.node.startsWith("sw");

function stateOf(node) {
  if (!node.up) return tag("bad", "down");
  if (!node.ready) return tag("wait", "not ready");
  if (fills(node) && node.rows_most && node.rows >= 0.9 * node.rows_most) return tag("wait", "nearly full");
  if (node.waiting > 100) return tag("wait", "behind");
  return tag("good", "up");
}

const count = (value) => (value === undefined ? "" : Math.round(value).toLocaleString("en-US"));

export async function network() {
  const body = make("div");
  const before = new Map();
  let timer = 0;

  async function look() {
    const told = await ask("/network");
    const now = performance.now();
    for (const node of told.nodes) {
      const last = before.get(node.node);
      node.rate = last && node.sent >= last.sent ? ((node.sent - last.sent) * 1000) / (now - last.at) : undefined;
      before.set(node.node, { sent: node.sent ?? 0, at: now });
    }
    const up = told.nodes.filter((it) => it.up && it.ready).length;
    const open = told.nodes.reduce((sum, it) => sum + (it.open ?? 0), 0);
    const oldest = Math.max(0, ...told.nodes.map((it) => it.oldest_seconds ?? 0));
    const rate = told.nodes.reduce((sum, it) => sum + (it.rate ?? 0), 0);
    body.replaceChildren(
      told.is_settled ? "" : make("p", { class: "note" }, tag("wait", "settings have changed"), " Not everything goes by them yet."),
      told.is_watched ? "" : make("p", {}, "Hosts tell nothing here: start hosts/cluster.py and the front with --watch PORT."),
      facts([
        ["Nodes up", `${up} of ${told.nodes.length}`], ["Open claims", count(open), open ? `the oldest for ${Math.round(oldest)} s` : "all are answered"],
        ["Packets a second", count(rate)], ["Pharmacies reached", `${Object.values(told.callers).filter(Boolean).length} of ${Object.keys(told.callers).length}`],
      ]),
      table("Nodes", [
        ["Node", (it) => it.node], ["State", stateOf], ["Open", (it) => count(it.open), "amount"],
        ["Oldest, s", (it) => (it.open ? count(it.oldest_seconds) : ""), "amount"],
        ["Entries of at most", (it) => (it.rows_most ? `${count(it.rows)} of ${count(it.rows_most)}` : ""), "amount"],
        ["Packets a second", (it) => count(it.rate), "amount"], ["Sent again", (it) => count(it.sent_again), "amount"],
        ["Refusals", (it) => count(it.refusals), "amount"], ["Calls in the log", (it) => count(it.calls), "amount"],
      ], told.nodes));
  }

  await look();
  timer = setInterval(() => look().catch((fault) => { if (!(fault instanceof Refused)) throw fault; if (fault.status) say(fault.message); }), SECONDS * 1000);
  return {
    elements: [make("h1", {}, "Network"), make("p", { class: "lead" }, `As the hosts of the nodes tell it, each ${SECONDS} seconds.`), body],
    leave: () => clearInterval(timer),
  };
}
