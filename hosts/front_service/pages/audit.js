// The audit of the logs as they are, or the reason why they are those of no legal run.

import { ask, facts, make } from "./parts.js";

export async function audit({ show }) {
  const told = await ask("/audit");
  const left = Object.entries(told.left_out).map(([node, calls]) => `${calls} of ${node}`);
  return {
    elements: [
      make("h1", {}, "Audit"),
      make("p", { class: "lead" }, "The logs of all nodes, copied while the nodes run, and judged by claimaudit."),
      facts([
        ["The logs are", told.legal ? "one legal run" : "no legal run"], ["Events", told.events.toLocaleString("en-US")], ["Judged in", `${told.seconds.toFixed(2)} s`],
        ["Left out", left.length ? left.join(", ") : "nothing", "calls that came while the logs were copied"],
      ]),
      make("pre", { class: "sheet", tabindex: "0", "aria-label": "What claimaudit says" }, told.text),
      make("div", { class: "row" }, make("button", { type: "button", onclick: show }, "Audit again")),
    ],
  };
}
