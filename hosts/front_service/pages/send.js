// A test claim from a form: the fields go to the front as JSON, which makes the message.

import { sentence } from "./messages.js";
import { ask, KINDS, make, Refused, tag } from "./parts.js";

const FIELDS = [
  ["bin_number", "BIN number", "610455"], ["processor_control_number", "Processor control number", "A1"], ["date_of_service", "Date of service", "20240115"],
  ["cardholder", "Cardholder ID", "987654321"], ["prescription", "Prescription number", ""], ["fill", "Fill number", "0"], ["product", "Product (NDC)", "00093721410"],
  ["quantity", "Quantity, units", "30"], ["cost", "Ingredient cost, dollars", "60.00"], ["fee", "Dispensing fee, dollars", "2.00"],
];
// How a number is written by people: how many places of it stand behind the point, and in what it is sent.
const NUMBERS = { prescription: 0, fill: 0, quantity: 3, cost: 2, fee: 2 };
const OF_TRANSACTION = [...Object.keys(NUMBERS), "product"];
const OF_REVERSAL = ["bin_number", "processor_control_number", "date_of_service", "prescription", "fill"];

const pattern = (places) => (places ? `[0-9]{1,9}(\\.[0-9]{1,${places}})?` : "[0-9]{1,12}");

// As 47.2 dollars are 4720 cents: digit by digit, and never by way of a fraction.
function whole(text, places) {
  const [before, behind = ""] = text.trim().split(".");
  return Number(before + behind.padEnd(places, "0"));
}

function orderOf(form) {
  const given = Object.fromEntries(new FormData(form));
  const names = FIELDS.map(([name]) => name).filter((name) => given.order === "billing" || OF_REVERSAL.includes(name));
  const transaction = {};
  const order = { order: given.order, transactions: [transaction] };
  for (const name of names) {
    const value = name in NUMBERS ? whole(given[name], NUMBERS[name]) : given[name];
    (OF_TRANSACTION.includes(name) ? transaction : order)[name] = value;
  }
  return order;
}

export async function send({ who }) {
  if (!who.enters.length) return { elements: [make("h1", {}, "Test claim"), make("p", {}, "This token reads: claims are entered by a token that names their pharmacy.")] };
  const result = make("div", { role: "status", "aria-live": "polite" });
  const key = make("input", { name: "key", value: crypto.randomUUID?.() ?? `test-${Date.now()}`, required: true, size: "38" });
  const inputs = FIELDS.map(([name, label, value]) => make("label", {}, label, make("input", {
    name, value: name === "prescription" ? String(100000 + Math.floor(Math.random() * 899999)) : value, required: name !== "processor_control_number",
    inputmode: name in NUMBERS ? "decimal" : null, pattern: name in NUMBERS ? pattern(NUMBERS[name]) : null,
  })));

  async function sent(event) {
    event.preventDefault();
    const form = event.target;
    const pharmacy = form.elements.pharmacy.value;
    for (const it of form.querySelectorAll("[aria-invalid]")) it.removeAttribute("aria-invalid");
    result.replaceChildren(make("p", {}, "It is on its way."));
    try {
      const body = JSON.stringify(orderOf(form));
      const told = await ask(`/pharmacies/${pharmacy}/claims?wait=20`, { method: "POST", body, headers: { "Content-Type": "application/json", "Idempotency-Key": key.value } });
      const says = (told.answer?.findings ?? []).map((it) => make("li", {}, tag(KINDS[it.ruling] ?? "plain", it.ruling ?? it.finding), " ", sentence(it)));
      result.replaceChildren(make("p", {}, make("a", { href: `#claim/${pharmacy}/${told.number}` }, `Claim ${told.number}`), told.state === "open" ? " is open: no answer yet." : " is answered:"), make("ul", { class: "findings" }, says));
    } catch (fault) {
      if (!(fault instanceof Refused)) throw fault;
      const field = form.elements[(fault.problem.field ?? "").split("/").pop()];
      field?.setAttribute?.("aria-invalid", "true");
      field?.focus?.();
      result.replaceChildren(make("p", {}, tag("bad", "refused"), ` ${fault.message}`));
    }
  }

  const choose = (name, options) => make("select", { name }, options.map((it) => make("option", {}, it)));
  return {
    elements: [
      make("h1", {}, "Test claim"),
      make("p", { class: "lead" }, "It is a claim like any other: it is entered, and paid where the plan pays it. Sent again with the same key it is the same claim."),
      make("form", { class: "sheet", onsubmit: sent },
        make("div", { class: "fields" }, make("label", {}, "Pharmacy", choose("pharmacy", who.enters)), make("label", {}, "Order", choose("order", ["billing", "reversal"])), inputs),
        make("div", { class: "filters row" }, make("label", {}, "Idempotency-Key", key),
          make("button", { type: "button", onclick: () => { key.value = crypto.randomUUID?.() ?? `test-${Date.now()}`; } }, "Another key"), make("button", { class: "first" }, "Send"))),
      result,
    ],
  };
}
