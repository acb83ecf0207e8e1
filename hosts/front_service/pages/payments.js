// Payments: filtered, summed, page by page, and all of them as a file.

import { listen } from "./alive.js";
import { ask, choose, day, facts, given as givenBy, KINDS, make, money, pages, table, tag } from "./parts.js";

function save(text) {
  const link = make("a", { href: URL.createObjectURL(new Blob([text], { type: "text/csv" })), download: "payments.csv" });
  link.click();
  URL.revokeObjectURL(link.href);
}

export async function payments({ who, query, show }) {
  const given = Object.fromEntries(["from", "to", "payer", "state", "pharmacy"].map((it) => [it, query.get(it) ?? ""]).filter(([, value]) => value));
  const by = query.get("by") ?? "payer";
  const page = Number(query.get("page") ?? 1);
  const [told, sums] = await Promise.all([
    ask(`/payments?${new URLSearchParams({ ...given, page, size: 50 })}`), ask(`/totals?${new URLSearchParams({ ...given, by })}`),
  ]);
  const go = (words) => { location.hash = `payments?${new URLSearchParams(words)}`; };
  const input = (name, attributes) => make("input", { name, value: given[name] ?? "", ...attributes });
  const totals = told.totals;
  return {
    elements: [
      make("h1", {}, "Payments"),
      make("p", { class: "lead" }, "As the answers say that this front has seen: each authorization once. The audit reads them from the logs."),
      make("form", { class: "filters", onsubmit: (event) => { event.preventDefault(); go(givenBy(event.target)); } },
        make("label", {}, "From", input("from", { type: "date" })), make("label", {}, "To", input("to", { type: "date" })),
        make("label", {}, "Payer", input("payer", { inputmode: "numeric", pattern: "[0-9]*", size: "5" })),
        make("label", {}, "State", choose("state", given.state ?? "", [["", "all"], ["standing", "standing"], ["reversed", "reversed"]])),
        make("label", {}, "Pharmacy", choose("pharmacy", given.pharmacy ?? "", [["", "all"], ...who.pharmacies.map((it) => [it, it])])),
        make("label", {}, "Totals by", choose("by", by, [["payer", "payer"], ["pharmacy", "pharmacy"], ["day", "day"]])),
        make("button", { class: "first" }, "Apply"),
        make("button", { type: "button", onclick: async () => save(await ask(`/payments?${new URLSearchParams({ ...given, format: "csv" })}`, { as: "text" })) }, "All as CSV")),
      facts([
        ["Payments", totals.payments.toLocaleString("en-US")], ["Standing", money(totals.standing_cents)],
        ["Reversed", totals.reversed.toLocaleString("en-US"), money(totals.reversed_cents)],
      ]),
      table(`Totals by ${by}`, [
        [by, (it) => (by === "day" ? day(it.day) : it[by])], ["Payments", (it) => it.payments, "amount"], ["Standing", (it) => money(it.standing_cents), "amount"],
        ["Reversed", (it) => it.reversed, "amount"], ["Reversed amount", (it) => money(it.reversed_cents), "amount"],
      ], sums.totals),
      make("h2", {}, "Each payment"),
      table("Payments, in the order of their claims", [
        ["Claim", (it) => make("a", { href: `#claim/${it.pharmacy}/${it.number}` }, `${it.pharmacy} ${it.number}${it.transaction > 1 ? `/${it.transaction}` : ""}`)],
        ["Day", (it) => day(it.date_of_service)], ["Payer", (it) => it.payer], ["Authorization", (it) => make("code", {}, it.authorization)], ["Prescription", (it) => it.prescription],
        ["Cost", (it) => money(it.cost_cents), "amount"], ["Fee", (it) => money(it.fee_cents), "amount"], ["Patient", (it) => money(it.copay_cents), "amount"],
        ["Paid", (it) => money(it.paid_cents), "amount"], ["State", (it) => [tag(KINDS[it.state], it.state), it.reversed_by ? ` by ${it.reversed_by}` : ""]],
      ], told.payments, "There are no such payments."),
      pages(page, told.more, (more) => go({ ...given, by, ...more }), ["Earlier", "Later"]),
    ],
    leave: listen((what) => { if (!what) show(); }),
  };
}
