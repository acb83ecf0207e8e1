// Claims: found by what people know of them, the newest first, as they are answered; and one of them with its way through the nodes and its messages.

import { listen } from "./alive.js";
import { message, sentence } from "./messages.js";
import { ask, choose, day, facts, given, KINDS, make, money, pages, Refused, table, tag, time, units } from "./parts.js";
import { way } from "./way.js";

const NAMES = ["pharmacy", "state", "number", "prescription", "from", "to", "cardholder", "amount", "payer"];
const STATES = [["", "all"], ["open", "open"], ["paid", "paid"], ["rejected", "rejected"], ["reversed", "reversed"], ["duplicate", "duplicate"], ["answered", "answered"]];
// Claims that come by another way than the front are listed within some seconds; answers that come together are listed together.
const AGAIN_MS = 10000;
const TOGETHER_MS = 200;

const each = (claim, of) => claim.transactions.map((it, place) => [place ? make("br") : null, of(it)]);

function stateOf(claim) {
  if (claim.state === "open") return tag("wait", "open");
  const told = each(claim, (it) => [tag(KINDS[it.ruling] ?? "plain", it.reject_codes ? `${it.ruling} ${it.reject_codes}` : it.ruling ?? "answered"), it.reversed_by ? [" ", tag("wait", `reversed by ${it.reversed_by}`)] : null]);
  return told.length ? told : tag("good", "answered");
}

const COLUMNS = (several) => [
  ["Claim", (it) => make("a", { href: `#claim/${it.pharmacy}/${it.number}` }, several ? `${it.pharmacy} ${it.number}` : it.number)],
  ["Prescription", (it) => each(it, (one) => (one.prescription ? `${one.prescription}${one.fill && Number(one.fill) ? `, fill ${Number(one.fill)}` : ""}` : ""))],
  ["Service", (it) => day(it.transactions[0]?.date_of_service)], ["Cardholder", (it) => (it.transactions[0]?.cardholder_last_four ? `…${it.transactions[0].cardholder_last_four}` : "")],
  ["State", stateOf], ["Submitted", (it) => each(it, (one) => money(one.submitted_cents)), "amount"], ["Paid", (it) => each(it, (one) => money(one.paid_cents)), "amount"],
  ["Payer", (it) => it.transactions.find((one) => one.payer)?.payer ?? ""], ["Entered", (it) => time(it.entered)],
];

function form(who, asked, go) {
  const input = (label, name, attributes) => make("label", {}, label, make("input", { name, value: asked[name] ?? "", autocomplete: "off", ...attributes }));
  return make("form", { class: "filters", role: "search", "aria-label": "Find claims", onsubmit: (event) => { event.preventDefault(); go(given(event.target)); } },
    make("label", {}, "Pharmacy", choose("pharmacy", asked.pharmacy ?? "", [["", "all"], ...who.pharmacies.map((it) => [it, it])])),
    make("label", {}, "State", choose("state", asked.state ?? "", STATES)),
    input("Prescription", "prescription", { inputmode: "numeric", size: "10" }), input("Cardholder's last four", "cardholder", { size: "5", maxlength: "4" }),
    input("Amount, dollars", "amount", { inputmode: "decimal", size: "8", pattern: "\\$?[0-9,]{1,8}(\\.[0-9]{2})?", title: "dollars, as 47.20" }),
    input("Payer", "payer", { inputmode: "numeric", pattern: "[0-9]*", size: "4" }), input("Service from", "from", { type: "date" }), input("to", "to", { type: "date" }),
    input("Number", "number", { inputmode: "numeric", pattern: "[0-9]*", size: "7" }),
    make("button", { class: "first" }, "Find"), make("button", { type: "button", onclick: () => go({}) }, "Clear"));
}

export async function claims({ who, query }) {
  if (!who.pharmacies.length) return { elements: [make("h1", {}, "Claims"), make("p", {}, "This token is for no pharmacy of this front.")] };
  const asked = Object.fromEntries(NAMES.map((it) => [it, query.get(it) ?? ""]).filter(([, value]) => value));
  const page = Number(query.get("page") ?? 1);
  const go = (words) => { location.hash = `claims?${new URLSearchParams(words)}`; };
  const search = new URLSearchParams({ ...asked, ...(asked.amount ? { amount: asked.amount.replace(/[$,]/g, "") } : {}), page, size: 50 });
  const list = make("div");
  let isLeft = false;

  async function look() {
    const told = await ask(`/claims?${search}`);
    if (isLeft) return;
    const focused = document.activeElement?.closest?.("tbody a")?.getAttribute("href");
    list.replaceChildren(
      table("Claims, the newest first", COLUMNS(who.pharmacies.length > 1 && !asked.pharmacy), told.claims, "There are no such claims."),
      pages(page, told.more, (more) => go({ ...asked, ...more }), ["Newer", "Older"]));
    if (focused) list.querySelector(`tbody a[href="${focused}"]`)?.focus();
  }

  await look();
  let soon = 0;
  const again = () => { clearTimeout(soon); soon = setTimeout(() => look().catch(unlessRefused), TOGETHER_MS); };
  const ends = listen((what) => { if (!what || !asked.pharmacy || what.pharmacy === asked.pharmacy) again(); });
  const timer = setInterval(again, AGAIN_MS);
  return {
    elements: [make("h1", {}, "Claims"), form(who, asked, go), list],
    leave: () => { isLeft = true; ends(); clearInterval(timer); clearTimeout(soon); },
  };
}

function unlessRefused(fault) {
  if (!(fault instanceof Refused)) throw fault;
}

// What a claim comes to, at a glance.
function glance(told, found) {
  const orders = found?.transactions ?? [];
  const sum = (name) => (orders.some((it) => it[name] !== null) ? orders.reduce((all, it) => all + (it[name] ?? 0), 0) : null);
  const first = orders[0] ?? {};
  const several = orders.length > 1 ? `${orders.length} transactions` : null;
  return facts([
    ["Prescription", first.prescription ?? "", several ?? (first.quantity_thousandths ? `${units(first.quantity_thousandths)} units of ${first.product}` : null)],
    ["Service", day(first.date_of_service), first.cardholder_last_four ? `cardholder …${first.cardholder_last_four}` : null],
    ["Submitted", money(sum("submitted_cents"))],
    ["Paid", money(sum("paid_cents")), [first.payer ? `by payer ${first.payer}` : "", first.reversed_by ? `, reversed by ${first.reversed_by}` : ""]], ["Patient pays", money(sum("copay_cents"))],
  ].filter(([, value]) => value));
}

export async function claim({ who, words: [pharmacy, number], show }) {
  const [told, found] = await Promise.all([ask(`/pharmacies/${pharmacy}/claims/${number}`), ask(`/pharmacies/${pharmacy}/claims?number=${number}`)]);
  const steps = make("div", {}, make("p", {}, who.operator ? "The logs are audited." : "The operator's token shows each step through the nodes."));
  if (who.operator) {
    ask(`/pharmacies/${pharmacy}/claims/${number}/steps`)
      .then((it) => steps.replaceChildren(way(it.steps, `Claim ${number} of ${pharmacy} on its way`)))
      .catch((fault) => { unlessRefused(fault); steps.replaceChildren(make("p", {}, fault.message)); });
  }
  const isOpen = told.state === "open";
  const rulings = (told.answer?.findings ?? []).filter((it) => it.ruling).map((it) => [tag(KINDS[it.ruling], it.ruling), " "]);
  const back = found.claims[0]?.transactions.filter((it) => it.reversed_by).map((it) => [make("a", { href: `#claim/${pharmacy}/${it.reversed_by}` }, `reversed by ${it.reversed_by}`), " "]) ?? [];
  const ends = listen((what) => { if (!what || (what.pharmacy === pharmacy && what.number === Number(number))) show(); });
  return {
    elements: [
      make("h1", {}, `Claim ${number} of ${pharmacy} `, isOpen ? tag("wait", "open") : rulings, back),
      make("p", { class: "lead" }, "Entered ", time(told.entered), told.answered ? [", answered ", time(told.answered)] : ", and not answered yet", told.key ? `; key ${told.key}` : "", "."),
      glance(told, found.claims[0]),
      (told.answer?.findings ?? []).length ? make("ul", { class: "findings" }, told.answer.findings.map((it) => make("li", {}, sentence(it)))) : null,
      make("section", { "aria-label": "On its way" }, make("h2", {}, "On its way"), steps), message("Request", told.request), message("Answer", told.answer),
    ].filter(Boolean),
    leave: ends,
  };
}
