// A message, field by field, beside its bytes: the field under the pointer, or with the focus, is marked in both.

import { make, money, units } from "./parts.js";

// A finding as people write it: amounts in dollars, quantities in units.
export function sentence(it) {
  const several = it.transaction > 1 ? `transaction ${it.transaction}: ` : "";
  if (it.finding === "order" && it.order === "billing") {
    const fee = it.fee === undefined || it.fee === null ? "" : `, fee ${money(it.fee)}`;
    return `${several}fill ${it.fill} of prescription ${it.prescription} for ${it.cardholder}: ${units(it.quantity)} units of product ${it.product}, cost ${money(it.cost)}${fee}`;
  }
  if (!it.authorization || it.total === undefined) return it.says;
  return `${several}${it.ruling} ${money(it.total)} under ${it.authorization}: cost ${money(it.cost)}, fee ${money(it.fee)}, less copay ${money(it.copay)}; prescription ${it.prescription}`;
}

// What a value means, as people write it.
const meaning = (text) => (text ?? "").replace(/^(-?)([0-9.,]+) dollars$/, "$1$$$2").replace(/^([0-9]+)\.([0-9]*?)0* units$/, (_, whole, part) => `${whole}${part ? `.${part}` : ""} units`);

function marked(place, one, other) {
  const marks = (is) => () => { for (const it of [one, other]) it.classList.toggle("mark", is); };
  for (const it of [one, other]) {
    it.addEventListener("pointerenter", marks(true));
    it.addEventListener("pointerleave", marks(false));
  }
  one.addEventListener("focus", marks(true));
  one.addEventListener("blur", marks(false));
}

// The bytes of a part, as they stand in the message: separators, the field's two letters, the value.
function textOf(part, isBehindHeader) {
  if ("transaction" in part) return "\\G";
  if (part.field === "111-AM") return `\\S\\FAM${part.value}`;
  return isBehindHeader && part.field ? `\\F${part.field.slice(-2)}${part.value}` : part.value;
}

// The words of findings that are at a field, by transaction and field.
function causesOf(findings) {
  const causes = new Map();
  for (const one of findings) {
    if (one.finding === "rejected") causes.set(`${one.transaction} ${one.field}`, [...(causes.get(`${one.transaction} ${one.field}`) ?? []), one]);
  }
  return causes;
}

export function message(title, told) {
  if (!told) return make("section", {}, make("h2", {}, title), make("p", {}, title === "Answer" ? "There is none yet." : "The front has not seen it: it came by another way."));
  const causes = causesOf(told.findings);
  const rows = [];
  const bytes = [];
  let transaction = 0;
  let isBehindHeader = false;
  for (const part of told.parts) {
    if ("transaction" in part) transaction = part.transaction;
    isBehindHeader = isBehindHeader || part.field === "111-AM" || "transaction" in part;
    const isSegment = part.field === "111-AM";
    const why = [transaction, transaction || 1].flatMap((it) => causes.get(`${it} ${part.field}`) ?? []);
    const causesHere = [...new Set(why)].map((it) => make("span", { class: "tag bad" }, `${it.code} ${it.code_name}`));
    const row = "transaction" in part
      ? make("tr", { class: "group", tabindex: "0" }, make("td", {}, part.at), make("td", { colspan: 4 }, `transaction ${part.transaction}`))
      : make("tr", { class: isSegment ? "segment" : null, tabindex: "0" }, make("td", { class: "amount" }, part.at), make("td", {}, part.field ?? ""),
        make("td", {}, (part.name ?? "").replaceAll("_", " ")), make("td", {}, make("code", {}, part.value)), make("td", {}, make("span", { class: "quiet" }, meaning(part.meaning)), " ", causesHere));
    const span = make("span", { class: isSegment || "transaction" in part ? "segment" : null }, textOf(part, isBehindHeader));
    marked(part.at, row, span);
    rows.push(row);
    bytes.push(span, make("wbr"));
  }
  const head = make("tr", {}, ["Byte", "Field", "Name", "Value", "Meaning"].map((it) => make("th", { scope: "col" }, it)));
  const kind = (it) => (it.finding === "rejected" || it.finding.startsWith("no") || it.ruling === "rejected" ? "bad" : "good");
  return make("section", { "aria-label": title },
    make("h2", {}, `${title}, ${told.bytes} bytes`),
    make("ul", { class: "findings" }, told.findings.map((it) => make("li", {}, make("span", { class: `tag ${kind(it)}` }, it.ruling ?? it.finding.replaceAll("_", " ")), " ", sentence(it)))),
    make("div", { class: "message" },
      make("div", { class: "scroll", role: "region", tabindex: "0", "aria-label": `${title}: fields` }, make("table", { class: "parts" }, make("caption", {}, "Field by field"), make("thead", {}, head), make("tbody", {}, rows))),
      make("div", { class: "sheet bytes", role: "group", "aria-label": `${title}: bytes` }, bytes)));
}
