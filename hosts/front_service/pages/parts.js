// What all views are made of: elements, amounts, the front's answers, the token.

export function make(name, attributes = {}, ...inner) {
  const element = document.createElement(name);
  for (const [key, value] of Object.entries(attributes)) {
    if (key.startsWith("on")) element.addEventListener(key.slice(2), value);
    else if (value === true) element.setAttribute(key, "");
    else if (value !== false && value !== null && value !== undefined) element.setAttribute(key, value);
  }
  element.append(...inner.flat(Infinity).filter((it) => it !== null && it !== undefined).map((it) => (it instanceof Node ? it : String(it))));
  return element;
}

const isNone = (value) => value === null || value === undefined;
// Cents as dollars, thousandths as units, days and times as people write them.
export const money = (cents) => (isNone(cents) ? "" : `${cents < 0 ? "-" : ""}$${Math.floor(Math.abs(cents) / 100).toLocaleString("en-US")}.${String(Math.abs(cents) % 100).padStart(2, "0")}`);
export const units = (thousandths) => (isNone(thousandths) ? "" : (thousandths / 1000).toLocaleString("en-US", { maximumFractionDigits: 3 }));
const DAY = new Intl.DateTimeFormat("en-US", { dateStyle: "medium", timeZone: "UTC" });
export const day = (text) => (/^\d{8}$/.test(text ?? "") ? DAY.format(Date.UTC(text.slice(0, 4), text.slice(4, 6) - 1, text.slice(6))) : text ?? "");
const MOMENT = new Intl.DateTimeFormat("en-US", { dateStyle: "medium", timeStyle: "medium" });
export const time = (text) => (text ? make("time", { datetime: text, title: text }, MOMENT.format(new Date(text))) : "");
export const tag = (kind, text) => make("span", { class: `tag ${kind}` }, text);
export const KINDS = { paid: "good", standing: "good", duplicate: "plain", reversed: "wait", rejected: "bad", open: "wait", answered: "good" };

export function say(text) {
  const said = document.getElementById("said");
  said.textContent = text;
  clearTimeout(say.timer);
  say.timer = setTimeout(() => { said.textContent = ""; }, 6000);
}

// The token is kept for this tab alone, and goes nowhere but to this front, in a header.
export const token = { get: () => sessionStorage.getItem("token") ?? "", set: (text) => sessionStorage.setItem("token", text), forget: () => sessionStorage.removeItem("token") };

export class Refused extends Error {
  constructor(status, problem) {
    super(`${problem.name ?? status}: ${problem.detail ?? problem.title ?? "the front does not answer"}`);
    this.status = status;
    this.problem = problem;
  }
}

// What the front answers; Refused where it is a problem, or where there is no front.
export async function ask(path, { method = "GET", body, headers = {}, as = "json" } = {}) {
  const given = token.get() ? { Authorization: `Bearer ${token.get()}`, ...headers } : headers;
  let answer;
  try {
    answer = await fetch(path, { method, body, headers: given, cache: "no-store" });
  } catch {
    ask.gone();
    throw new Refused(0, { name: "NoFront", detail: "the front does not answer" });
  }
  if (!answer.ok) throw new Refused(answer.status, await answer.json().catch(() => ({})));
  return as === "json" ? answer.json() : answer.text();
}
ask.gone = () => {};

// A table: columns are a heading, a function of the row, and perhaps a class. On a narrow page each row is a card.
export function table(caption, columns, rows, none = "There is nothing here.") {
  const cell = (row, [name, of, kind], place) => make(place ? "td" : "th", { class: kind, scope: place ? null : "row", "data-name": name }, make("span", {}, of(row)));
  const body = rows.length ? rows.map((row) => make("tr", {}, columns.map((column, place) => cell(row, column, place)))) : [make("tr", {}, make("td", { colspan: columns.length }, none))];
  const head = make("tr", {}, columns.map(([name, , kind]) => make("th", { scope: "col", class: kind }, name)));
  return make("div", { class: "scroll", role: "region", tabindex: "0", "aria-label": caption }, make("table", { class: "cards" }, make("caption", {}, caption), make("thead", {}, head), make("tbody", {}, body)));
}

export const facts = (pairs) => make("dl", { class: "facts" }, pairs.map(([name, value, more]) => make("div", {}, make("dt", {}, name), make("dd", {}, value, more ? make("small", {}, more) : null))));

export const choose = (name, value, options, attributes = {}) => make("select", { name, ...attributes }, options.map(([key, text]) => make("option", { value: key, selected: key === value }, text)));

// Earlier and later pages of a list.
export const pages = (page, hasMore, go, [newer, older]) => make("div", { class: "row" },
  make("button", { type: "button", disabled: page <= 1, onclick: () => go({ page: page - 1 }) }, newer), make("span", {}, `Page ${page}`),
  make("button", { type: "button", disabled: !hasMore, onclick: () => go({ page: page + 1 }) }, older));

// The words of a form that say something.
export const given = (form) => Object.fromEntries([...new FormData(form)].map(([name, value]) => [name, value.trim()]).filter(([, value]) => value));

export function picture(text, label) {
  const svg = new DOMParser().parseFromString(text, "image/svg+xml").documentElement;
  if (svg.nodeName !== "svg") return make("p", {}, "There is no picture.");
  return make("figure", { tabindex: "0", role: "group", "aria-label": label }, document.importNode(svg, true));
}

export function themes() {
  const button = document.getElementById("theme");
  const kept = localStorage.getItem("theme");
  if (kept) document.documentElement.dataset.theme = kept;
  button.addEventListener("click", () => {
    const now = document.documentElement.dataset.theme ?? (matchMedia("(prefers-color-scheme: dark)").matches ? "dark" : "light");
    document.documentElement.dataset.theme = now === "dark" ? "light" : "dark";
    localStorage.setItem("theme", document.documentElement.dataset.theme);
  });
}
