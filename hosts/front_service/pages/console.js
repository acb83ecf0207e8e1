// The console: which view is shown, and who may see it.

import { gone, listen, watch } from "./alive.js";
import { ask, make, Refused, say, themes, token } from "./parts.js";
import { network } from "./network.js";
import { claim, claims } from "./claims.js";
import { payments } from "./payments.js";
import { send } from "./send.js";
import { audit } from "./audit.js";

const VIEWS = { network, claims, claim, payments, send, audit };
const main = document.getElementById("main");
const views = document.getElementById("views");
let who = null;
let leave = () => {};

function enter(why) {
  const field = make("input", { type: "password", autocomplete: "off", required: true, size: "40", "aria-describedby": "why" });
  const form = make("form", { class: "row", onsubmit: async (event) => { event.preventDefault(); token.set(field.value.trim()); await start(); } },
    make("label", {}, "Token", field), make("button", { class: "first" }, "Show"));
  views.hidden = document.getElementById("leave").hidden = true;
  main.replaceChildren(make("h1", {}, "Who are you?"), make("p", { id: "why", class: "lead" }, why), form);
  field.focus();
}

let shown = 0;

// Shows the view that the address names. What is shown again stays where it is, with what it had, until the new one is there.
async function show() {
  const mine = ++shown;
  const isSame = show.hash === location.hash;
  show.hash = location.hash;
  leave();
  leave = () => {};
  const [name, ...words] = (location.hash.slice(1) || (who.operator ? "network" : "claims")).split("/").map(decodeURIComponent);
  const [path, query] = name.split("?");
  const view = VIEWS[path] ?? VIEWS.claims;
  for (const link of views.querySelectorAll("a")) {
    const is = link.getAttribute("href") === `#${path}` || (path === "claim" && link.hash === "#claims");
    if (is) link.setAttribute("aria-current", "page"); else link.removeAttribute("aria-current");
  }
  main.setAttribute("aria-busy", "true");
  try {
    const made = await view({ who, words, query: new URLSearchParams(query ?? ""), show });
    if (mine !== shown) { made.leave?.(); return; }
    main.replaceChildren(...made.elements);
    leave = made.leave ?? leave;
    document.title = `${main.querySelector("h1")?.textContent ?? "Console"} - Vogrilas`;
    if (show.isLater && !isSame) main.focus();
    show.isLater = true;
  } catch (fault) {
    if (!(fault instanceof Refused)) throw fault;
    if (mine !== shown) return;
    if (fault.status === 401) { token.forget(); watch(); enter("That token is not known here."); return; }
    // What was shown stays, greyed, where the front is away.
    leave = fault.status ? leave : listen((what) => { if (!what) show(); });
    if (fault.status || !isSame) main.replaceChildren(make("h1", {}, "That cannot be shown"), make("p", {}, fault.message));
    say(fault.message);
  } finally {
    if (mine === shown) main.removeAttribute("aria-busy");
  }
}

async function start() {
  if (!token.get()) { enter("Claims are health data: nothing is shown without a token."); return; }
  try {
    who = await ask("/who");
  } catch (fault) {
    if (fault.status === 401) token.forget();
    enter(fault.status === 401 ? "That token is not known here." : fault.message);
    return;
  }
  watch();
  for (const item of views.querySelectorAll("[data-for=operator]")) item.hidden = !who.operator;
  views.hidden = document.getElementById("leave").hidden = false;
  await show();
}

themes();
ask.gone = gone;
document.getElementById("leave").addEventListener("click", () => { token.forget(); watch(); leave(); location.hash = ""; enter("The token is forgotten."); });
addEventListener("hashchange", () => { if (who && token.get()) show(); });
start();
