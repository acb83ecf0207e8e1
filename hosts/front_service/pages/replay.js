// The playground: events up to a step go to `claimswitch replay`, and its report and picture are shown.

import { ask, make, picture, Refused, say, tag, themes } from "./parts.js";

const at = (name) => document.getElementById(name);
let schedule = { settings: "", events: [] };
let events = [];
let step = 0;
let results = [];
let asked = 0;

const nodesOf = (settings) => ["pharmacy", "switch", "payer"].flatMap((kind) => [...settings.matchAll(new RegExp(`^\\[\\[${kind}\\]\\]`, "gm"))].map((_, place) => `${{ pharmacy: "ph", switch: "sw", payer: "pr" }[kind]}${place + 1}`));
const shortened = (line) => (line.startsWith("submit ") ? `${line.slice(0, 44)}${line.length > 44 ? ".." : ""}` : line);

async function replay() {
  const mine = ++asked;
  const body = JSON.stringify({ settings: schedule.settings, events: events.slice(0, step) });
  const told = await ask("/replay", { method: "POST", body, headers: { "Content-Type": "application/json" } });
  // A later step may have been asked for meanwhile.
  if (mine !== asked) return;
  if (told.status !== 0) { say(told.said || "claimswitch refuses it"); return; }
  results = told.events;
  at("nodes").textContent = told.nodes.join("\n");
  at("picture").replaceChildren(told.picture ? picture(told.picture, `The events up to step ${step}`) : make("p", {}, "There is no picture."));
  list();
}

function list() {
  at("events").replaceChildren(...events.map((line, place) => {
    const said = place < step ? (results[place] ?? "").replace(/^\d+ /, "") : "";
    const result = said ? tag(said.startsWith("ok") ? "good" : "bad", said) : "";
    return make("li", { class: place === step - 1 ? "now" : place >= step ? "later" : null },
      make("button", { type: "button", class: "line", title: line, "aria-current": place === step - 1 ? "step" : null, onclick: () => go(place + 1) }, `${place + 1} ${shortened(line)}`), result || make("span"),
      make("button", { type: "button", "aria-label": `Take event ${place + 1} out`, title: "Take it out", onclick: () => change(place, 1) }, "drop"),
      make("button", { type: "button", "aria-label": `Repeat event ${place + 1}`, title: "Once more", onclick: () => change(place + 1, 0, line) }, "repeat"));
  }));
  at("step").textContent = `Step ${step} of ${events.length}${step ? `: ${shortened(events[step - 1])}` : ""}`;
  at("first").disabled = at("back").disabled = step === 0;
  at("next").disabled = at("last").disabled = step === events.length;
}

async function go(to) {
  step = Math.max(0, Math.min(events.length, to));
  list();
  try {
    await replay();
  } catch (fault) {
    if (!(fault instanceof Refused)) throw fault;
    say(fault.message);
  }
}

function change(place, removed, ...added) {
  events.splice(place, removed, ...added);
  results = [];
  return go(added.length ? place + 1 : Math.min(step, events.length));
}

async function load(name) {
  schedule = await ask(`/replay/schedules/${encodeURIComponent(name)}`);
  at("schedules").value = name;
  events = [...schedule.events];
  const nodes = nodesOf(schedule.settings);
  const lines = [...nodes.filter((it) => it.startsWith("ph")).map((it) => `tick ${it}`), ...nodes.flatMap((it) => [`stop ${it}`, `start ${it}`]), "deliver 1"];
  at("lines").replaceChildren(...lines.map((value) => make("option", { value })));
  await go(events.length);
}

themes();
at("first").addEventListener("click", () => go(0));
at("back").addEventListener("click", () => go(step - 1));
at("next").addEventListener("click", () => go(step + 1));
at("last").addEventListener("click", () => go(events.length));
at("again").addEventListener("click", () => { events = [...schedule.events]; go(events.length); });
at("add").addEventListener("submit", (event) => { event.preventDefault(); if (at("line").value.trim()) change(step, 0, at("line").value.trim()); });
at("schedules").addEventListener("change", (event) => load(event.target.value));
addEventListener("keydown", (event) => {
  if (event.target.closest?.("input, select, textarea, pre, figure") || event.altKey || event.ctrlKey || event.metaKey) return;
  const to = { ArrowRight: step + 1, ArrowLeft: step - 1, Home: 0, End: events.length }[event.key];
  if (to !== undefined) { event.preventDefault(); go(to); }
});

async function start() {
  const { schedules, is_alone: isAlone } = await ask("/replay/schedules");
  at("console").hidden = isAlone;
  at("schedules").replaceChildren(...schedules.map((name) => make("option", {}, name)));
  await load(new URLSearchParams(location.search).get("schedule") ?? schedules[0]);
}

try {
  await start();
} catch (fault) {
  if (!(fault instanceof Refused)) throw fault;
  // Beside a network whoever has a token plays: the console asks for it.
  at("main").replaceChildren(make("h1", {}, "Playground"), make("p", {}, fault.status === 401 ? ["It wants a token: ", make("a", { href: "/" }, "the console"), " asks for it."] : fault.message));
}
