// The way of one claim through the nodes: drawn as a sequence, and told as a list of steps, which is all that a narrow page has.

import { make } from "./parts.js";

const SPACE = 150;
const ROW = 46;
const TOP = 44;
const MARGIN = 92;
const SVG = "http://www.w3.org/2000/svg";
const KINDS = { ph: "pharmacy", sw: "switch", pr: "payer" };
const CLOCK = new Intl.DateTimeFormat("en-US", { hour: "2-digit", minute: "2-digit", second: "2-digit", fractionalSecondDigits: 3, hour12: false });

const named = (node) => `${KINDS[node.slice(0, 2)]} ${node.slice(2)}`;
const listed = (nodes) => nodes.map(named).join(" and ");

// A step in words.
function told(step) {
  const lost = step.sent.filter((it) => !it.steps.length);
  const sent = step.sent.length ? `, and sends ${step.sent[0].carries === "answer" ? "the answer" : "it"} to ${listed(step.sent.map((it) => it.to))}` : "";
  const does = { enters: "enters the claim", repeats: "has heard nothing, and sends it again", takes: `takes the ${step.carries} of ${step.of ? named(step.of) : ""}` }[step.does];
  const behind = step.does === "repeats" ? ` to ${listed(step.sent.map((it) => it.to))}` : sent;
  return [`${does}${behind}`, lost.length ? make("strong", {}, `; to ${listed(lost.map((it) => it.to))} it has not come`) : ""];
}

const since = (step, first) => (step.time && first.time && step !== first ? ` +${step.time - first.time} ms` : "");

function list(steps) {
  return make("ol", { class: "steps" }, steps.map((step) => make("li", {},
    make("span", { class: "when" }, step.time ? CLOCK.format(new Date(step.time)) : `event ${step.event}`, make("small", {}, since(step, steps[0]))),
    make("span", {}, make("b", {}, named(step.node)), " ", told(step)))));
}

function drawn(name, attributes, text) {
  const element = document.createElementNS(SVG, name);
  for (const [key, value] of Object.entries(attributes)) element.setAttribute(key, value);
  if (text !== undefined) element.textContent = text;
  return element;
}

function arrow(from, to, y, toY, kind) {
  const end = to - Math.sign(to - from) * 7;
  const tip = Math.sign(to - from);
  return [
    drawn("line", { x1: from, y1: y, x2: end, y2: toY, class: `arrow ${kind}` }),
    drawn("path", { d: `M ${to} ${toY} l ${-8 * tip} -4 v 8 z`, class: `tip ${kind}` }),
  ];
}

// A sequence: a line for each node that has to do with the claim, an arrow for each packet, from the step that sent it to the one that took it.
function sequence(steps, label) {
  const order = (node) => ["ph", "sw", "pr"].indexOf(node.slice(0, 2)) * 100000 + Number(node.slice(2));
  const nodes = [...new Set(steps.flatMap((it) => [it.node, ...it.sent.map((one) => one.to)]))].sort((a, b) => order(a) - order(b));
  const x = (node) => MARGIN + nodes.indexOf(node) * SPACE;
  const y = (place) => TOP + 30 + place * ROW;
  const width = MARGIN * 2 + (nodes.length - 1) * SPACE;
  const height = y(steps.length - 1) + 34;
  const svg = drawn("svg", { viewBox: `0 0 ${width} ${height}`, width, height, role: "img", "aria-label": label, class: "way" });
  for (const node of nodes) {
    svg.append(drawn("line", { x1: x(node), y1: TOP, x2: x(node), y2: height - 8, class: "life" }),
      drawn("text", { x: x(node), y: TOP - 18, class: "node" }, node), drawn("text", { x: x(node), y: TOP - 4, class: "kind" }, KINDS[node.slice(0, 2)]));
  }
  steps.forEach((step, place) => {
    for (const one of step.sent) {
      const from = x(step.node) + Math.sign(x(one.to) - x(step.node)) * 10;
      for (const came of one.steps) svg.append(...arrow(from, x(one.to) - Math.sign(x(one.to) - from) * 10, y(place), y(came - 1), one.carries));
      if (!one.steps.length) {
        const middle = (from + x(one.to)) / 2;
        svg.append(drawn("line", { x1: from, y1: y(place), x2: middle, y2: y(place) + ROW / 2, class: "arrow lost" }), drawn("text", { x: middle, y: y(place) + ROW / 2 + 5, class: "cross" }, "✕"));
      }
    }
  });
  steps.forEach((step, place) => svg.append(drawn("circle", { cx: x(step.node), cy: y(place), r: 10, class: `step ${step.does}` }), drawn("text", { x: x(step.node), y: y(place) + 4, class: "number" }, step.number)));
  return svg;
}

export function way(steps, label) {
  return make("div", { class: "way" }, make("figure", { tabindex: "0", role: "group", "aria-label": label }, sequence(steps, label)), list(steps));
}
