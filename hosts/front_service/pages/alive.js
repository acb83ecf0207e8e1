// Whether the front is there, and what it pushes: one stream of events, as long as the page is seen. Where it ends, or is silent, the page says so
// at once, and greys what it shows until the front is there again.

import { token } from "./parts.js";

const SILENT_MS = 6000;
const AGAIN_MS = 1000;
const listeners = new Set();
let stream = null;
let heardAt = 0;
let isThere = true;

// Calls a function with each claim that is answered, and with null once the front is there again; gives the end of that.
export function listen(hears) {
  listeners.add(hears);
  return () => listeners.delete(hears);
}

const tell = (what) => { for (const hears of [...listeners]) hears(what); };

export function gone() {
  if (!isThere) return;
  isThere = false;
  document.body.classList.add("gone");
  const note = document.getElementById("gone");
  note.textContent = `The front does not answer. What stands here is as it was at ${new Date().toLocaleTimeString()}.`;
  note.hidden = false;
}

function there() {
  heardAt = performance.now();
  if (isThere) return;
  isThere = true;
  document.body.classList.remove("gone");
  document.getElementById("gone").hidden = true;
  tell(null);
}

function take(event) {
  const line = event.split("\n").find((it) => it.startsWith("data: "));
  if (line) tell(JSON.parse(line.slice(6)));
}

async function hear(signal) {
  const answer = await fetch("/events", { headers: { Authorization: `Bearer ${token.get()}` }, cache: "no-store", signal });
  if (!answer.ok) return;
  const reader = answer.body.pipeThrough(new TextDecoderStream()).getReader();
  let text = "";
  for (let { value, done } = await reader.read(); !done; { value, done } = await reader.read()) {
    there();
    text += value;
    for (let end = text.indexOf("\n\n"); end >= 0; end = text.indexOf("\n\n")) {
      take(text.slice(0, end));
      text = text.slice(end + 2);
    }
  }
}

// Begins, or ends where there is no token, or nobody sees the page.
export async function watch() {
  stream?.abort();
  stream = null;
  if (!token.get() || document.hidden) return;
  const mine = stream = new AbortController();
  heardAt = performance.now();
  while (stream === mine && !mine.signal.aborted) {
    await hear(mine.signal).catch(() => {});
    if (stream !== mine) return;
    gone();
    await new Promise((done) => { setTimeout(done, AGAIN_MS); });
  }
  if (stream === mine) watch();
}

setInterval(() => {
  if (stream && performance.now() - heardAt > SILENT_MS) {
    gone();
    stream.abort();
  }
}, 500);
document.addEventListener("visibilitychange", () => { watch(); if (!document.hidden) tell(null); });
