"use strict";
// Bytes and their field have the same data-f.
const marked = new Map();
for (const element of document.querySelectorAll("[data-f]")) {
  const key = element.dataset.f;
  if (!marked.has(key)) marked.set(key, []);
  marked.get(key).push(element);
}
let current = null;
function mark(key) {
  if (key === current) return;
  for (const element of marked.get(current) ?? []) element.classList.remove("on");
  for (const element of marked.get(key) ?? []) element.classList.add("on");
  current = key;
}
function keyOf(event) {
  return event.target.closest?.("[data-f]")?.dataset.f ?? null;
}
// Brings into view, inside its own pane, what stands on the other side.
function show(event) {
  const from = event.target.closest?.("[data-f]");
  if (!from) return;
  const pane = from.closest(".bytes, .fields");
  const other = marked.get(from.dataset.f).find((element) => !pane.contains(element));
  other?.scrollIntoView({ block: "nearest" });
}
document.addEventListener("mouseover", (event) => { mark(keyOf(event)); });
document.addEventListener("focusin", (event) => { mark(keyOf(event)); show(event); });
document.addEventListener("click", (event) => { mark(keyOf(event)); show(event); });
// A refused input opens at its place.
for (const place of document.querySelectorAll(".place")) {
  const pane = place.closest(".bytes, .fields");
  pane.scrollTop += place.getBoundingClientRect().top - pane.getBoundingClientRect().top - pane.clientHeight / 2;
}
