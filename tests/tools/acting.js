"use strict";
// Does what the list `actions` says on the page, and notes what it shows after each.
const noted = [];

function note(action) {
  const texts = selector => [...document.querySelectorAll(selector)].map(found => found.textContent);
  const groups = [...document.querySelectorAll("#picture g:not(#headings):not(:empty)")];
  const lists = [...document.querySelectorAll("#said h3")].map(heading =>
    [heading.textContent, heading.nextElementSibling ? heading.nextElementSibling.textContent : ""]);
  const listed = wanted => (lists.find(([heading]) => heading === wanted) || ["", ""])[1];
  noted.push({
    action,
    count: document.getElementById("count").textContent,
    slider: Number(document.getElementById("slider").value),
    marked: texts("#records li.here .number").map(Number),
    hash: location.hash,
    record: texts("#said h2")[0] || "",
    answer: texts("#said .answer")[0] || "",
    changes: listed("changed"),
    gains: listed("gained"),
    tinted: groups.filter(group => group.querySelector("rect.b.gained")).map(group => group.id),
    disabled: [...document.querySelectorAll("button")].filter(b => b.disabled).map(b => b.id),
    groups: groups.map(group => group.id),
    wide: groups.flatMap(wideTexts),
  });
}

// The labels of links that lie over a box.
function coveredTexts(group) {
  const frames = [...document.querySelectorAll('#picture g[id^="container"] rect.b')];
  const boxes = frames.map(frame => frame.getBoundingClientRect());
  return [...group.querySelectorAll("text")].filter(text => {
    const one = text.getBoundingClientRect();
    return boxes.some(two => one.left < two.right && two.left < one.right &&
      one.top < two.bottom && two.top < one.bottom);
  }).map(text => `${group.id}: ${text.textContent}`);
}

// The texts of a box that do not fit into it, as the browser measures them.
function wideTexts(group) {
  if (group.id.startsWith("label")) return coveredTexts(group);
  const frame = group.querySelector("rect");
  if (!group.id.startsWith("container") || !frame) return [];
  const right = frame.getBBox().width, bottom = frame.getBBox().height;
  return [...group.querySelectorAll("text")].filter(text => {
    const box = text.getBBox();
    return box.x + box.width > right || box.y + box.height > bottom + 2;
  }).map(text => `${group.id}: ${text.textContent}`);
}

const deeds = {
  see: () => {},
  click: id => document.getElementById(id).click(),
  key: key => document.body.dispatchEvent(new KeyboardEvent("keydown", { key, bubbles: true, cancelable: true })),
  list: number => document.querySelectorAll("#records li")[number - 1].click(),
  slide: number => {
    const slider = document.getElementById("slider");
    slider.value = number;
    slider.dispatchEvent(new Event("input", { bubbles: true }));
  },
};

const began = performance.now();
for (const [deed, value] of actions) {
  deeds[deed](value);
  if (noting) note([deed, value]);
}
const took = performance.now() - began;
if (!noting) note(["end", ""]);
const result = document.createElement("pre");
result.id = "noted";
result.textContent = JSON.stringify({ noted, took, faults: window.faults });
document.body.append(result);
