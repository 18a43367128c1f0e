// What the page does: it takes texts that are pasted or opened, and shows what core.js says of them.
"use strict";

const place = (id) => document.getElementById(id);

function line(kind, words) {
  const row = document.createElement("p");
  const classes = { [RIGHT]: "right", [WRONG]: "wrong", [TOLD]: "told", [ASK]: "ask" };
  row.className = classes[kind];
  const mark = document.createElement("b");
  mark.textContent = `${kind} `;
  row.append(mark, words);
  return row;
}

function heading(words) {
  const row = document.createElement("h2");
  row.textContent = words;
  return row;
}

async function contentsNow() {
  const pasted = textsIn(place("texts").value).map(bytesOf);
  const files = [...place("files").files];
  const opened = await Promise.all(files.map((file) => file.arrayBuffer()));
  return [...pasted, ...opened.map((data) => new Uint8Array(data))];
}

function showWorking(text, typed) {
  const number = /^\s*[1-9][0-9]{0,2}\s*$/.test(typed) ? Number(typed) : 0;
  const lines = working(text, number);
  const shown = [heading(`Before round ${text.round}: my tiebreakers`)];
  if (!lines) return [...shown, line(WRONG, `No player has the number ${typed.trim()}.`)];
  if (text.round === 1) shown.push(line(TOLD, "No round was complete yet."));
  const block = document.createElement("ul");
  block.id = "working";
  for (const words of lines) {
    const item = document.createElement("li");
    item.textContent = words;
    block.append(item);
  }
  return [...shown, block];
}

async function show() {
  const out = place("out");
  out.replaceChildren();
  try {
    const reports = check(await contentsNow(), place("saw").value);
    for (const { text, said } of reports) {
      const digits = text ? text.sum.slice(0, 16).match(/.{4}/g).join(" ") : "";
      out.append(heading(text ? `Round ${text.round}, drawing ${text.drawing}` : "This is none"));
      if (text) out.append(line("text", digits));
      out.append(...said.map(([kind, words]) => line(kind, words)));
    }
    const last = reports[reports.length - 1].text;
    if (last && place("me").value.trim()) out.append(...showWorking(last, place("me").value));
  } catch (fault) {
    out.append(line(WRONG, `This page failed: ${fault.message}`));
  }
  out.scrollIntoView();
}

place("form").addEventListener("submit", (event) => {
  event.preventDefault();
  show();
});
