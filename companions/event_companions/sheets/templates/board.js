"use strict";
// The board in front of all: the clock counts down, and what doesn't fit one look is turned.
(() => {
  const root = document.documentElement, body = document.body, data = body.dataset;
  // a page that is kept for many says in its head when it was sent; a file is of this machine
  const sent = "sent" in data ? Date.parse(document.lastModified) + 500 : NaN;
  const ahead = Number.isNaN(sent) ? 0 : sent - Date.now();
  const now = () => (Date.now() + ahead) / 1000;

  // ---- the clock

  const clock = document.querySelector(".clock");
  const until = clock ? Number(clock.dataset.until) : 0;
  const begun = clock ? until - 60 * Number(clock.dataset.minutes) : 0;
  const AMBER = 600;

  const inMinutes = seconds => `${Math.floor(seconds / 60)}:${String(seconds % 60).padStart(2, "0")}`;

  const showClock = () => {
    const left = Math.ceil(until - now());
    clock.querySelector(".left").textContent = left > 0 ? inMinutes(left) : `+${inMinutes(Math.floor(now() - until))}`;
    clock.querySelector(".hour").textContent = left > 0 ? clock.dataset.before : clock.dataset.after;
    clock.classList.toggle("soon", left > 0 && left <= AMBER);
    clock.classList.toggle("over", left <= 0);
  };

  // ---- the parts

  // seconds of a look, of one of several of a part, and how long a round begins
  const LOOK = 20, ONE_OF_SEVERAL = 10, BEGINNING = 300;
  const wide = matchMedia("(min-width: 60em)");
  const parts = [...document.querySelectorAll(".part")];
  const names = parts.find(part => part.classList.contains("names"));

  const scrollerOf = part => part.querySelector(".looks");
  const gapOf = scroller => parseFloat(getComputedStyle(scroller).columnGap) || 0;
  const step = scroller => scroller.clientWidth + gapOf(scroller);
  const countOf = scroller => (scroller ? Math.ceil((scroller.scrollWidth + gapOf(scroller)) / step(scroller) - 0.01) : 1);

  // letters are narrower or wider here than they were counted on: so all of a list becomes a little larger or smaller
  const sizes = new Map(parts.map(part => [part, Number(part.style.getPropertyValue("--size"))]));
  const LEAST = 0.75, MOST = 1.4, STEP = 1.04;
  const isCut = part => {
    const scroller = scrollerOf(part);
    return scroller.scrollHeight > scroller.clientHeight || ("whole" in part.dataset && countOf(scroller) > 1);
  };
  const LINE = 1.15;
  const linesOf = cell => Math.round(cell.clientHeight / LINE / parseFloat(getComputedStyle(cell).fontSize));
  const linesIn = part => [...part.querySelectorAll("td.name, td.opponent")].reduce((sum, cell) => sum + linesOf(cell), 0);
  const fit = part => {
    const size = sizes.get(part), set = at => part.style.setProperty("--size", at);
    if (!size) return;
    let at = size;
    set(at);
    part.style.removeProperty("--around");
    while (isCut(part) && at > LEAST * size) set((at /= STEP));
    if (at < size || !("whole" in part.dataset)) return;
    const lines = linesIn(part);
    const isTooMuch = () => isCut(part) || linesIn(part) > lines;
    while (at < MOST * size && !isTooMuch()) set((at *= STEP));
    if (isTooMuch()) set(at / STEP);
    spread(part);
  };

  // where letters can't be larger, as names would take more lines, rows stand further apart: what is above and below each, in heights of a letter
  const CLOSE = 0.11, LOOSE = 0.33, WIDER = 0.02;
  const spread = part => {
    const set = at => part.style.setProperty("--around", `${at}em`);
    let at = CLOSE;
    while (at < LOOSE && !isCut(part)) set((at += WIDER));
    if (isCut(part)) set(at - WIDER);
  };

  // a column begins with the letter under which its names go on, and with a light row: so stripes go on from one column to the next
  const columns = new Map();
  const headColumns = part => {
    const rows = [...part.querySelectorAll(".looks > tr")], lefts = rows.map(row => Math.round(row.getBoundingClientRect().left));
    let count = 0, place = 0, letter = "";
    rows.forEach((row, at) => {
      const isHead = lefts[at] !== lefts[at - 1], cell = row.querySelector(".letter");
      if (isHead) count++;
      place = isHead ? 0 : place + 1;
      row.classList.toggle("marked", place % 2 === 1);
      if (!cell) return;
      cell.textContent = isHead || cell.dataset.letter !== letter ? cell.dataset.letter : "";
      letter = cell.dataset.letter;
    });
    columns.set(part, count);
  };

  const looksOf = part => {
    fit(part);
    headColumns(part);
    const count = countOf(scrollerOf(part));
    return Array.from({ length: count }, (_, at) => ({ part, at, seconds: count > 1 ? ONE_OF_SEVERAL : LOOK }));
  };

  // in the first minutes of a round everybody looks for a table
  const isBeginning = () => names && (clock ? now() < begun + BEGINNING : "nobodyFinished" in data);

  const lookAt = (looks, second) => {
    let rest = second % looks.reduce((sum, look) => sum + look.seconds, 0);
    return looks.find(look => (rest -= look.seconds) < 0) || looks[0];
  };

  let all = [];
  const measure = () => {
    root.classList.toggle("turns", wide.matches);
    all = wide.matches ? parts.flatMap(looksOf) : [];
  };

  // a single look may have fewer columns than there is room for; the last one of several shows the last columns, and so some again
  const showHeads = part => {
    const count = columns.get(part);
    part.querySelectorAll("thead > .heads").forEach((head, at) => (head.style.visibility = at < count ? "" : "hidden"));
  };

  const showDots = (looks, shown) => {
    const dots = document.querySelector(".dots");
    if (dots) dots.textContent = looks.length > 1 ? looks.map(look => (look === shown ? "\u25cf" : "\u25cb")).join(" ") : "";
  };

  const showPart = () => {
    if (!all.length) return;
    const looks = isBeginning() ? all.filter(look => look.part === names) : all;
    const shown = lookAt(looks, now());
    for (const part of parts) part.classList.toggle("now", part === shown.part);
    const scroller = scrollerOf(shown.part);
    if (scroller) scroller.scrollLeft = shown.at * step(scroller);
    showHeads(shown.part);
    showDots(looks, shown);
  };

  const show = () => {
    if (clock) showClock();
    showPart();
  };

  const tick = () => {
    show();
    setTimeout(tick, 1000 - ((now() * 1000) % 1000));
  };

  addEventListener("resize", () => {
    measure();
    show();
  });
  measure();
  tick();
})();
