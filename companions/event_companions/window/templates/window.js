"use strict";
(() => {
  const by = (id) => document.getElementById(id);
  // of what was asked last: an answer that comes after a newer one is for nobody
  let busy = false, newest = 0, swapped = 0;
  const isField = (it) => it && /^(INPUT|TEXTAREA|SELECT)$/.test(it.tagName);

  function swap(text, keeps) {
    const next = new DOMParser().parseFromString(text, "text/html").getElementById("page");
    const page = by("page");
    if (!next) return location.reload();
    const focus = document.activeElement && document.activeElement.id;
    const fields = new Map(), opened = new Set();
    if (keeps) {
      for (const it of page.querySelectorAll("input[id], textarea[id], select[id]"))
        if (it.tagName === "SELECT" ? it.dataset.touched : it.value !== it.defaultValue) fields.set(it.id, it.value);
      for (const it of page.querySelectorAll("details[id][open]")) opened.add(it.id);
    }
    const main = document.querySelector("main"), top = main ? main.scrollTop : 0;
    const isSame = page.className === next.className && next.className === "tab-round";
    if (keeps && isSame) keepInPlace(page, next);
    page.replaceWith(next);
    if (!keeps) swapped = performance.now();
    for (const [id, value] of fields) if (by(id)) by(id).value = value;
    for (const id of opened) if (by(id)) by(id).open = true;
    if (by("ask")) by("ask").focus();
    else if (focus && by(focus)) by(focus).focus();
    if (isSame) document.querySelector("main").scrollTop = top;
    filter();
    clock();
  }

  // what others store moves no row under the mouse: it stays in its place until the next click is done
  function keepInPlace(page, next) {
    const list = next.querySelector(".open"), round = (it) => it.querySelector(".title h2")?.textContent.split(":")[0];
    if (!list || round(page) !== round(next)) return;
    for (const old of page.querySelectorAll(".open > .row")) {
      const now = list.querySelector(`#${old.id}`) || old;
      list.append(now);
      if (now !== old) continue;
      now.classList.add("came");
      for (const it of now.querySelectorAll("button")) it.disabled = true;
    }
  }

  async function go(address, keeps = false) {
    const mine = ++newest, text = await (await fetch(address)).text();
    if (mine === newest) swap(text, keeps);
  }

  async function send(form, submitter) {
    if (busy) return;
    busy = true;
    newest++;
    document.body.classList.add("busy");
    try {
      const body = new URLSearchParams(new FormData(form, submitter));
      const reply = await fetch(form.action, { method: "POST", body });
      const path = new URL(reply.url).pathname;
      if (reply.ok && path !== location.pathname) history.pushState(null, "", path);
      swap(await reply.text(), false);
      const kept = { line: "line", name: "name" }[submitter && submitter.form && [...form.elements].find((it) => it.id in { line: 1, name: 1 })?.id];
      if (kept && by(kept) && !by("ask")) by(kept).focus();
    } catch {
      document.body.classList.add("gone");
    } finally {
      busy = false;
      document.body.classList.remove("busy");
    }
  }

  document.addEventListener("submit", (event) => {
    event.preventDefault();
    // a table, or a name, without a score: its buttons are next
    const line = event.target.classList.contains("quick") && by("line").value.trim();
    const score = line && !/^\d+\s*\D*\d/.test(line) && !line.includes(" ") && document.querySelector(".open .row:not([hidden]) .score");
    if (score) return score.focus();
    send(event.target, event.submitter);
  });
  document.addEventListener("change", (event) => { event.target.dataset.touched = "1"; });

  document.addEventListener("click", (event) => {
    // rows move up once one is done: the second click of a double click is for the row that was there before
    if (event.target.closest("button.score") && event.detail && (event.detail > 1 || performance.now() - swapped < 250)) {
      event.preventDefault();
      return;
    }
    const link = event.target.closest("a");
    for (const it of document.querySelectorAll("details.more[open]")) if (!it.contains(event.target)) it.open = false;
    if (!link || link.target || event.ctrlKey || event.metaKey || event.shiftKey) return;
    event.preventDefault();
    history.pushState(null, "", link.pathname);
    go(link.pathname);
  });
  document.addEventListener("toggle", (event) => {
    const pop = event.target.open && event.target.querySelector(".pop");
    if (pop) pop.scrollIntoView({ block: "nearest" });
  }, true);
  addEventListener("popstate", () => go(location.pathname));

  // ---- the field at the top: what is typed there picks tables and names

  function filter() {
    const typed = by("line") ? by("line").value.trim().toLowerCase() : "";
    const number = /^\d+/.exec(typed);
    const isName = typed && !number && !/^[a-z]+ /.test(typed);
    let shown = 0;
    for (const it of document.querySelectorAll("[data-names]")) {
      const is = number ? it.dataset.table === number[0] : !isName || it.dataset.names.includes(typed);
      it.hidden = !is;
      it.classList.toggle("picked", Boolean(number) && is);
      shown += is;
    }
    const none = document.querySelector(".nothing");
    if (none) none.hidden = shown > 0;
  }
  document.addEventListener("input", (event) => { if (event.target.id === "line") filter(); });

  document.addEventListener("keydown", (event) => {
    if (event.ctrlKey || event.altKey || event.metaKey) return;
    const asks = by("ask");
    if (asks) {
      if (isField(event.target)) return;
      const answer = { y: "y", j: "y", n: "n", Escape: "n" }[event.key];
      if (answer) { event.preventDefault(); asks.querySelector(`button[value=${answer}]`).click(); }
      return;
    }
    const step = { ArrowLeft: "previousElementSibling", ArrowRight: "nextElementSibling" }[event.key];
    if (step && event.target.classList.contains("score")) {
      const to = event.target[step];
      if (to && to.classList.contains("score")) to.focus();
      return;
    }
    if (event.key === "Escape" && by("line")) { by("line").value = ""; filter(); by("line").blur(); return; }
    if (!isField(event.target) && /^[\p{L}\d/]$/u.test(event.key)) {
      if (event.key === "/") event.preventDefault();
      by("line").focus();
    }
  });

  // ---- the clock, and what others do

  function clock() {
    const it = by("clock");
    if (!it) return;
    const left = Math.round(it.dataset.until - Date.now() / 1000), size = Math.abs(left);
    it.textContent = `${left < 0 ? "+" : ""}${Math.floor(size / 60)}:${String(size % 60).padStart(2, "0")}`;
    it.classList.toggle("over", left < 0);
  }
  setInterval(clock, 1000);
  setInterval(async () => {
    if (busy) return;
    try {
      const now = (await (await fetch("/now")).text()).trim();
      document.body.classList.remove("gone");
      if (!busy && now !== by("page").dataset.now) await go(location.pathname, true);
    } catch {
      document.body.classList.add("gone");
    }
  }, 1000);
  clock();
})();
