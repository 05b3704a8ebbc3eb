"use strict";
// What the page does besides: the filter, the lights of ways, and keys. All else is there without it.
(() => {
  const form = document.querySelector("form");
  const all = (selector, within = document) => Array.from(within.querySelectorAll(selector));

  // The filter

  function fits(element, wanted) {
    const own = ` ${element.dataset.k} `;
    return wanted.every((key) => own.includes(` ${key} `));
  }

  function chosen(name) {
    const choice = form.elements[name];
    return choice.value && choice.selectedOptions[0].textContent;
  }

  function isOfTask(title, task) {
    return title === task || title.startsWith(`${task}.`);
  }

  // Of a matrix the columns of the task's processes, and the row and the column of the thing.
  function filterMatrix(table) {
    const task = chosen("task");
    const thing = chosen("thing");
    const columns = all("thead th", table).map((head) => head.textContent);
    const rows = all("tbody tr", table);
    const fitting = rows.map((row) => {
      const isRow = !thing || row.cells[0].textContent === thing;
      return columns.map((name, place) => place > 0 && (!task || isOfTask(name, task)) && (isRow || `proc:${name}` === thing));
    });
    const isShown = columns.map((_, place) => place === 0 || fitting.some((row) => row[place]));
    all("thead th", table).forEach((head, place) => { head.hidden = !isShown[place]; });
    rows.forEach((row, number) => {
      row.hidden = !fitting[number].includes(true);
      Array.from(row.cells).forEach((cell, place) => {
        cell.hidden = !isShown[place];
        cell.style.opacity = place === 0 || fitting[number][place] ? "" : "0.25";
      });
    });
    const isEmpty = rows.every((row) => row.hidden);
    table.hidden = isEmpty;
    table.previousElementSibling.hidden = isEmpty;
  }

  function filter() {
    const wanted = ["task", "thing", "module"].map((name) => form.elements[name].value).filter((key) => key);
    const isDenied = form.elements.denied.checked;
    for (const element of all("[data-k]")) {
      const isLeftOut = isDenied && element.closest(".history") && !element.classList.contains("no");
      element.hidden = Boolean(isLeftOut) || !fits(element, wanted);
    }
    all(".matrix table:not(.legend)").forEach(filterMatrix);
    const shown = all(".history tr[data-k], .history tbody tr").filter((row) => !row.hidden).length;
    form.querySelector("output").textContent = wanted.length || isDenied ? `${shown} lines of the history` : "";
  }

  form.hidden = false;
  form.addEventListener("change", filter);
  form.addEventListener("reset", () => setTimeout(filter));
  form.addEventListener("submit", (event) => event.preventDefault());

  // What stands behind a click

  function isOpen(link) {
    return getComputedStyle(link.nextElementSibling).display !== "none";
  }

  function open(link, isWanted) {
    const part = link.closest("tr, .way");
    part.classList.toggle("open", isWanted);
    part.classList.toggle("shut", !isWanted);
    link.setAttribute("aria-expanded", isWanted);
  }

  const whys = all(".history .more");
  form.elements.open.hidden = whys.length === 0;
  form.elements.open.addEventListener("click", () => {
    const areOpen = whys.every(isOpen);
    whys.forEach((why) => open(why, !areOpen));
  });
  document.querySelector("main").addEventListener("click", (event) => {
    const link = event.target.closest(".more");
    if (!link) return;
    event.preventDefault();
    const isWanted = !isOpen(link);
    const picture = link.closest(".picture");
    if (picture) all(".way.open, .way:target", picture).forEach((way) => open(way.firstElementChild, false));
    open(link, isWanted);
    if (picture) light(picture, isWanted ? link.parentElement : null);
  });

  // Ways

  function light(picture, way) {
    const drawing = picture.querySelector("svg.ways");
    if (!drawing) return;
    const edges = new Set(way?.dataset.way?.split(" ") ?? []);
    all(".lit", drawing).forEach((part) => part.classList.remove("lit"));
    const things = new Set(way ? [way.dataset.of] : []);
    for (const part of all("[data-e]", drawing).filter((one) => edges.has(one.dataset.e))) {
      part.classList.add("lit");
      if (part.dataset.from) things.add(part.dataset.from).add(part.dataset.to);
    }
    const lit = all(".thing", drawing).filter((part) => things.has(part.dataset.n));
    lit.forEach((thing) => thing.classList.add("lit"));
    drawing.classList.toggle("has-lit", lit.length > 0);
    if (lit.length) bring(lit, picture.querySelector(".drawn"));
  }

  // Scrolls the picture alone to what is lit.
  function bring(lit, box) {
    const places = lit.map((thing) => thing.getBoundingClientRect());
    const edge = box.getBoundingClientRect();
    const least = (side) => Math.min(...places.map((place) => place[side]));
    const most = (side) => Math.max(...places.map((place) => place[side]));
    // (in the middle where all has room, and else from its beginning)
    const shift = (first, last, from, room) => first - from - Math.max(20, (room - (last - first)) / 2);
    box.scrollBy(shift(least("left"), most("right"), edge.left, edge.width), shift(least("top"), most("bottom"), edge.top, edge.height));
  }

  // Lights the way that the address names.
  function lightTarget() {
    const way = document.querySelector(".way:target");
    way?.classList.remove("shut");
    if (way) light(way.closest(".picture"), way);
  }

  addEventListener("hashchange", lightTarget);
  lightTarget();

  // Keys: n and p go to the next denial and to the one before

  function goToDenial(step) {
    const denied = all(".history tr.no").filter((row) => !row.hidden);
    const here = denied.findIndex((row) => `#${row.id}` === location.hash);
    const next = denied[here < 0 ? (step > 0 ? 0 : denied.length - 1) : here + step];
    if (!next) return;
    next.classList.remove("shut");
    location.hash = next.id;
    next.querySelector(".more")?.focus();
  }

  document.addEventListener("keydown", (event) => {
    if (event.ctrlKey || event.altKey || event.metaKey || event.target.closest("select, input, button")) return;
    if (event.key === "n") goToDenial(1);
    if (event.key === "p") goToDenial(-1);
  });
})();
