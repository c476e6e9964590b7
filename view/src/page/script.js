"use strict";
(() => {
  const pairForm = /^#pair-(\d+)-(\d+)$/;
  const pairLinks = [...document.querySelectorAll('a[href^="#pair-"]')];
  const steps = [...document.querySelectorAll(".step")];
  const linksOf = (fragment) => pairLinks.filter((link) => link.getAttribute("href") === fragment);
  const shown = document.getElementById("shown");
  const clear = document.getElementById("clear");
  const hint = shown.textContent;
  let chosen = "";

  const labelsOf = (fragment) => fragment.match(pairForm).slice(1).map(Number);
  const isPair = (fragment) => pairForm.test(fragment) && document.getElementById(fragment.slice(1)) !== null;
  const stepsOf = (label) => steps.filter((step) => step.classList.contains(`l${label}`));
  const allStepsOf = (fragment) => (fragment === "" ? [] : labelsOf(fragment).flatMap(stepsOf));

  // Marks the pair of the fragment, or none where it is empty.
  function mark(fragment) {
    for (const link of linksOf(chosen)) link.setAttribute("aria-pressed", "false");
    for (const link of linksOf(fragment)) link.setAttribute("aria-pressed", "true");
    for (const step of document.querySelectorAll(".step.on")) step.classList.remove("on");
    for (const step of allStepsOf(fragment)) step.classList.add("on");
    shown.replaceChildren(...(fragment === "" ? [hint] : sentence(labelsOf(fragment))));
    shown.parentElement.classList.toggle("some", fragment !== "");
    clear.hidden = fragment === "";
    chosen = fragment;
  }

  function sentence([low, high]) {
    return low === high
      ? ["Label ", ...place(low), " may run at the same time as itself."]
      : ["Label ", ...place(low), " and label ", ...place(high), " may run at the same time."];
  }

  // A label and the rows of its steps, the first few as links.
  function place(label) {
    const found = stepsOf(label);
    const links = found.slice(0, 3).flatMap((step) => [", ", rowLink(step)]).slice(1);
    const more = found.length > 3 ? ` and ${found.length - 3} more` : "";
    return [`${label} (${found.length === 1 ? "row" : "rows"} `, ...links, `${more})`];
  }

  function rowLink(step) {
    const link = document.createElement("a");
    link.href = `#${step.id}`;
    link.textContent = step.id.slice("row-".length);
    return link;
  }

  // Of the first steps of both labels the upper one comes last, so that it surely shows.
  function bringStepsIntoView(fragment) {
    for (const step of allStepsOf(fragment)) step.closest("details").open = true;
    const firsts = labelsOf(fragment).map((label) => stepsOf(label)[0]);
    firsts.sort((a, b) => steps.indexOf(b) - steps.indexOf(a));
    for (const step of firsts) step.scrollIntoView({ block: "nearest", inline: "nearest" });
  }

  // Scrolls the list alone, not the page.
  function bringLineIntoView(fragment) {
    const line = document.getElementById(fragment.slice(1));
    const list = line.parentElement;
    list.scrollTop = line.offsetTop - list.clientHeight / 2;
  }

  function choose(fragment) {
    mark(fragment);
    if (fragment !== "") {
      bringStepsIntoView(fragment);
      bringLineIntoView(fragment);
    }
    history.replaceState(null, "", fragment === "" ? location.pathname + location.search : fragment);
  }

  // A link to a procedure or a row leads there, and the address goes on naming the pair.
  function goTo(fragment) {
    const place = document.getElementById(fragment.slice(1));
    place.closest("details").open = true;
    place.scrollIntoView({ block: "nearest", inline: "nearest" });
    place.querySelector("summary")?.focus({ preventScroll: true });
  }

  // The marked cell that lies next in a direction, or none.
  function nextCell(link, right, down) {
    const table = link.closest("table");
    let column = link.closest("td").cellIndex;
    let row = link.closest("tr").rowIndex;
    for (;;) {
      column += right;
      row += down;
      const cell = row > 0 && column > 0 ? table.rows[row]?.cells[column] : undefined;
      if (!cell) return null;
      const next = cell.querySelector("a");
      if (next) return next;
    }
  }

  function nextLine(link, right, down) {
    const line = link.parentElement;
    const next = right + down > 0 ? line.nextElementSibling : line.previousElementSibling;
    return next && next.firstElementChild;
  }

  // A key or a click with a modifier is the browser's: a new tab, one page back.
  const isPlain = (event) => !(event.ctrlKey || event.metaKey || event.altKey || event.shiftKey);

  const directions = { ArrowRight: [1, 0], ArrowLeft: [-1, 0], ArrowDown: [0, 1], ArrowUp: [0, -1] };

  // One stop of the tab key for the whole of it; the arrows go on from there.
  function walkByArrows(whole, next) {
    let stop = whole.querySelector("a");
    if (!stop) return;
    for (const link of whole.querySelectorAll("a")) link.tabIndex = -1;
    stop.tabIndex = 0;
    whole.addEventListener("focusin", (event) => {
      stop.tabIndex = -1;
      stop = event.target.closest("a") ?? stop;
      stop.tabIndex = 0;
    });
    whole.addEventListener("keydown", (event) => {
      const direction = directions[event.key];
      if (!direction || !isPlain(event)) return;
      event.preventDefault();
      const link = next(stop, ...direction);
      if (link) link.focus();
    });
  }

  function onClick(event) {
    const link = event.target.closest("a");
    if (!link || !isPlain(event)) return;
    event.preventDefault();
    const fragment = link.getAttribute("href");
    if (pairForm.test(fragment)) choose(fragment === chosen ? "" : fragment);
    else goTo(fragment);
  }

  function onKey(event) {
    if (event.key === "Escape" && chosen !== "") choose("");
    if (event.key === " " && pairLinks.includes(event.target)) {
      event.preventDefault();
      event.target.click();
    }
  }

  function followAddress() {
    if (isPair(location.hash)) choose(location.hash);
  }

  document.documentElement.classList.add("scripted");
  for (const link of pairLinks) {
    link.setAttribute("role", "button");
    link.setAttribute("aria-pressed", "false");
  }
  for (const map of document.querySelectorAll(".map")) walkByArrows(map, nextCell);
  for (const list of document.querySelectorAll(".list")) walkByArrows(list, nextLine);
  document.addEventListener("click", onClick);
  document.addEventListener("keydown", onKey);
  clear.addEventListener("click", () => choose(""));
  window.addEventListener("hashchange", followAddress);
  let folded = [];
  window.addEventListener("beforeprint", () => {
    folded = [...document.querySelectorAll("details:not([open])")];
    for (const procedure of folded) procedure.open = true;
  });
  window.addEventListener("afterprint", () => {
    for (const procedure of folded) procedure.open = false;
  });
  // The browser goes to the line of the list that the address names; the steps matter more.
  window.addEventListener("load", () => {
    if (isPair(location.hash)) window.scrollTo(0, 0);
    followAddress();
  });
})();
