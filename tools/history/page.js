"use strict";
// Goes from call to call by keyboard, and draws over the lanes what stands behind the call that is pointed at or gone to; shows
// its path, if it breaks or would break a run, and only the rows about a sheet.
(function () {
  const SVG = "http://www.w3.org/2000/svg";
  const rows = Array.from(document.querySelectorAll(".row"));
  const which = document.getElementById("which"), last = which.textContent;
  let shown = null;

  function numbers(row, name) {
    return (row.getAttribute("data-" + name) || "").split(" ").filter(Boolean);
  }

  // The row of an issue; of a long list only the last rows are on the page, and some may be hidden.
  function rowOf(part, issue) {
    const row = part.querySelector(`.row[data-issue="${issue}"]`);
    return row && row.offsetParent !== null ? row : null;
  }

  // Where a lane is in a row, in the part's own measure.
  function spot(part, row, lane) {
    const head = part.querySelector(`.head[data-lane="${lane}"]`);
    const top = part.getBoundingClientRect().top;
    return { x: Number(head.getAttribute("x")), y: row.getBoundingClientRect().top - top + 28 };
  }

  function add(part, name, attributes, text) {
    const shape = document.createElementNS(SVG, name);
    for (const key in attributes) shape.setAttribute(key, attributes[key]);
    if (text) shape.textContent = text;
    part.querySelector(".over").appendChild(shape);
  }

  function ring(part, at, name) {
    add(part, "circle", { class: name, cx: at.x, cy: at.y, r: 15 });
  }

  // What stands behind an issue, and behind that: curves from the earlier to the later one.
  function drawBehind(part, row) {
    const seen = new Set();
    function follow(issue) {
      const later = rowOf(part, issue);
      if (!later || seen.has(issue)) return;
      seen.add(issue);
      const to = spot(part, later, "master");
      ring(part, to, "");
      for (const earlier of numbers(later, "after")) {
        if (!rowOf(part, earlier)) continue;
        const from = spot(part, rowOf(part, earlier), "master");
        const side = from.x - Math.min(110, 30 + (to.y - from.y) / 8);
        const low = from.y + 13, high = to.y - 14;
        const d = `M${from.x - 8} ${low}C${side} ${low} ${side} ${high} ${to.x - 8} ${high}`;
        add(part, "path", { class: "after", d });
        follow(earlier);
      }
    }
    numbers(row, row.hasAttribute("data-issue") ? "issue" : "versions").forEach(follow);
  }

  function draw() {
    for (const part of document.querySelectorAll(".part")) {
      const over = part.querySelector(".over");
      if (!over) continue;
      over.textContent = "";
      if (shown && part.contains(shown)) drawBehind(part, shown);
    }
  }

  // The row's own path is drawn, or that of the last break.
  function show(row) {
    if (shown) shown.classList.remove("shown");
    shown = row;
    shown.classList.add("shown");
    const own = row.hasAttribute("data-path");
    which.textContent = own ? `svg .p${row.dataset.line} { display: inline; }` : last;
    draw();
  }

  // Only the rows about a sheet; folds open if one of their rows is.
  function only(sheet) {
    for (const row of rows) {
      row.classList.toggle("off", sheet !== "" && !(row.dataset.touched >>> sheet & 1));
    }
    for (const fold of document.querySelectorAll(".fold")) {
      fold.classList.toggle("off", !fold.querySelector(".row:not(.off)"));
    }
    draw();
  }

  // A fold opens for a link to a row in it.
  function unfold() {
    const row = document.getElementById(location.hash.slice(1));
    const fold = row && row.closest(".fold details");
    if (fold && !fold.open) {
      fold.open = true;
      row.scrollIntoView();
    }
  }

  // The next row that is seen, up or down from a place.
  function seen(place, by) {
    for (let at = place; rows[at]; at += by) {
      if (rows[at].offsetParent !== null) return rows[at];
    }
    return null;
  }

  // One row is in the order of the Tab key: the one last gone to.
  function stop(row) {
    for (const other of rows) other.tabIndex = -1;
    row.tabIndex = 0;
  }

  rows.forEach(function (row, place) {
    row.addEventListener("mouseenter", () => show(row));
    row.addEventListener("focusin", () => { stop(row); show(row); });
    row.addEventListener("keydown", function (event) {
      const to = { ArrowDown: [place + 1, 1], ArrowUp: [place - 1, -1], Home: [0, 1],
        End: [rows.length - 1, -1] }[event.key];
      const next = to && seen(to[0], to[1]);
      const details = row.querySelector("details");
      if (next) {
        event.preventDefault();
        next.focus();
      } else if (event.key === "Enter" && event.target === row && details) {
        details.open = !details.open;
      }
    });
  });
  document.addEventListener("toggle", draw, true);
  window.addEventListener("resize", draw);
  window.addEventListener("hashchange", unfold);
  const filter = document.getElementById("filter");
  if (filter) filter.addEventListener("change", () => only(filter.value));
  if (seen(0, 1)) stop(seen(0, 1));
  unfold();
  draw();
})();
