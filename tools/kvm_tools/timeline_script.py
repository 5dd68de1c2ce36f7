"""The script of the page that tools/timeline makes."""

SCRIPT = r"""
// Draws parts of the run, and shows the lines of what the pointer is at. It draws as timeline_page.py does.
"use strict";
(() => {
  const run = JSON.parse(document.getElementById("data").textContent);
  const svg = document.getElementById("run"), tip = document.getElementById("tip");
  let first = run.first, last = run.last, drag = null;
  document.getElementById("use").hidden = false;

  const escaped = text => text.replace(/&/g, "&amp;").replace(/</g, "&lt;");
  const x = tick => run.left + (tick - first) * run.width / (last - first + 1);
  const tickAt = px => first + (px - run.left) * (last - first + 1) / run.width;
  const lines = band => band.split ??= band.lines.split("\n");

  // The first place in a rising list at which the tick isn't below the one asked for.
  function from(ticks, tick) {
    let low = 0, high = ticks.length;
    while (low < high) {
      const middle = (low + high) >> 1;
      if (ticks[middle] < tick) low = middle + 1; else high = middle;
    }
    return low;
  }

  function spansDrawn(band) {
    const paths = {}, ends = {}, labels = [];
    for (const [begin, end, kind, label] of band.spans) {
      if (end < first || begin > last) continue;
      let left = Math.max(run.left, Math.floor(x(begin)));
      const right = Math.min(run.left + run.width, Math.max(left + 1, Math.floor(x(end))));
      if (left < (ends[kind] ?? -1)) left = ends[kind];
      if (right > left) {
        (paths[kind] ??= []).push(`M${left} ${band.y}h${right - left}v${band.h}h${left - right}z`);
        ends[kind] = right;
      }
      if (label && right - left > label.length * run.letter + 4 && labels.length < run.spanLabels)
        labels.push(`<text x="${left + 3}" y="${band.y + 10}">${escaped(label)}</text>`);
    }
    return Object.entries(paths).map(([kind, d]) => `<path class="span" fill="${run.colours[kind]}" d="${d.join("")}"/>`).join("") + labels.join("");
  }

  function marksDrawn(band) {
    const places = new Map(), paths = [];
    for (let i = from(band.t, first); i < band.t.length && band.t[i] <= last; i++) {
      const place = Math.floor((x(band.t[i]) - run.left) / run.cell);
      if ((places.get(place) ?? -1) < band.k[i]) places.set(place, band.k[i]);
    }
    for (const [place, kind] of places) (paths[kind] ??= []).push(`M${run.left + place * run.cell + 1} ${band.y}${run.marks[kind][1]}`);
    return paths.map((d, kind) => `<path class="mark" stroke="${run.marks[kind][0]}" d="${d.join("")}"/>`).join("");
  }

  function logDrawn() {
    const ends = [], short = new Set(), stems = [], texts = [], log = run.log;
    for (let i = from(log.t, first); i < log.t.length && log.t[i] <= last; i++) {
      const at = x(log.t[i]), line = lines(log)[i], [colour, , kind] = run.marks[log.k[i]];
      short.add(Math.floor(at));
      let row = ends.findIndex(end => end <= at);
      if (row < 0) row = ends.length;
      if (row >= run.labelRows || (row + 1) * run.label > run.base) continue;
      ends[row] = at + line.length * run.letter + 10;
      const y = run.base - 4 - row * run.label;
      stems.push(`<path stroke="${colour}" d="M${at} ${y - 9}V${run.base + 4}"/>`);
      texts.push(`<text class="log ${kind}" x="${at + 3}" y="${y}">${escaped(line)}</text>`);
    }
    return `<path stroke="#000" d="${[...short].map(at => `M${at} ${run.base - 2}v6`).join("")}"/>` + stems.join("") + texts.join("");
  }

  function axisDrawn() {
    let step = 1;
    while (step < 80 * (last - first + 1) / run.width) step = "15".includes(String(step)[0]) ? step * 2 : step * 5 / 2;
    const drawn = [];
    for (let tick = Math.ceil(first / step) * step; tick <= last; tick += step)
      drawn.push(`<path class="grid" d="M${x(tick)} ${run.base + 20}V${run.bottom}"/>` +
        `<text x="${x(tick)}" y="${run.base + 17}" text-anchor="middle">${tick}</text>`);
    return drawn.join("");
  }

  function draw() {
    const groups = document.getElementById("bands").children;
    run.bands.forEach((band, i) => { groups[i].innerHTML = spansDrawn(band) + marksDrawn(band); });
    document.getElementById("log").innerHTML = logDrawn();
    document.getElementById("axis").innerHTML = axisDrawn();
  }

  // Shows so many ticks from one on, inside the run.
  function show(begin, ticks) {
    ticks = Math.min(Math.max(ticks, 4), run.last - run.first + 1);
    begin = Math.min(Math.max(begin, run.first), run.last + 1 - ticks);
    [first, last] = [Math.floor(begin), Math.floor(begin) + Math.ceil(ticks) - 1];
    requestAnimationFrame(draw);
  }

  // The lines of the marks within three pixels of the pointer, or else those of the spans that it is in.
  function told(px, py) {
    const marks = [], spans = [], tick = tickAt(px), reach = 3 * (last - first + 1) / run.width;
    for (const band of [run.log, ...run.bands]) {
      if (py < band.y || py >= band.y + band.h) continue;
      for (let i = from(band.t, tick - reach); i < band.t.length && band.t[i] <= tick + reach; i++) marks.push([band, i]);
      for (const [begin, end, , , line] of band.spans) if (begin <= tick && tick <= end) spans.push(line);
    }
    const shown = marks.slice(0, 16).map(([band, i]) => lines(band)[i]);
    if (marks.length > shown.length) shown.push(`and ${marks.length - shown.length} more`);
    return shown.length ? shown.join("\n") : spans.length ? spans[spans.length - 1] : "";
  }

  svg.addEventListener("pointermove", event => {
    const box = svg.getBoundingClientRect(), px = event.clientX - box.left, py = event.clientY - box.top;
    if (drag) return show(drag.first - (px - drag.px) * drag.ticks / run.width, drag.ticks);
    const text = px < run.left ? "" : told(px, py);
    tip.textContent = text;
    tip.style.display = text ? "block" : "none";
    tip.style.left = Math.max(0, Math.min(event.clientX + 12, innerWidth - tip.offsetWidth - 4)) + "px";
    tip.style.top = Math.max(0, Math.min(event.clientY + 14, innerHeight - tip.offsetHeight - 4)) + "px";
  });
  svg.addEventListener("pointerdown", event => {
    svg.setPointerCapture(event.pointerId);
    drag = { px: event.clientX - svg.getBoundingClientRect().left, first, ticks: last - first + 1 };
    tip.style.display = "none";
  });
  svg.addEventListener("pointerup", () => { drag = null; });
  svg.addEventListener("pointercancel", () => { drag = null; });
  svg.addEventListener("pointerleave", () => { tip.style.display = "none"; });
  svg.addEventListener("wheel", event => {
    event.preventDefault();
    const px = event.clientX - svg.getBoundingClientRect().left, ticks = (last - first + 1) * (event.deltaY < 0 ? 0.7 : 1 / 0.7);
    show(tickAt(px) - (px - run.left) * ticks / run.width, ticks);
  }, { passive: false });
  document.getElementById("whole").addEventListener("click", () => show(run.first, run.last - run.first + 1));
})();
"""
