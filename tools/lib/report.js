"use strict";
(() => {
  const told = document.getElementById("told"), net = document.getElementById("net");
  const whole = document.getElementById("whole"), first = net.innerHTML;
  const data = document.getElementById("data") && JSON.parse(document.getElementById("data").textContent);
  let view = net.getAttribute("viewBox"), full = view;
  const show = (box) => { view = box; net.setAttribute("viewBox", box); };

  // A click on a channel, in the picture or in the table, tells what it carries; one on a group unfolds it.
  const choose = (it) => {
    for (const other of document.querySelectorAll("g.chosen")) other.classList.remove("chosen");
    for (const other of document.querySelectorAll("g[data-c]")) if (other.dataset.c === it.dataset.c) other.classList.add("chosen");
    told.textContent = it.dataset.told || it.querySelector("title").textContent;
  };
  document.addEventListener("click", (event) => {
    const channel = event.target.closest("[data-c]"), box = event.target.closest("[data-box]");
    if (channel && data && channel.dataset.told) reveal(channel);
    else if (channel) choose(channel);
    else if (box && data) unfold(Number(box.dataset.box));
  });
  for (const it of net.querySelectorAll("g.loop[data-c]")) it.classList.add("chosen");

  // The wheel zooms around the pointer, and a drag moves the picture.
  const point = (event) => {
    const [x, y, wide, high] = view.split(" ").map(Number), at = net.getBoundingClientRect();
    const scale = Math.max(wide / at.width, high / at.height);
    return [x + wide / 2 + (event.clientX - at.left - at.width / 2) * scale, y + high / 2 + (event.clientY - at.top - at.height / 2) * scale, scale];
  };
  net.addEventListener("wheel", (event) => {
    event.preventDefault();
    const [u, v] = point(event), by = Math.exp(0.0015 * event.deltaY);
    const [x, y, wide, high] = view.split(" ").map(Number);
    if (wide * by < 60 || wide * by > 4 * full.split(" ")[2]) return;
    show([u + (x - u) * by, v + (y - v) * by, wide * by, high * by].join(" "));
  }, { passive: false });
  let drag = null;
  net.addEventListener("pointerdown", (event) => { drag = [event.clientX, event.clientY, view.split(" ").map(Number), point(event)[2]]; });
  window.addEventListener("pointerup", () => { drag = null; });
  window.addEventListener("pointermove", (event) => {
    if (!drag) return;
    const [x, y, box, scale] = drag;
    show([box[0] - (event.clientX - x) * scale, box[1] - (event.clientY - y) * scale, box[2], box[3]].join(" "));
  });
  document.getElementById("fit").addEventListener("click", () => show(full));
  whole.addEventListener("click", () => {
    net.innerHTML = first;
    whole.hidden = true;
    show(full = first_view);
  });
  const first_view = full;

  // What follows draws a group whose box was clicked: its switches, and the groups that they are joined to.
  const escaped = (text) => String(text).replace(/[&<>"]/g, (it) => `&#${it.charCodeAt(0)};`);
  const heat = (load) => load ? `h${Math.min(10, Math.floor(10 * load * data.count / data.total / 3 + 0.5))}` : "unused";
  const box = (x, y, lines, marks, more) => {
    const wide = Math.max(46, ...lines.map((it) => 6.9 * String(it).length + 14)), high = 14 * lines.length + 7;
    const text = lines.map((it, i) => `<text${i ? ' class="more"' : ""} x="${x}" y="${y - 7 * lines.length + 10.6 + 14 * i}">${escaped(it)}</text>`);
    return `<g class="${marks}"${more}><rect class="node" x="${x - wide / 2}" y="${y - high / 2}" width="${wide}" height="${high}" rx="5"/>${text.join("")}</g>`;
  };
  // Unfolds the group of a channel that was chosen in the table.
  const reveal = (it) => {
    const [at, port] = it.dataset.c.split("/").map(Number), group = data.groups.findIndex(([, ...own]) => own.includes(at));
    const far = data.channels.find(([a, p]) => a === at && p === port)[2], other = data.groups.findIndex(([, ...own]) => own.includes(far));
    unfold(group);
    choose(it);
    const key = group === other ? it.dataset.c : [at, `g${other}`].sort().join("|");
    for (const line of net.querySelectorAll("g[data-c]")) if (line.dataset.c === key) line.classList.add("chosen");
  };
  const spread = (list, y, room) => list.map((it, i) => [it, [room * (i + 0.5) / list.length, y]]);
  const unfold = (group) => {
    const [name, ...members] = data.groups[group], of = new Map();
    data.groups.forEach(([, ...own], i) => own.forEach((it) => of.set(it, i)));
    const rank = (i) => Math.min(...data.groups[i].slice(1).map((it) => data.switches[it][0]));
    const channels = data.channels.filter(([a, , b]) => of.get(a) === group || of.get(b) === group);
    const others = [...new Set(channels.map(([a, , b]) => of.get(a) === group ? of.get(b) : of.get(a)))].filter((it) => it !== group);
    const above = others.filter((it) => data.isTree ? rank(it) < rank(group) : it % 2), below = others.filter((it) => !above.includes(it));
    const rows = [...new Set(members.map((it) => data.switches[it][0]))].sort((a, b) => a - b).map((row) => members.filter((it) => data.switches[it][0] === row));
    const most = Math.max(...[above, below, ...rows].map((it) => it.length)), room = 120 * most, step = Math.max(130, room / 9);
    const spots = new Map();
    spread(above, 0, room).forEach(([it, at]) => spots.set(`g${it}`, at));
    rows.forEach((row, i) => spread(row, step * (i + 1), room).forEach(([it, at], j) => {
      // Switches of a row that are joined to each other stand on an arc.
      const x = row.length > 1 ? j / (row.length - 1) : 0, bend = data.isTree ? 0 : 0.6 * step * 4 * x * (1 - x);
      spots.set(it, [at[0], at[1] + bend]);
    }));
    spread(below, step * (rows.length + (data.isTree ? 1 : 1.8)), room).forEach(([it, at]) => spots.set(`g${it}`, at));
    const lines = new Map();
    for (const [a, p, b, q, load, loop] of channels) {
      const ends = [of.get(a) === group ? a : `g${of.get(a)}`, of.get(b) === group ? b : `g${of.get(b)}`];
      const inside = ends.every((it) => typeof it === "number"), key = inside ? `${a}/${p}` : [...ends].sort().join("|");
      const times = Math.floor(100 * load * data.count / Math.max(1, data.total)) / 100;
      const text = `${data.switches[a][1]} port ${p} \u2192 ${data.switches[b][1]} port ${q}: ${load} pairs, ${times} times the mean`;
      const old = lines.get(key);
      if (!old || load > old.load || loop) lines.set(key, { ends, inside, load: Math.max(load, old ? old.load : 0), text, loop: loop || (old && old.loop), a, b, count: (old ? old.count : 0) + 1 });
      else old.count += 1;
    }
    const drawn = [...lines].sort((one, other) => one[1].load - other[1].load).map(([key, it]) => {
      let [[x, y], [u, v]] = it.ends.map((end) => spots.get(end));
      // Lines between rows end at the borders of boxes, so that none passes behind a box beside its own.
      if (Math.abs(v - y) > step / 2) [y, v] = [y + 15 * Math.sign(v - y), v - 15 * Math.sign(v - y)];
      const length = Math.hypot(u - x, v - y) || 1, side = it.inside ? 2 : 0;
      [x, y, u, v] = [x - side * (v - y) / length, y + side * (u - x) / length, u - side * (v - y) / length, v + side * (u - x) / length];
      const text = it.inside ? it.text : `${it.count} channels; the busiest: ${it.text}`;
      const way = `M${x} ${y}L${u} ${v}`;
      return `<g class="cable ${heat(it.load)}${it.loop ? " loop" : ""}" data-c="${escaped(key)}"><title>${escaped(text)}</title><path class="hit" d="${way}"/><path class="way" d="${way}"/></g>`;
    });
    const boxes = [...spots].map(([key, [x, y]]) => typeof key === "number"
      ? box(x, y, data.switches[key].slice(1), `switch${data.lost.includes(key) ? " lost" : ""}`, "")
      : box(x, y, [data.groups[key.slice(1)][0], `${data.groups[key.slice(1)].length - 1} switches`], "group", ` data-box="${key.slice(1)}"`));
    net.innerHTML = drawn.join("") + boxes.join("");
    const low = Math.max(...[...spots.values()].map((it) => it[1])), top = Math.min(...[...spots.values()].map((it) => it[1]));
    show(full = `-70 ${top - 50} ${room + 140} ${low - top + 100}`);
    whole.hidden = false;
    told.textContent = `${name}: ${members.length} switches`;
  };
})();
