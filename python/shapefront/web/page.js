"use strict";
// The page of a folder of measurements: its table, the image behind it, and histograms. All numbers come from the element `data`, and what
// `shapes check` said from `verdict`. Rows are numbered as in the table of all objects; only those in sight are in the document.

const read = (id) => JSON.parse(document.getElementById(id).textContent);
const at = (id) => document.getElementById(id);
const { columns, images } = read("data");
const HEIGHT = 26, BINS = 28, PLOT = { width: 240, height: 70 };

for (const column of columns) {
  column.values = column.isImage ? Int32Array.from(column.cells) : Float64Array.from(column.cells, (text) => (text === "" ? NaN : Number(text)));
}
const imageOf = columns[0].values;
const state = { sort: null, descending: false, image: -1, ranges: new Map(), isAll: false, isByImage: false, pointed: -1, shown: -1, rows: [] };

function element(name, options = {}, ...children) {
  const made = document.createElement(name);
  for (const [key, value] of Object.entries(options)) {
    if (key === "text") made.textContent = value;
    else if (key.startsWith("on")) made.addEventListener(key.slice(2), value);
    else made.setAttribute(key, value);
  }
  made.append(...children);
  return made;
}

function drawn(name, attributes) {
  const made = document.createElementNS(at("ink").namespaceURI, name);
  for (const [key, value] of Object.entries(attributes)) made.setAttribute(key, value);
  return made;
}

const text = (column, row) => (column.isImage ? images[column.values[row]].name : column.cells[row]);
// A number as a person reads it: with the digits that the program printed, and of a long one six, or four of what shapes computed from the image.
const fewer = (told, digits) => String(Number(Number(told).toPrecision(Math.max(digits, Math.trunc(Math.abs(told)).toString().length))));
const brief = (column, told) => (told.length > (column.isOwn ? 5 : 9) && told.includes(".") && Number.isFinite(Number(told)) ? fewer(told, column.isOwn ? 4 : 6) : told);
const short = (value) => (Number.isFinite(value) ? String(Number(value.toPrecision(4))) : "");
const visible = () => columns.filter((column) => state.isAll || !column.isHidden);
const measured = () => columns.filter((column) => column.isMeasure && (state.isAll || !column.isHidden));

// What check said.

function tell() {
  const said = read("verdict");
  if (!said) return;
  at("said").classList.add(said.holds ? "yes" : "no");
  at("said-what").textContent = said.holds ? "shapes check said yes." : `shapes check said no to ${said.lines.length} of what it looked at.`;
  at("said-when").textContent = said.when;
  at("said-covers").textContent = said.covers;
  at("said-lines").replaceChildren(...said.lines.map((line) => element("li", { text: line })));
  at("said").querySelector("details").open = !said.holds;
}

// The rows: filtered and sorted.

function passes(row, except) {
  if (state.image >= 0 && imageOf[row] !== state.image) return false;
  for (const [column, [low, high]] of state.ranges) {
    const value = column.values[row];
    if (column !== except && !(value >= low && value <= high)) return false;
  }
  return true;
}

function filtered() {
  const rows = [];
  for (let row = 0; row < imageOf.length; row++) if (passes(row)) rows.push(row);
  if (state.sort) {
    const { values } = state.sort, way = state.descending ? -1 : 1;
    const order = (a, b) => (values[a] < values[b] ? -way : values[a] > values[b] ? way : a - b);
    const empty = rows.filter((row) => Number.isNaN(values[row]));
    return [...rows.filter((row) => !Number.isNaN(values[row])).sort(order), ...empty];
  }
  return rows;
}

function update() {
  state.rows = filtered();
  at("count").textContent = state.rows.length === imageOf.length ? `${imageOf.length}` : `${state.rows.length} of ${imageOf.length}`;
  at("scroll").style.setProperty("--rows", `${state.rows.length * HEIGHT + 60}px`);
  chips();
  head();
  body();
  charts();
  for (const card of document.querySelectorAll(".card")) card.classList.toggle("chosen", Number(card.dataset.image) === state.image);
  at("image").value = state.image;
}

function chips() {
  const chip = (column, [low, high]) => {
    const told = `${column.name} ${low === -Infinity ? "to" : short(low)}${low !== -Infinity && high !== Infinity ? " to " : high === Infinity ? " and more" : " "}${high === Infinity ? "" : short(high)} ×`;
    return element("button", { class: "chip", type: "button", title: "take this filter away", text: told, onclick: () => filter(column, -Infinity, Infinity) });
  };
  at("chips").replaceChildren(...[...state.ranges].map(([column, range]) => chip(column, range)));
}

function filter(column, low, high) {
  if (low === -Infinity && high === Infinity) state.ranges.delete(column);
  else state.ranges.set(column, [low, high]);
  if (columns[at("column").value] === column) fields();
  at("scroll").scrollTop = 0;
  update();
}

function fields() {
  const [low, high] = state.ranges.get(columns[at("column").value]) ?? [-Infinity, Infinity];
  at("low").value = low === -Infinity ? "" : String(Number(low.toPrecision(6)));
  at("high").value = high === Infinity ? "" : String(Number(high.toPrecision(6)));
}

// The table.

function head() {
  const cells = visible().map((column) => {
    const arrow = state.sort === column ? (state.descending ? " ▼" : " ▲") : "";
    const cell = element("th", { title: column.about, class: column.isImage ? "left" : "", scope: "col", onclick: () => sort(column) }, column.title);
    if (column.unit) cell.append(" ", element("small", { text: column.unit }));
    if (column.isOwn) cell.append(element("span", { class: "own", text: " †" }));
    cell.append(arrow);
    cell.dataset.column = column.name;
    cell.setAttribute("aria-sort", arrow ? (state.descending ? "descending" : "ascending") : "none");
    return cell;
  });
  document.querySelector("thead").replaceChildren(element("tr", {}, ...cells));
}

function sort(column) {
  state.descending = state.sort === column ? !state.descending : !column.isImage && column.isMeasure;
  state.sort = column;
  state.rows = filtered();
  at("scroll").scrollTop = 0;
  head();
  body();
}

function body() {
  const box = at("scroll"), shown = visible(), first = Math.max(0, Math.floor(box.scrollTop / HEIGHT) - 8);
  const last = Math.min(state.rows.length, first + Math.ceil(box.clientHeight / HEIGHT) + 16);
  const lines = [space(first, shown.length)];
  for (let k = first; k < last; k++) {
    const row = state.rows[k], line = element("tr", { class: row === state.pointed ? "pointed" : "" });
    line.dataset.row = row;
    for (const column of shown) line.append(cell(column, row));
    lines.push(line);
  }
  lines.push(space(state.rows.length - last, shown.length));
  document.querySelector("tbody").replaceChildren(...lines);
}

function cell(column, row) {
  const told = text(column, row), few = column.isImage ? told : brief(column, told);
  return element("td", few === told ? { class: column.isImage ? "left" : "", text: told } : { text: few, title: told });
}

function space(count, width) {
  return element("tr", { class: "space" }, element("td", { colspan: width, style: `height: ${count * HEIGHT}px` }));
}

// The image: its sheet, the map of its objects, and the one that is pointed at.

const maps = new Map();

function mapOf(image) {
  if (!maps.has(image)) {
    maps.set(image, !images[image].places ? Promise.resolve(null) : new Promise((done) => {
      const sheet = new Image();
      sheet.onload = () => {
        const canvas = element("canvas", { width: sheet.width, height: sheet.height }), pen = canvas.getContext("2d", { willReadFrequently: true });
        pen.drawImage(sheet, 0, 0);
        const bytes = pen.getImageData(0, 0, sheet.width, sheet.height).data, numbers = new Uint32Array(sheet.width * sheet.height);
        for (let k = 0; k < numbers.length; k++) numbers[k] = bytes[4 * k] + 256 * bytes[4 * k + 1] + 65536 * bytes[4 * k + 2];
        done({ width: sheet.width, height: sheet.height, numbers });
      };
      sheet.src = images[image].places;
    }));
  }
  return maps.get(image);
}

async function show(image) {
  if (state.shown === image) return mapOf(image);
  state.shown = image;
  const card = document.querySelector(`.card[data-image="${image}"] img`);
  at("shown").textContent = images[image].name;
  at("stage").hidden = !card;
  at("sheet").src = card ? card.src : "data:,";
  return mapOf(image);
}

async function point(row) {
  if (row === state.pointed) return;
  state.pointed = row;
  for (const line of document.querySelectorAll("tbody tr")) line.classList.toggle("pointed", Number(line.dataset.row) === row);
  values(row);
  if (row < 0) return mark(null, row);
  const map = await show(imageOf[row]);
  if (state.pointed === row) mark(map, row);
}

function values(row) {
  const told = row < 0 ? [] : columns.filter((column) => !column.isImage && !column.isHidden && text(column, row) !== "");
  if (row < 0) return at("values").replaceChildren(element("p", { class: "quiet", text: "Point at a row, or at an object in the image." }));
  at("values").replaceChildren(...told.map((column) =>
    element("div", {}, element("dt", { text: column.title }), element("dd", { text: `${brief(column, text(column, row))} ${column.unit ?? ""}`, title: text(column, row) }))));
}

function mark(map, row) {
  const canvas = at("mark"), pen = canvas.getContext("2d");
  if (!map) return pen.clearRect(0, 0, canvas.width, canvas.height);
  canvas.width = map.width;
  canvas.height = map.height;
  const sheet = pen.createImageData(map.width, map.height), own = row - images[imageOf[row]].first + 1;
  for (let k = 0; k < map.numbers.length; k++) {
    if (map.numbers[k] === own) sheet.data.set([255, 214, 10, 150], 4 * k);
    else sheet.data.set([0, 0, 0, 90], 4 * k);
  }
  pen.putImageData(sheet, 0, 0);
  const box = boxOf(row);
  if (box) {
    pen.strokeStyle = "#ffd60a";
    pen.lineWidth = Math.max(1.5, map.width / 300);
    pen.strokeRect(...box);
  }
}

// The box of an object in its map, with a margin, by the columns that tell it in pixels of the picture.
function boxOf(row) {
  const [left, top, right, bottom] = ["left", "top", "right", "bottom"].map((name) => columns.find((column) => column.name === name)?.values[row]);
  const { scale, fit } = images[imageOf[row]], pad = 5;
  if (left === undefined) return null;
  return [left * fit * scale - pad, top * fit * scale - pad, (right - left + 1) * fit * scale + 2 * pad, (bottom - top + 1) * fit * scale + 2 * pad];
}

async function pointInImage(event) {
  const image = state.shown, map = await mapOf(image);
  if (!map) return;
  const own = at("sheet").getBoundingClientRect(), ratio = Math.min(own.width / map.width, own.height / map.height);
  const x = Math.floor((event.clientX - own.left - (own.width - map.width * ratio) / 2) / ratio);
  const y = Math.floor((event.clientY - own.top - (own.height - map.height * ratio) / 2) / ratio);
  const number = x < 0 || y < 0 || x >= map.width || y >= map.height ? 0 : map.numbers[y * map.width + x];
  if (!number) return;
  const row = images[image].first + number - 1, place = state.rows.indexOf(row), box = at("scroll");
  if (place >= 0 && (place * HEIGHT < box.scrollTop || (place + 3) * HEIGHT > box.scrollTop + box.clientHeight)) {
    box.scrollTop = place * HEIGHT - box.clientHeight / 2;
    body();
  }
  point(row);
}

// Histograms.

function axisOf(column) {
  const known = [...column.values].filter(Number.isFinite).sort((a, b) => a - b);
  const [low, high] = [known[0], known[known.length - 1]];
  const isLog = low > 0 && high / low > 100, of = isLog ? Math.log : (value) => value, back = isLog ? Math.exp : (value) => value;
  const place = (value) => (of(value) - of(low)) / (of(high) - of(low));
  return { low, high, isLog, place, value: (part) => back(of(low) + part * (of(high) - of(low))) };
}

function binned(column, rows) {
  const bins = new Array(BINS).fill(0);
  for (const row of rows) {
    const part = column.axis.place(column.values[row]);
    if (part >= 0) bins[Math.min(BINS - 1, Math.floor(part * BINS))]++;
  }
  return bins;
}

function median(column, rows) {
  const known = Float64Array.from(rows, (row) => column.values[row]).filter(Number.isFinite).sort(), middle = known.length >> 1;
  return known.length % 2 ? known[middle] : (known[middle - 1] + known[middle]) / 2;
}

function bars(bins, most, kind, height) {
  const width = PLOT.width / BINS;
  const path = bins.map((count, k) => (count ? `M${k * width + .5} ${height}V${height - Math.max(1, (count / most) * (height - 4))}h${width - 1}V${height}z` : "")).join("");
  return drawn("path", { d: path, class: kind });
}

function line(column, middle, height) {
  const x = Math.min(1, Math.max(0, column.axis.place(middle))) * PLOT.width;
  return Number.isFinite(x) ? [drawn("line", { x1: x, x2: x, y1: 0, y2: height, class: "median" })] : [];
}

function plot(column, height, ...parts) {
  const made = drawn("svg", { viewBox: `0 0 ${PLOT.width} ${height}`, preserveAspectRatio: "none", height });
  made.append(...parts.flat());
  const range = state.ranges.get(column);
  if (range) {
    const [from, to] = range.map((value) => Math.min(1, Math.max(0, column.axis.place(value) || (value > 0 ? value : 0))) * PLOT.width);
    made.append(drawn("rect", { x: from, width: Math.max(1, to - from), y: 0, height, class: "range" }));
  }
  const part = (event) => (event.clientX - made.getBoundingClientRect().left) / made.getBoundingClientRect().width;
  made.addEventListener("pointerdown", (down) => {
    const from = part(down);
    made.addEventListener("pointerup", (up) => {
      const [low, high] = [from, part(up)].sort((a, b) => a - b);
      if (high - low < 0.02) filter(column, -Infinity, Infinity);
      else filter(column, low <= 0 ? -Infinity : column.axis.value(low), high >= 1 ? Infinity : column.axis.value(high));
    }, { once: true });
    made.setPointerCapture(down.pointerId);
  });
  return made;
}

function chart(column) {
  column.axis ??= axisOf(column);
  column.every ??= binned(column, imageOf.keys());
  const middle = median(column, state.rows), { low, high, isLog } = column.axis;
  const title = element("p", { title: column.about }, element("span", { text: column.title + (column.unit ? ` (${column.unit})` : "") }), element("span", { text: short(middle) }));
  title.lastChild.dataset.median = middle;
  const ends = element("p", { class: "ends" }, ...[short(low), isLog ? "logarithmic" : "", short(high)].map((told) => element("span", { text: told })));
  const made = element("div", { class: "chart" }, title);
  made.dataset.column = column.name;
  if (state.isByImage) made.append(byImage(column));
  else {
    const some = state.rows.length < imageOf.length ? binned(column, state.rows) : column.every, most = Math.max(...(state.image >= 0 ? some : column.every), 1);
    made.append(plot(column, PLOT.height, state.image >= 0 ? [] : bars(column.every, most, "every", PLOT.height), bars(some, most, "some", PLOT.height), line(column, middle, PLOT.height)));
  }
  made.append(ends);
  return made;
}

function byImage(column) {
  const rows = images.map(() => []);
  for (const row of state.rows) rows[imageOf[row]].push(row);
  const small = (own, image) => {
    const bins = binned(column, own), middle = median(column, own);
    const name = element("span", { text: images[image].name, title: images[image].name });
    return element("div", { class: "small" }, name, plot(column, 18, bars(bins, Math.max(...bins, 1), "some", 18), line(column, middle, 18)), element("span", { text: short(middle) }));
  };
  return element("div", { class: "rows" }, ...rows.map((own, image) => (own.length ? small(own, image) : "")).filter(Boolean));
}

function charts() {
  at("charts").replaceChildren(...measured().map(chart));
}

// What a user does.

function choose(image) {
  state.image = image;
  at("scroll").scrollTop = 0;
  if (image >= 0) show(image);
  point(-1);
  update();
}

function listen() {
  let isWaiting = false;
  at("scroll").addEventListener("scroll", () => {
    if (!isWaiting) requestAnimationFrame(() => { isWaiting = false; body(); });
    isWaiting = true;
  });
  document.querySelector("tbody").addEventListener("pointerover", (event) => {
    const row = event.target.closest("tr")?.dataset.row;
    if (row !== undefined) point(Number(row));
  });
  at("scroll").addEventListener("keydown", (event) => {
    const step = { ArrowDown: 1, ArrowUp: -1 }[event.key];
    if (!step) return;
    event.preventDefault();
    const place = Math.min(state.rows.length - 1, Math.max(0, state.rows.indexOf(state.pointed) + step));
    at("scroll").scrollTop = place * HEIGHT - at("scroll").clientHeight / 2;
    point(state.rows[place]);
  });
  for (const kind of ["pointermove", "pointerdown"]) at("stage").addEventListener(kind, pointInImage);
  for (const card of document.querySelectorAll(".card")) {
    const toggle = () => choose(state.image === Number(card.dataset.image) ? -1 : Number(card.dataset.image));
    card.addEventListener("click", (event) => { if (!event.target.closest("a")) toggle(); });
    card.addEventListener("keydown", (event) => { if (event.key === "Enter" && event.target === card) toggle(); });
  }
  at("image").addEventListener("change", () => choose(Number(at("image").value)));
  at("column").addEventListener("change", fields);
  const range = () => {
    const [low, high] = ["low", "high"].map((id) => at(id).value.trim().replace(",", "."));
    filter(columns[at("column").value], low === "" || Number.isNaN(Number(low)) ? -Infinity : Number(low), high === "" || Number.isNaN(Number(high)) ? Infinity : Number(high));
  };
  for (const id of ["low", "high"]) at(id).addEventListener("change", range);
  at("all").addEventListener("change", () => { state.isAll = at("all").checked; update(); });
  at("by").addEventListener("change", () => { state.isByImage = at("by").checked; update(); });
}

at("column").append(...columns.map((column, k) => (column.isImage ? "" : element("option", { value: k, text: column.name }))).filter(Boolean));
at("column").value = Math.max(1, columns.findIndex((column) => column.isMeasure && !column.isHidden));
tell();
listen();
values(-1);
update();
if (images.length) show(Math.max(0, images.findIndex((image) => image.places)));
