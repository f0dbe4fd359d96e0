"use strict";
// Shows an image. Whatever comes of it goes to the page as text (textContent), never as HTML.

const MOST_BYTES = 256 * 1024 * 1024;
const MOST_SHOWN = 65536;
const MOST_FOUND = 100;
const MORE_ROWS = 1000;
const KINDS = ["lookup", "free", "deleted", "header", "further index", "data", "neither"];
const [LOOKUP, FREE, DELETED, HEADER, INDEX, DATA, NEITHER] = KINDS.keys();
const PLAIN_COLOURS = { [LOOKUP]: "#8a8a8a", [FREE]: "#ffffff", [DELETED]: "#dadada", [NEITHER]: "#202020" };
const LIGHTNESS = { [HEADER]: 35, [INDEX]: 48, [DATA]: 68 };
const COLUMNS = 64;
const NUMBERS = ["page", "block", "blocks", "meta", "magic"];

const el = id => document.getElementById(id);
const module = WebAssembly.compile(Uint8Array.from(atob(el("wasm").textContent.trim()), letter => letter.charCodeAt(0)));
const workerUrl = URL.createObjectURL(new Blob([el("worker").textContent], { type: "text/javascript" }));

/** A worker that has an image. Once it is ended no answer comes any more. */
class Session {
  constructor() {
    this.worker = new Worker(workerUrl);
    this.waiting = new Map();
    this.asked = 0;
    this.worker.onmessage = ({ data }) => this.answered(data);
    this.worker.onerror = event => this.broken(event.message);
  }

  ask(what, asked = {}, moved = []) {
    const number = this.asked++;
    this.worker.postMessage({ number, what, asked }, moved);
    el("stop").hidden = false;
    return new Promise(done => this.waiting.set(number, done));
  }

  answered({ number, told, why }) {
    if (why !== undefined) return this.broken(why);
    const done = this.waiting.get(number);
    this.waiting.delete(number);
    el("stop").hidden = this.waiting.size === 0;
    done(told);
  }

  broken(why) {
    if (this === open.session) close(`This image can't be read here: ${why}`);
  }

  end() {
    this.worker.terminate();
    this.waiting.clear();
    el("stop").hidden = true;
  }
}

/** What is open: the session, the file's name and size, what was found, and what is shown. */
let open = {};
let turn = 0;

/** Lets go of what is open. */
function close(why) {
  open.session?.end();
  open = {};
  el("opened").hidden = true;
  el("state").textContent = why;
}

async function take(file) {
  const mine = ++turn;
  close("reading ..");
  if (file.size > MOST_BYTES) return close(`${file.name} has more than ${MOST_BYTES} bytes`);
  let image;
  try {
    image = await file.arrayBuffer();
  } catch (why) {
    image = `${file.name} can't be read: ${why}`;
  }
  const compiled = await module;
  if (mine !== turn) return;
  if (typeof image === "string") return close(image);
  open = { session: new Session(), name: file.name, size: image.byteLength, found: [] };
  const { session } = open;
  el("state").textContent = `${open.name}, ${open.size} bytes: looking for volumes ..`;
  await session.ask("open", { module: compiled, image }, [image]);
  const { lines } = await session.ask("detect");
  el("opened").hidden = false;
  showFound(lines);
  await show();
}

/** The numbers of a line of `detect`; of several numbers of meta bytes the first. None of another line. */
function candidate(line) {
  const told = line.match(/^at (\d+) page (\d+) block (\d+) blocks (\d+) meta (\d+)(?:-(\d+))? magic (\w+) files (\d+) damaged \d+(?: spoiled \d+)?(?: doubled \d+)?$/);
  if (!told) return null;
  const [, at, page, block, blocks, meta, last, magic, files] = told;
  return { at, page, block, blocks, meta, last: last ?? meta, magic, files: Number(files) };
}

function showFound(lines) {
  open.found = lines.map(candidate).filter(found => found);
  const items = lines.slice(0, MOST_FOUND).map(line => {
    const found = candidate(line);
    const item = printed(line);
    if (found) item.append(" ", button("take", () => { fill(found); show(); }));
    return item;
  });
  if (lines.length > MOST_FOUND) items.push(printed(`and ${lines.length - MOST_FOUND} more`));
  el("found").replaceChildren(...items);
  fill(open.found[0] ?? { at: 0, page: 256, block: 4096, blocks: Math.floor(open.size / 4096), meta: 0, magic: "len" });
}

/** An item of a list that has a line of what was printed. */
function printed(line) {
  const item = document.createElement("li");
  item.textContent = line;
  return item;
}

function fill(found) {
  for (const name of ["at", ...NUMBERS]) el(name).value = found[name];
}

function button(text, does) {
  const it = document.createElement("button");
  it.type = "button";
  it.textContent = text;
  it.onclick = does;
  return it;
}

/** The numbers as they stand in the fields, and where the volume begins. */
function asked() {
  const at = /^\d{1,9}$/.test(el("at").value) ? Number(el("at").value) : NaN;
  return { numbers: [...NUMBERS.map(name => el(name).value), "image"], at };
}

/** Reads the volume by the numbers in the fields, and forgets what was checked by others. */
async function show() {
  open.asked = asked();
  Object.assign(el("on-copy"), { checked: false, disabled: true });
  el("save-copy").disabled = true;
  for (const name of ["report", "changes"]) el(name).textContent = "";
  await showVolume();
}

/** Shows the volume of the image, or of the checked copy, by the numbers that were read. */
async function showVolume() {
  const what = { ...open.asked, onCopy: el("on-copy").checked };
  el("view").hidden = true;
  el("state").textContent = `${open.name}, ${open.size} bytes`;
  if (!(what.at <= open.size)) return showNothing("the first byte isn't a number of a byte of this file");
  const { session } = open;
  const { status, lines } = await session.ask("list", what);
  const told = parsed(lines);
  open.shown = { onCopy: what.onCopy, files: told.files };
  showFiles(told);
  el("summary").textContent = `files ${told.files.length}, damaged ids ${told.damaged.length}, status ${status}`;
  const isVolume = status === 0 || status === 12;
  if (!what.onCopy) {
    el("check").disabled = !isVolume;
    open.damaged = told.damaged.length;
  }
  el("warning").textContent = isVolume ? warning(what, told) : "";
  const pages = isVolume ? await session.ask("picture", what) : { status: 7, bytes: [] };
  showPicture(what, pages.status === 0 ? pages.bytes : []);
}

function showNothing(why) {
  showFiles({ files: [], damaged: [], closing: why });
  el("summary").textContent = el("warning").textContent = "";
  el("check").disabled = true;
  showPicture(open.asked, []);
}

/** The lines of `list`, parted. */
function parsed(lines) {
  const closing = lines.filter(line => line.startsWith("!")).join("\n");
  const damaged = lines.filter(line => line.startsWith("damaged "));
  const files = lines.filter(line => /^\d/.test(line)).map(line => {
    const [id, type, bytes, name] = line.split(" ");
    return { id, type, bytes, name: name ?? "" };
  });
  return { files, damaged, closing };
}

function showFiles({ files, damaged, closing }) {
  el("closing").textContent = closing;
  el("files").replaceChildren();
  showMore(files);
  el("damaged").replaceChildren(...damaged.map(printed));
}

/** Shows the next rows of the files, and offers to show more. */
function showMore(files) {
  const next = files.slice(0, MORE_ROWS);
  const left = files.slice(MORE_ROWS);
  el("files").append(...next.map(rowOf));
  Object.assign(el("more"), { hidden: left.length === 0, textContent: `show more, of ${left.length}`, onclick: () => showMore(left) });
}

function rowOf(file) {
  const row = document.createElement("tr");
  for (const part of ["id", "type", "bytes", "name"]) {
    const cell = row.insertCell();
    cell.className = part === "name" ? "name" : "number";
    cell.textContent = file[part];
  }
  row.insertCell().append(button("open", () => view(file)), " ", button("save", () => saveFile(file)));
  return row;
}

/** What to know before a check, if files are damaged by these numbers. */
function warning(what, { files, damaged }) {
  if (damaged.length === 0 || what.onCopy) return "";
  const [page, block, blocks, meta, magic] = what.numbers;
  const other = open.found.find(it => it.at === `${what.at}` && it.page === page && it.block === block && it.blocks === blocks &&
    it.magic === magic && it.files > files.length);
  const better = other ? ` With META ${other.meta} ${other.files} files are whole, with META ${meta} ${files.length}.` : "";
  return `The check removes what is damaged. If META is wrong, whole files look damaged.${better}`;
}

async function bytesOf(file) {
  const { status, bytes } = await open.session.ask("read", { ...open.asked, onCopy: open.shown.onCopy, id: Number(file.id) });
  if (status === 0) return bytes;
  el("state").textContent = `the file ${file.name} can't be read, status ${status}`;
  return null;
}

async function view(file) {
  const bytes = await bytesOf(file);
  if (!bytes) return;
  el("view-name").textContent = `${file.name}, ${bytes.length} bytes` + (bytes.length > MOST_SHOWN ? `, of which the first ${MOST_SHOWN}` : "");
  el("view-bytes").textContent = asText(bytes.subarray(0, MOST_SHOWN));
  el("view").hidden = false;
}

/** Bytes as text where they are some, else in hexadecimal digits, sixteen in a line. */
function asText(bytes) {
  try {
    const text = new TextDecoder("utf-8", { fatal: true, ignoreBOM: true }).decode(bytes);
    if (!/[^\P{C}\n\r\t]/u.test(text)) return text;
  } catch {
    // (no UTF-8)
  }
  const digits = Array.from(bytes, byte => byte.toString(16).padStart(2, "0"));
  const lines = [];
  for (let i = 0; i < digits.length; i += 16) lines.push(`${i.toString(16).padStart(6, "0")}  ${digits.slice(i, i + 16).join(" ")}`);
  return lines.join("\n");
}

/** The name of a file at the host, as `extract` writes it. */
const hostName = printed => printed.replace(/\//g, "%2F").replace(/^\./, "%2E");

async function saveFile(file) {
  const bytes = await bytesOf(file);
  if (bytes) save(bytes, hostName(file.name));
}

function save(bytes, name) {
  const link = document.createElement("a");
  link.href = URL.createObjectURL(new Blob([bytes], { type: "application/octet-stream" }));
  link.download = name;
  link.click();
  setTimeout(() => URL.revokeObjectURL(link.href), 10000);
}

function colourOf(kind, id) {
  return PLAIN_COLOURS[kind] ?? `hsl(${Math.round(id * 137.508) % 360} 65% ${LIGHTNESS[kind]}%)`;
}

/** Where each page is drawn: a block begins a row, and a row has at most 64 pages. */
function layout(perBlock, count) {
  const columns = Math.min(perBlock, COLUMNS);
  const rows = Math.ceil(perBlock / columns);
  const height = rows * Math.ceil(count / perBlock);
  const side = Math.max(2, Math.min(12, Math.floor(16000 / height)));
  const place = p => [p % perBlock % columns * side, (Math.floor(p / perBlock) * rows + Math.floor(p % perBlock / columns)) * side];
  const pageAt = (x, y) => {
    const [column, row] = [Math.floor(x / side), Math.floor(y / side)];
    const inside = row % rows * columns + column;
    return column < columns && inside < perBlock ? Math.floor(row / rows) * perBlock + inside : NaN;
  };
  return { width: columns * side, height: height * side, side, place, pageAt };
}

function showPicture({ numbers: [page, block] }, bytes) {
  const count = bytes.length / 4;
  const perBlock = Number(block) / Number(page);
  const canvas = el("picture");
  const counts = KINDS.map(() => 0);
  open.pages = null;
  Object.assign(canvas, { width: 1, height: 1 });
  if (count > 0) {
    const at = layout(perBlock, count);
    open.pages = { ...at, bytes, count, perBlock };
    Object.assign(canvas, { width: at.width, height: at.height });
    const pen = canvas.getContext("2d");
    for (let p = 0; p < count; p++) {
      const kind = bytes[4 * p];
      counts[kind]++;
      pen.fillStyle = colourOf(kind, idOf(p));
      pen.fillRect(...at.place(p), at.side - 1, at.side - 1);
    }
  }
  showKey(counts);
}

const idOf = p => open.pages.bytes[4 * p + 2] + 256 * open.pages.bytes[4 * p + 3];

function showKey(counts) {
  el("pointed").textContent = "\u00a0";
  el("key").replaceChildren(...KINDS.map((name, kind) => {
    const item = document.createElement("li");
    const colour = document.createElement("span");
    colour.style.background = colourOf(kind, 1);
    item.append(colour, `${name} ${counts[kind]}`);
    return item;
  }));
}

/** Tells of a page what it is. */
function told(p) {
  const kind = open.pages.bytes[4 * p];
  const id = idOf(p);
  const file = open.shown.files.find(file => file.id === `${id}`);
  const whose = id === 0 ? "" : file ? ` of the file ${id} ${file.name}` : ` of the id ${id}`;
  return `page ${p}, block ${Math.floor(p / open.pages.perBlock)}: ${KINDS[kind]}${whose}`;
}

function point(event) {
  if (!open.pages) return;
  const canvas = el("picture");
  const scale = canvas.width / canvas.clientWidth;
  const p = open.pages.pageAt(event.offsetX * scale, event.offsetY * scale);
  el("pointed").textContent = p < open.pages.count ? told(p) : "\u00a0";
}

async function check() {
  const { numbers, at } = open.asked;
  const [, block, blocks] = numbers.map(Number);
  const { status, lines, changed } = await open.session.ask("check", { numbers, at, least: at + block * blocks, block });
  el("report").textContent = [...lines, `status ${status}`].join("\n");
  el("changes").textContent = `Blocks of the copy that differ from the image: ${changed}. Damaged ids of the image: ${open.damaged}.`;
  Object.assign(el("on-copy"), { disabled: false, checked: true });
  el("save-copy").disabled = false;
  await showVolume();
}

el("file").onchange = () => el("file").files[0] && take(el("file").files[0]);
// (the same file may be chosen once more)
el("file").onclick = () => { el("file").value = ""; };
el("stop").onclick = () => close("Stopped. Open the file once more to go on.");
el("numbers").onsubmit = event => { event.preventDefault(); show(); };
el("on-copy").onchange = showVolume;
el("check").onclick = check;
el("save-copy").onclick = async () => save(await open.session.ask("copied"), `checked-${open.name}`);
el("picture").onmousemove = point;
document.ondragover = event => { event.preventDefault(); el("drop").className = "over"; };
document.ondragleave = () => { el("drop").className = ""; };
document.ondrop = event => {
  event.preventDefault();
  el("drop").className = "";
  const [file] = event.dataTransfer.files;
  if (file) take(file);
};
