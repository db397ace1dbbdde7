"use strict";
const run = JSON.parse(document.getElementById("run").textContent);
const view = document.getElementById("view");
const space = document.getElementById("space");
const drawing = document.getElementById("drawing");
const panel = document.getElementById("panel");
const HEADER = 44;
const LETTER = 6.7;
const SHOWN = 200;
let chosen = null; // {transaction, row}: a row only where a read is chosen
let cursor = 0;
let asked = false;

// Where the mark of a read or update stands, by its row; which updates an object has.
const markAt = new Map();
const updatesOf = new Map();
for (const [layer, shapes] of run.layers) {
  for (const shape of layer === "marks" ? shapes : []) {
    const row = shape[shape.length - 1], [letter, , x, y, width, height] = shape;
    if (row) markAt.set(row, letter === "R" ? [x + width / 2, y + height / 2] : [x, y]);
  }
}
run.transactions.forEach((transaction, owner) => {
  for (const [row, object, act] of transaction.updates) {
    if (!updatesOf.has(object)) updatesOf.set(object, []);
    updatesOf.get(object).push({ row, act, owner });
  }
});

const ENTITIES = { "&": "&amp;", "<": "&lt;", ">": "&gt;", '"': "&quot;" };
const escaped = text => String(text).replace(/[&<>"]/g, letter => ENTITIES[letter]);
const within = (one, other) => one.every((entry, site) => entry <= other[site]);
const vector = entries => entries ? `[${entries.join(",")}]` : "none";
const longest = run.rows.reduce((most, row) => Math.max(most, row[1].length), 0);
const cut = (text, most) => text.length <= most ? text : most ? text.slice(0, most - 1) + "…" : "";

/** How wide the texts at the left are: as they need where there is room; only numbers where there is little. */
function gutter() {
  const wide = view.clientWidth, needed = 70 + longest * LETTER;
  return wide < 640 ? 62 : Math.min(needed, Math.max(wide < 1000 ? 230 : 390, wide - run.width - 30));
}

/** Whether a transaction's snapshot sees another transaction. */
function sees(owner, other) {
  const commit = run.transactions[other].commit;
  return owner !== other && commit !== null && within(commit, run.transactions[owner].snapshot);
}

/** Why a read doesn't see an update, or the empty text where it does. */
function unseen(owner, row, update) {
  if (update.owner === owner) return update.row < row ? "" : "made later in this transaction";
  const { commit, status } = run.transactions[update.owner];
  if (status === "aborted") return "aborted";
  if (commit === null) return "not decided";
  const snapshot = run.transactions[owner].snapshot;
  const site = commit.findIndex((entry, at) => entry > snapshot[at]);
  return site < 0 ? "" : `entry ${site + 1}: ${commit[site]} is above ${snapshot[site]}`;
}

/** The read that is chosen, or undefined. */
function chosenRead() {
  return chosen && run.transactions[chosen.transaction].reads.find(read => read[0] === chosen.row);
}

/** What each transaction and each update's row is marked as. */
function marked() {
  const owners = new Map(), rows = new Map();
  if (!chosen) return { owners, rows };
  const read = chosenRead();
  if (read) {
    for (const update of updatesOf.get(read[1]) || []) {
      const isSeen = unseen(chosen.transaction, chosen.row, update) === "";
      rows.set(update.row, isSeen ? "yes" : "no");
      owners.set(update.owner, isSeen ? "seen" : "unseen");
    }
    rows.set(chosen.row, "own");
  } else {
    run.transactions.forEach((_, other) => { if (sees(chosen.transaction, other)) owners.set(other, "seen"); });
  }
  owners.set(chosen.transaction, "chosen");
  return { owners, rows };
}

/** A shape as an element, or the empty text where it is out of sight. */
function element(shape, sight, marks) {
  const [letter, name, a, b, c, d] = shape;
  const owner = shape[shape.length - 2], row = shape[shape.length - 1];
  if (isOut(shape, sight)) return "";
  const mark = marks.owners.get(owner);
  const dims = chosen && owner >= 0 && !mark ? "dim" : letter === "R" && name.startsWith("bar") && mark || "";
  const named = `class="${name} ${dims}"` + (owner >= 0 ? ` data-owner="${owner}" data-access="${row}"` : "");
  if (letter === "P") return `<path ${named} d="${c}"/>`;
  if (letter === "C") return `<circle ${named} cx="${a}" cy="${b}" r="${c}"/>`;
  if (letter === "T") return `<text ${named} x="${a}" y="${b}">${escaped(c)}</text>`;
  const top = Math.max(b, sight.top), bottom = Math.min(letter === "L" ? d : b + d, sight.bottom);
  if (letter === "R") return `<rect ${named} x="${a}" y="${top}" width="${c}" height="${bottom - top}" rx="3"/>`;
  return b === d ? `<line ${named} x1="${a}" y1="${b}" x2="${c}" y2="${d}"/>`
    : `<line ${named} x1="${a}" y1="${top}" x2="${c}" y2="${bottom}"/>`;
}

/** Whether nothing of a shape is in sight. */
function isOut([letter, , a, b, c, d], sight) {
  if (letter === "P") return a > sight.bottom || b < sight.top;
  const bottom = letter === "L" ? d : letter === "R" ? b + d : b;
  if (b > sight.bottom || bottom < sight.top) return true;
  const right = letter === "L" ? Math.max(a, c) : letter === "R" ? a + c : a + 160;
  return Math.min(a, letter === "L" ? c : a) - 160 > sight.right || right < sight.left;
}

/** Draws what is in sight, and nothing else. */
function draw() {
  asked = false;
  const wide = view.clientWidth, high = view.clientHeight, side = gutter();
  space.style.width = `${side + run.width + 24}px`;
  space.style.height = `${HEADER + run.height}px`;
  const left = view.scrollLeft, top = view.scrollTop;
  const sight = { top: top - 30, bottom: top + high + 30, left: left - 20, right: left + wide - side + 20 };
  const marks = marked();
  const shapes = run.layers.map(([, layer]) => layer.map(shape => element(shape, sight, marks)).join("")).join("");
  drawing.setAttribute("width", wide);
  drawing.setAttribute("height", high);
  const picture = band(wide + left) + shapes + rings(marks);
  drawing.innerHTML = `<g transform="translate(${side - left} ${HEADER - top})">${picture}</g>`
    + gutterRows(side, top, high, marks) + heads(side, left, wide);
}

/** The row where the cursor stands. */
function band(wide) {
  return cursor ? `<rect class="band" x="-2" y="${(cursor - 1) * run.row}" width="${wide}" height="${run.row}"/>` : "";
}

/** Rings around the updates that a chosen read sees, and around those that it doesn't. */
function rings({ rows }) {
  const shown = [...rows].filter(([row]) => markAt.has(row));
  return shown.map(([row, name]) => {
    const [x, y] = markAt.get(row);
    return `<circle class="ring ${name}" data-row="${row}" cx="${x}" cy="${y}" r="10"/>`;
  }).join("");
}

/** The texts at the left: script lines, replies, and signs of what is marked. */
function gutterRows(side, top, high, marks) {
  const first = Math.max(0, Math.floor(top / run.row)), last = Math.min(run.rows.length, first + high / run.row + 1);
  const most = side < 100 ? 0 : Math.floor((side - 62) / LETTER);
  let text = `<rect class="paper" x="0" y="0" width="${side}" height="${high}"/>`;
  for (let at = first; at < last; at += 1) {
    const [line, shown, command, tone, owner] = run.rows[at];
    const y = HEADER + (at + 0.5) * run.row - top + 4;
    const dim = chosen && owner >= 0 && !marks.owners.has(owner) ? "dim" : "";
    const whole = escaped(`${command}\n${shown}`), colour = owner < 0 ? "" : run.transactions[owner].colour;
    text += `<g class="${dim}" data-at="${at + 1}">${sign(at + 1, owner, marks, y)}`
      + (line ? `<text class="line" x="50" y="${y}">${line}</text>` : "")
      + `<text class="reply ${tone}" x="56" y="${y}">${escaped(cut(shown, most))}<title>${whole}</title></text>`
      + (owner < 0 ? "" : `<rect class="bar s${colour}" x="0" y="${y - 16}" width="4" height="${run.row}"/>`) + "</g>";
  }
  return text + `<line class="rule" x1="${side}" y1="0" x2="${side}" y2="${high}"/>`;
}

/** The sign before a row: of its update where a read is chosen, else of its transaction. */
function sign(row, owner, { owners, rows }, y) {
  const mark = rows.get(row) || (rows.size ? undefined : { seen: "yes", chosen: "own" }[owners.get(owner)]);
  const shown = { yes: "✓", no: "✗", own: "●" }[mark];
  return shown ? `<text class="sign ${mark}" x="7" y="${y}">${shown}</text>` : "";
}

/** The names of sites and partitions, above the lanes. */
function heads(side, left, wide) {
  let text = `<rect class="paper" x="0" y="0" width="${wide}" height="${HEADER}"/>`
    + `<g transform="translate(${side - left} 0)">`;
  const sites = new Map();
  for (const [name, from, line, to] of run.lanes) {
    const site = name.split(".")[0];
    sites.set(site, [(sites.get(site) || [from])[0], to]);
    text += `<text class="head" x="${line}" y="37">${name}</text>`;
  }
  for (const [site, [from, to]] of sites) {
    text += `<text x="${from + 4}" y="15">site ${site}</text>`
      + `<line class="rule" x1="${from + 4}" y1="21" x2="${to}" y2="21"/>`;
  }
  const label = `<text x="56" y="37">${side < 100 ? "" : "reply"}</text>`
    + '<text class="line" x="50" y="37">line</text>';
  return text + `</g><rect class="paper" x="0" y="0" width="${side}" height="${HEADER}"/>${label}`
    + `<line class="rule" x1="0" y1="${HEADER}" x2="${wide}" y2="${HEADER}"/>`;
}

/** Chooses what stands in a row: its read, or else its transaction. */
function choose(owner, row) {
  chosen = owner < 0 ? null : { transaction: owner, row: 0 };
  if (chosen && run.transactions[owner].reads.some(read => read[0] === row)) chosen.row = row;
  cursor = row;
  tell();
  draw();
}

/** An element of the panel, with a text or with others inside. */
function made(name, inside = [], kind = "") {
  const one = document.createElement(name);
  one.append(...[inside].flat());
  if (kind) one.className = kind;
  return one;
}

/** A button that chooses. */
function button(text, owner, row) {
  const one = made("button", text);
  one.type = "button";
  one.dataset.id = run.transactions[owner].id;
  one.addEventListener("click", () => { choose(owner, row); bring(row); });
  return one;
}

/** A list with a title; a long one is cut. */
function list(title, entries) {
  const shown = entries.slice(0, SHOWN);
  if (entries.length > SHOWN) shown.push(made("li", `and ${entries.length - SHOWN} more`));
  return [made("h3", title), made("ul", shown)];
}

/** Tells in the panel what is chosen. */
function tell() {
  const read = chosenRead(), here = run.rows[cursor - 1];
  if (!chosen) hint();
  else panel.replaceChildren(...read ? ofRead(chosen.transaction, read) : ofTransaction(chosen.transaction));
  if (!here) return;
  panel.prepend(made("p", `reply ${cursor}: ${here[1]}`, "row"));
  const line = run.rows.slice(0, cursor).reduce((last, row) => row[0] || last, 0);
  const heading = run.headings.filter(([at]) => at <= line).pop();
  if (heading) panel.prepend(made("p", heading[1], "heading"));
}

/** A transaction: its vectors, reads, values, updates, and what it sees. */
function ofTransaction(owner) {
  const one = run.transactions[owner];
  const reads = one.reads.map(([row, object, value]) => made("li", button(`${object} → ${value}`, owner, row)));
  const updates = one.updates.map(([, object, act]) => made("li", `${object} ${act}`));
  const seen = run.transactions.map((_, other) => other).filter(other => sees(owner, other));
  const entries = seen.map(other => {
    const { id, session, began, commit } = run.transactions[other];
    return made("li", [button(`${session} ${id}`, other, began), ` ${vector(commit)}`], "yes");
  });
  return [
    made("h2", `Transaction ${one.id} of ${one.session}`), made("p", one.status),
    made("p", `snapshot ${vector(one.snapshot)}`), made("p", `commit vector ${vector(one.commit)}`),
    ...list(`Reads (${reads.length})`, reads), ...list(`Updates (${updates.length})`, updates),
    ...list(`Sees ${seen.length} of ${run.transactions.length - 1} other transactions`, entries),
  ];
}

/** A read: its value, the updates of the object that it sees, and those that it doesn't. */
function ofRead(owner, [row, object, value]) {
  const one = run.transactions[owner];
  const entries = (updatesOf.get(object) || []).map(update => {
    const { id, session, commit } = run.transactions[update.owner];
    const why = unseen(owner, row, update);
    const told = ` ${update.act} ${commit ? vector(commit) : ""} ${why}`;
    const shown = [button(`${session} ${id}`, update.owner, update.row), told];
    return { seen: why === "", entry: made("li", shown, why === "" ? "yes" : "no") };
  });
  const [seen, others] = [true, false].map(is => entries.filter(entry => entry.seen === is).map(entry => entry.entry));
  return [
    made("h2", `${one.session} reads ${object}`), made("p", value),
    made("p", button(`in ${one.id}`, owner, one.began)),
    made("p", `snapshot ${vector(one.snapshot)}`), ...list(`Updates of it that it sees (${seen.length})`, seen),
    ...list(`Updates of it that it doesn't see (${others.length})`, others),
  ];
}

/** What the panel tells while nothing is chosen. */
function hint() {
  panel.replaceChildren(document.getElementById("hint").content.cloneNode(true));
  const samples = [
    ['<rect class="bar s0" x="8" y="1" width="8" height="16" rx="3"/>',
      "a transaction, in its session's colour; pale while it isn't committed"],
    ['<rect class="mark read s0" x="8" y="5" width="9" height="9"/>', "read"],
    ['<rect class="mark update s0" x="8" y="5" width="9" height="9"/>', "update"],
    ['<circle class="mark vote s0" cx="12" cy="9" r="5"/>', "prepared, or still pending"],
    ['<circle class="mark decide s0" cx="12" cy="9" r="6"/>', "decided; smaller: finished elsewhere"],
    ['<path class="mark cross s0" d="M12 9m-5 -5l10 10m0 -10l-10 10"/>', "aborted"],
    ['<rect class="mark wait" x="6" y="3" width="12" height="12"/>', "wait, joined to what ends it or is in its way"],
    ['<rect class="mark refused" x="6" y="3" width="12" height="12"/>', "refusal"],
    ['<line class="message" x1="1" y1="9" x2="23" y2="9"/>', "message; broken: repeated, after a gap, or lost"],
    ['<line class="report" x1="1" y1="9" x2="23" y2="9"/>', "report"],
    ['<path class="mark crash nobody" d="M12 9m-6 -6l12 12m0 -12l-12 12"/>', "crash, failed disk, lost message"],
    ['<path class="mark fuse nobody" d="M12 9m2 -8l-6 9h7l-4 8"/>', "fuse of a disk"],
    ['<path class="mark restart" d="M12 9m-6 5h12l-6 -11z"/>', "restart; the red band before it: down"],
  ];
  document.getElementById("legend").innerHTML = samples.map(([shape, text]) =>
    `<tr><td><svg width="24" height="18">${shape}</svg></td><td>${text}</td></tr>`).join("");
}

/** Scrolls to a row that is out of sight, and to the lane where it stands. */
function bring(row) {
  const x = run.rows[row - 1][6], wide = view.clientWidth - gutter() - 100;
  if (x && (x < view.scrollLeft || x > view.scrollLeft + wide)) view.scrollLeft = Math.max(0, x - wide / 2);
  const y = (row - 1) * run.row, high = view.clientHeight - HEADER - run.row;
  if (y < view.scrollTop || y > view.scrollTop + high) view.scrollTop = Math.max(0, y - high / 2);
}

/** Goes to the next row that has a transaction. */
function go(step, from) {
  let row = from + step;
  while (run.rows[row - 1] && run.rows[row - 1][4] < 0) row += step;
  if (!run.rows[row - 1]) return;
  choose(run.rows[row - 1][4], row);
  bring(row);
}

/** Goes to a row, whatever stands there. */
function goTo(row) {
  const here = run.rows[row - 1];
  if (!here) return;
  choose(here[4], row);
  bring(row);
}

/** Goes to the next row whose command or reply holds a text, from the first one again behind the last. */
function find(text) {
  const sought = text.toLowerCase();
  for (let step = 1; sought && step <= run.rows.length; step += 1) {
    const at = (cursor - 1 + step + run.rows.length) % run.rows.length;
    if (`${run.rows[at][1]}\n${run.rows[at][2]}`.toLowerCase().includes(sought)) return goTo(at + 1);
  }
}

/** Goes to the script's line that the page's address names. */
function follow() {
  const line = Number(location.hash.slice(1));
  if (line) goTo(run.rows.findIndex(row => row[0] === line) + 1);
}

/** Chooses what was hit: a bar is its transaction, another mark stands for its row. */
function chooseHit(owner, hit, row) {
  const isBar = hit.classList.contains("bar"), isHere = run.rows[row - 1] && run.rows[row - 1][4] === owner;
  choose(owner, isBar ? run.transactions[owner].began : Number(hit.dataset.access) || (isHere ? row : 0));
}

view.addEventListener("keydown", event => {
  const moves = { ArrowDown: [1, cursor], ArrowUp: [-1, cursor], Home: [1, 0], End: [-1, run.rows.length + 1] };
  if (event.key === "Escape") choose(-1, 0);
  else if (event.key in moves) go(...moves[event.key]);
  else if (event.key === "j" || event.key === "k") goTo(cursor + (event.key === "j" ? 1 : -1));
  else if (event.key === "/") document.getElementById("text").focus();
  else return;
  event.preventDefault();
});
drawing.addEventListener("click", event => {
  const down = event.clientY - view.getBoundingClientRect().top - HEADER;
  const hit = event.target.closest("[data-owner]");
  const row = Math.floor((down + view.scrollTop) / run.row) + 1, here = run.rows[row - 1];
  if (down < 0) return;
  if (!hit) choose(here ? here[4] : -1, here ? row : 0);
  else chooseHit(Number(hit.dataset.owner), hit, row);
});
function later() {
  if (!asked) requestAnimationFrame(draw);
  asked = true;
}
document.getElementById("find").addEventListener("submit", event => {
  event.preventDefault();
  find(document.getElementById("text").value);
});
window.addEventListener("hashchange", follow);
view.addEventListener("scroll", later);
window.addEventListener("resize", later);
new ResizeObserver(later).observe(view);
tell();
draw();
follow();
