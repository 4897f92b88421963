// What is in the table, and the start.

// What a sheet of paper doesn't show by itself: when it was printed, and from where.
function sayPrinted() {
  const now = new Date().toLocaleString("en-GB", {dateStyle: "long", timeStyle: "short"});
  byId("printed").textContent = `Printed on ${now} from ${location.href}`;
}

// What the door is doing, from each chosen table.
async function showState() {
  sayPrinted();
  const said = [], bad = [];
  let kept = 0, room = 0;
  for (const table of chosen) {
    const front = chosen.length > 1 ? table.name + ": " : "";
    try {
      const health = await (await fetchFrom(table.base + "health")).json();
      kept += health.records;
      room += health.room;
      if (health.state !== "serving") bad.push(front + health.state);
    } catch (fault) {
      bad.push(front + fault.message);
    }
  }
  said.push(...bad.length ? bad : [`answering · answers given: ${showCount(kept)}, room for ${showCount(room)}`]);
  byId("state").className = bad.length ? "soft off" : "soft";
  byId("state").textContent = said.join("; ");
}

function fillKinds() {
  const can = Object.keys(KINDS).filter(kind => kind === "count" || secrets().some(column => ASKS[column.is].includes(kind)));
  byId("kinds").replaceChildren(...can.map(kind => {
    const label = element("label"), radio = element("input", "", {type: "radio", name: "kind", value: kind});
    radio.checked = kind === (can.includes("sum") ? "sum" : can.at(-1));
    radio.onchange = fillColumns;
    label.append(radio, kindWords(kind));
    return label;
  }));
  fillColumns();
}

function fillColumns() {
  const kind = document.querySelector("#kinds input:checked").value, before = byId("column").value;
  const fitting = secrets().filter(column => ASKS[column.is].includes(kind));
  byId("column").replaceChildren(...fitting.map(column => option(titleOf(column.name), column.name)));
  if (fitting.some(column => column.name === before)) byId("column").value = before;
  byId("of").hidden = kind === "count";
}

function fillChart() {
  const choice = (kind, name) => option(`${kindWords(kind)} of ${titleOf(name)}`, `${kind} ${name}`);
  const choices = secrets().flatMap(column => ASKS[column.is].map(kind => choice(kind, column.name)));
  byId("chart-kind").replaceChildren(...choices, option(kindWords("count"), "count"));
  byId("by").replaceChildren(...publics().map(column => option(titleOf(column.name), column.name)));
  fillSecond();
}

// The other columns, of which one makes a table of the groups.
function fillSecond() {
  const others = publics().filter(column => column.name !== byId("by").value), before = byId("by-too").value;
  byId("by-too").replaceChildren(option("nothing else", ""), ...others.map(column => option(titleOf(column.name), column.name)));
  if (others.some(column => column.name === before)) byId("by-too").value = before;
}

// The conditions of the totals of a column that schema.json protects, of all chosen tables.
function protectedOf(name) {
  return [...new Set(chosen.flatMap(table => table.protect).filter(total => total.column === name).map(total => total.where))];
}

function totalsOf(name) {
  const wheres = protectedOf(name), more = wheres.length - MOST_TOTALS;
  if (!wheres.length) return "totals and averages";
  return "totals and averages. Protected: the total where " + wheres.slice(0, MOST_TOTALS).join("; where ") +
    (more > 0 ? `; and ${more} more in schema.json` : "");
}

function holdsOf(column) {
  if (column.is === "sum") return totalsOf(column.name);
  if (column.is === "max") return "the greatest number";
  if (column.is === "min") return "the least number";
  if (column.is === "count") return "how many people each row stands for";
  if (column.is === "number") {
    const numbers = numbersOf(column.name);
    return `${showValue(numbers[0], column.name)} to ${showValue(numbers.at(-1), column.name)}`;
  }
  const values = textsOf(column.name).map(([value]) => value || "(empty)");
  return `${showCount(values.length)} values: ${values.slice(0, 6).join(" · ")}${values.length > 6 ? " · …" : ""}`;
}

function listColumns() {
  byId("columns").replaceChildren(...chosen[0].columns.map(column => {
    const secret = secrets().includes(column), name = element("th", titleOf(column.name), {scope: "row"}), tag = element("td");
    if (titleOf(column.name) !== column.name) name.append(" ", element("code", column.name, {class: "soft"}));
    tag.append(element("span", secret ? "secret" : "public", {class: secret ? "tag secret" : "tag"}));
    const steps = placesOf(column.name) && !secret ? `; 1 in a condition is ${showValue(1, column.name)}` : "";
    const line = element("tr");
    line.append(name, tag, element("td", holdsOf(column) + steps, {class: "soft"}));
    return line;
  }));
}

// Over which rows questions are, if not over all, who asks, and the limits that schema.json states, in words.
function showLimits() {
  const wheres = [...new Set(chosen.map(table => table.only || "all"))];
  const each = wheres.length > 1 ? chosen.map(table => `${table.only || "all"} (${table.name})`) : wheres;
  const rows = isWhole() ? "" : sentence("limits", "only").replace("CONDITION", () => each.join("; where "));
  const inside = chosen.some(table => table.limits.askers === "inside") ? sentence("limits", "inside") : "";
  const said = ["width", "reach", "fewest"].map(key => {
    const numbers = [...new Set(chosen.map(table => table.limits[key]).filter(Number.isInteger))];
    return numbers.length ? sentence("limits", key).replace("NUMBER", numbers.map(showLimit).join(" or ")) : "";
  });
  byId("limits").textContent = [rows, inside, ...said].filter(words => words).join(" ");
}

// Beyond the numbers that JavaScript keeps exactly it isn't told exactly.
function showLimit(number) {
  return Number.isSafeInteger(number) ? showCount(number) : `more than ${showCount(Number.MAX_SAFE_INTEGER)}`;
}

function file(table, name) {
  return element("a", table.base + name, {href: table.base + name, download: ""});
}

function listFiles() {
  byId("files").replaceChildren(...chosen.map(table => {
    const list = element("ul", "", {class: "files"}), lines = [element("li"), element("li"), element("li")];
    lines[0].append(file(table, "transcript.jsonl"), ": every question on a secret column, of everybody, with its reply");
    lines[1].append(file(table, "schema.json"), " and ", file(table, "table.csv"),
      ": the columns, and the public ones of each row. With the three files in a folder, ", element("code", "auditor simulate < transcript.jsonl"),
      " works out again each decision");
    lines[2].append(file(table, "report.jsonl"), ": for each secret number, why the answers leave it open");
    list.append(...lines);
    return list;
  }));
}

// Shows the table that was chosen, or all of them as parts of one.
function choose() {
  chosen = byId("table").value ? tables.filter(table => table.name === byId("table").value) : tables;
  const title = chosen[0].notes.title;
  byId("title").textContent = document.title = typeof title === "string" && title ? title : "Ask the table";
  const behind = isOfPeople() ? ` in ${showCount(chosen.reduce((sum, table) => sum + table.rows.length, 0))} rows` : "";
  byId("size").textContent = `${showCount(rowsInAll())} ${rowsWord()}${behind}, ${publics().length} public and ${secrets().length} secret columns`;
  byId("free").replaceChildren();
  rowsAsked = null;
  for (const fill of [fillKinds, fillChart, listColumns, showLimits, listFiles, showState]) fill();
  writeCondition("all");
}

// Offers the tables behind the door; all of them together if their columns are the same.
function offerTables() {
  const same = tables.every(table => JSON.stringify(table.columns) === JSON.stringify(tables[0].columns));
  const choices = tables.map(table => option(table.name, table.name));
  if (same || tables.length === 1) choices.unshift(option("all of them together", ""));
  byId("table").replaceChildren(...choices);
  byId("table-choice").hidden = byId("parts-note").hidden = tables.length === 1;
  byId("parts-note").textContent = sentence("note", "parts");
}

async function start() {
  const said = await fetchFrom("words.json");
  if (said.ok) words = await said.json();
  const list = await fetchFrom("tables.json"), names = list.ok ? await list.json() : [];
  tables = names.length ? names.map(name => new Table(name)) : [new Table("")];
  for (const table of tables) await table.load();
  offerTables();
  readHistory();
  choose();
  listHistory();
  await openAddress();
  setInterval(() => { if (!document.hidden) showState(); }, 15000);
}

byId("add").onclick = () => {
  const part = new Part();
  byId("parts").append(part.line);
  part.column.focus();
  compose();
};
byId("everyone").onclick = () => writeCondition("all");
byId("join").onchange = compose;
byId("where").oninput = () => {
  written = byId("where").value;
  byId("parts").replaceChildren();
  setAddress(question());
  countSoon();
};
byId("where").onkeydown = event => { if (event.key === "Enter" && (event.ctrlKey || event.metaKey)) waitFor(askNow); };
byId("ask").onclick = () => waitFor(askNow);
byId("would").onclick = () => waitFor(wouldNow);
byId("by").onchange = () => { fillSecond(); sayGroups(); };
byId("by-too").onchange = sayGroups;
byId("draw").onclick = draw;
byId("report").onclick = () => showReport().catch(fault => { byId("free-summary").textContent = fault.message; });
byId("forget").onclick = forget;
byId("more").onclick = showAll;
window.onhashchange = openAddress;
window.onbeforeprint = sayPrinted;
byId("table").onchange = choose;
start().catch(fault => {
  byId("state").className = "soft off";
  byId("state").textContent = fault.message;
});
