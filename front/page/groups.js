// Groups: bars of one column, a table of two.

// The groups of a public column, each with its condition: its values, or ranges if a number has many.
function groupsOf(name) {
  const values = [...valuesOf(name)];
  if (columnOf(name).is === "text") {
    values.sort(([, one], [, other]) => other - one);
    return values.slice(0, MOST_GROUPS).map(([value]) => ({label: value || "(empty)", part: `${name} = ${quoted(value)}`}));
  }
  if (values.length > 12) return rangesOf(name);
  return numbersOf(name).map(value => ({label: showValue(value, name), part: `${name} = ${value}`}));
}

// Five ranges with round ends and about as many rows in each.
function rangesOf(name) {
  const sizes = valuesOf(name), sorted = numbersOf(name), all = [...sizes.values()].reduce((sum, rows) => sum + rows, 0);
  const fifthOf = fifth => {
    let before = Math.floor(fifth * all / 5);
    return sorted.find(number => (before -= sizes.get(String(number))) < 0);
  };
  const step = 10 ** Math.max(0, Math.floor(Math.log10((sorted.at(-1) - sorted[0]) / 5)));
  const cuts = new Set([1, 2, 3, 4].map(fifth => Math.round(fifthOf(fifth) / step) * step));
  const inside = [...cuts].filter(cut => cut > sorted[0] && cut <= sorted.at(-1));
  const ends = inside.length ? inside : [sorted[1]];
  const shown = number => inUnits(BigInt(number), placesOf(name));
  const ranges = ends.slice(1).map((high, place) =>
    ({label: `${shown(ends[place])} to ${shown(high - 1)}`, part: `${name} >= ${ends[place]} and ${name} < ${high}`}));
  return [{label: "below " + shown(ends[0]), part: `${name} < ${ends[0]}`}, ...ranges,
    {label: shown(ends.at(-1)) + " and above", part: `${name} >= ${ends.at(-1)}`}];
}

// What Draw asks: the groups of a column, or the cells by two with all totals over them, largest first since answers may close others.
function cellsToAsk() {
  const [by, too] = [byId("by").value, byId("by-too").value];
  if (!too) return groupsOf(by).map(group => ({...group, row: group.label}));
  const all = [{label: null, part: ""}], order = publics().map(column => column.name), turned = order.indexOf(too) < order.indexOf(by);
  return [...groupsOf(by), ...all].flatMap(row => [...groupsOf(too), ...all].map(column => ({
    row: row.label, column: column.label,
    part: (turned ? [column.part, row.part] : [row.part, column.part]).filter(Boolean).join(" and ") || "all"})));
}

// Says what Draw would ask, before it is clicked.
function sayGroups() {
  if (drawing || !byId("by").value) return;
  const number = cellsToAsk().length, cuts = [byId("by").value, byId("by-too").value].filter(Boolean).map(cutOf).filter(Boolean);
  const base = byId("where").value.trim(), cut = cuts.length ? ` (${cuts.join(", ")})` : "";
  const what = byId("by-too").value ? `at most ${showCount(number)} questions, one for each cell and total` : `${number} questions, one for each group`;
  byId("chart-hint").textContent = number > MOST_CELLS ? `That would be ${showCount(number)} questions${cut}, and at most ${MOST_CELLS} are asked at once.`
    : `Draw asks ${what}${cut}` + (base === "all" ? "." : ", each within: " + base);
}

// Which of a column's groups are left out, if some are.
function cutOf(name) {
  const number = groupsOf(name).length, all = valuesOf(name).size;
  return columnOf(name).is === "text" && all > number ? `the ${number} ${isWhole() ? "largest " : ""}of ${all} groups` : "";
}

async function draw() {
  if (drawing) {
    drawing.abort();
    return;
  }
  const [ask, column] = byId("chart-kind").value.split(" "), base = byId("where").value, cells = cellsToAsk();
  if (cells.length > MOST_CELLS) return;
  drawing = new AbortController();
  byId("draw").textContent = "Stop";
  byId("chart-file").hidden = true;
  const caption = say({ask, column, where: base}), by = [byId("by").value, byId("by-too").value].filter(Boolean);
  const unit = ask === "count" ? "" : unitOf(column);
  const show = () => by.length > 1 ? showTable(cells, by, caption + (unit && ", in" + unit), unit) : showBars(cells.filter(cell => cell.outcome), caption);
  let asked = 0;
  try {
    await countCells(cells, base);
    for (const cell of [...cells].sort((one, other) => other.rows - one.rows).filter(cell => by.length === 1 || cell.rows)) {
      byId("chart-hint").textContent = `Asked ${asked} of ${cells.length} …`;
      const question = ask === "count" ? {ask, where: cell.where} : {ask, column, where: cell.where};
      cell.outcome = await askChosen(question, drawing.signal);
      cell.text = textOf(question, cell.outcome);
      asked++;
      if (ask !== "count") keep(question, cell.outcome);
      show();
    }
    sayDrawn(cells.filter(cell => cell.outcome), by.length > 1 ? "cells and totals" : "groups");
  } catch (fault) {
    const why = fault.name === "AbortError" ? "stopped" : fault.message;
    byId("chart-hint").textContent = `Asked ${asked} of ${cells.length}: ${why}`;
  }
  drawing = null;
  byId("draw").textContent = "Draw";
  if (asked) offerFile(cells.filter(cell => cell.outcome), by, ask, column);
  showState();
}

// The condition and the number of rows of each cell. Counts make no record.
async function countCells(cells, base) {
  for (const cell of cells) {
    cell.where = cell.part === "all" ? base : within(base, cell.part);
    const count = await askChosen({ask: "count", where: cell.where}, drawing.signal);
    if (count.reason === "where") throw Error(sentence("refused", "where"));
    cell.rows = count.state === "answered" ? Number(count.numerator) : 0;
  }
}

function sayDrawn(asked, what) {
  const without = asked.filter(cell => cell.outcome.state === "denied");
  byId("chart-hint").textContent = without.length
    ? `Not answered (hatched): ${without.length} of ${asked.length} ${what}. ${without[0].outcome.sentence}`
    : `All ${asked.length} ${what} were asked.`;
}

// A table of two columns with its totals. A cell that isn't answered is hatched, and one of no rows is empty. The unit stands in the caption.
function showTable(cells, [by, too], caption, unit) {
  const table = element("table", "", {class: "cross"}), head = element("thead"), body = element("tbody"), top = element("tr");
  const columns = [...new Set(cells.filter(cell => cell.rows).map(cell => cell.column))];
  top.append(element("th", `${titleOf(by)} / ${titleOf(too)}`, {scope: "col"}),
    ...columns.map(label => element("th", label ?? "all", {scope: "col", class: label === null ? "all" : ""})));
  head.append(top);
  for (const row of new Set(cells.filter(cell => cell.rows).map(cell => cell.row))) {
    const line = element("tr", "", {class: row === null ? "all" : ""});
    line.append(element("th", row ?? "all", {scope: "row"}), ...columns.map(column => cellOf(cells.find(cell => cell.row === row && cell.column === column), unit)));
    body.append(line);
  }
  table.append(element("caption", caption), head, body);
  byId("chart").replaceChildren(table);
}

function cellOf({outcome, text, column}, unit) {
  const state = outcome ? outcome.state : "", known = state === "answered";
  const cell = element("td", known ? text.slice(0, text.length - unit.length) : "", {class: known ? "value" + (column === null ? " all" : "") : state === "denied" ? "no" : state ? "reason" : ""});
  if (outcome && !known) cell.append(element("span", text, {class: state === "denied" ? "unseen" : ""}));
  return cell;
}

// A file of what was drawn: the values, the rows, the number in its unit, and why it isn't answered. A total over all values has none.
function offerFile(asked, by, ask, column) {
  const lines = [[...by, "rows", ask, "not answered"], ...asked.map(cell => [...[cell.row, cell.column].slice(0, by.length).map(label => label ?? ""),
    String(cell.rows), plainNumber(cell.outcome, ask, column), cell.outcome.state === "answered" ? "" : cell.outcome.reason || cell.text])];
  byId("chart-file").replaceChildren(...csvLinks(csvOf(lines), `${ask}-by-${by.join("-")}.csv`));
  byId("chart-file").hidden = false;
}

// A number with its column's decimals and no other marks, an average with six more; nothing if it isn't answered.
function plainNumber(outcome, ask, column) {
  if (outcome.state !== "answered") return "";
  if (ask === "count") return String(outcome.numerator);
  const exact = outcome.numerator % outcome.denominator === 0n, more = exact ? 0 : 6, size = outcome.numerator < 0n ? -outcome.numerator : outcome.numerator;
  const rounded = (2n * size * 10n ** BigInt(more) + outcome.denominator) / (2n * outcome.denominator);
  return inUnits(outcome.numerator < 0n ? -rounded : rounded, placesOf(column) + more).replaceAll(",", "");
}

// Bars with their numbers. What isn't answered is hatched over the whole width, whatever the scale, so that it looks like no number.
function showBars(bars, caption) {
  const sizeOf = outcome => Number(outcome.numerator) / Number(outcome.denominator);
  const sizes = bars.filter(bar => bar.outcome.state === "answered").map(bar => sizeOf(bar.outcome));
  const low = Math.min(0, ...sizes), span = Math.max(0, ...sizes) - low || 1, percent = size => 100 * size / span;
  const table = element("table", "", {class: "bars"}), body = element("tbody");
  for (const {label, outcome, text} of bars) {
    const line = element("tr"), cell = element("td"), track = element("div", "", {class: "track"}), known = outcome.state === "answered";
    if (known) {
      const size = sizeOf(outcome), bar = element("div", "", {class: "bar"});
      bar.style.left = percent(Math.min(size, 0) - low) + "%";
      bar.style.width = percent(Math.abs(size)) + "%";
      track.append(bar);
    } else if (outcome.reason !== "empty") track.append(element("div", "", {class: "hatched"}));
    cell.append(track);
    line.append(element("th", label, {scope: "row"}), cell, element("td", text, {class: lookOf(outcome.state)}));
    body.append(line);
  }
  table.append(element("caption", caption), body);
  byId("chart").replaceChildren(table);
}
