// The last report: which numbers are free, and how.

// The lines of a report. Its numbers may have 34 digits, more than a number of JavaScript holds: long ones become texts.
function reportLines(text) {
  return text.trim().split("\n").map(line => JSON.parse(line.replace(/(?<=[[,:])-?\d{16,}(?=[\],}])/g, '"$&"')));
}

function describeRow(row, table = chosen[0]) {
  return `Row ${row}: ` + publics().map(column => `${titleOf(column.name)} ${table.cellOf(table.rows[row], column.name)}`).join(", ");
}

async function showReport() {
  byId("free").replaceChildren();
  if (chosen.length > 1) {
    byId("free-summary").textContent = "Each table has a report of its own: choose one table above.";
    return;
  }
  const response = await fetchFrom(chosen[0].base + "report.jsonl");
  if (response.status === 404) {
    byId("free-summary").textContent = "No report has been made yet.";
    return;
  }
  if (!response.ok) throw Error(await errorOf(response));
  const lines = reportLines(await response.text()), total = lines.pop();
  if (!("audited" in total)) throw Error("The report isn't whole.");
  const made = new Date(response.headers.get("Last-Modified") || "");
  byId("free-summary").textContent = `The last report was made after ${showCount(total.audited)} answers` +
    (isNaN(made) ? ". " : `, ${made.toLocaleString("en-GB", {dateStyle: "medium", timeStyle: "short"})}. `) +
    "For each filled square it has another table that gives the same answers and has another number there: choose one to see it.";
  for (const column of secrets()) byId("free").append(freeOf(column, lines.filter(line => line.column === column.name)));
}

// The rows of a column that the report shows to be free, of those of one person. The squares are made when they are wanted.
function freeOf(column, lines) {
  const ways = new Map(), box = element("details"), rows = chosen[0].rows.length;
  const single = [...chosen[0].rows.keys()].filter(row => peopleIn(row) === 1);
  for (const line of lines) {
    const [bounds, step] = "low" in line ? [line.low, 1n] : [line.high, -1n];
    if (Array.isArray(bounds)) for (const row of single.filter(row => row < bounds.length)) ways.set(row, moved(column, bounds[row], step));
    else if ("row" in line) ways.set(line.row, changed(line.direction));
  }
  box.append(element("summary", `${titleOf(column.name)}: ${showCount(ways.size)} of ${showCount(single.length)} numbers${isOfPeople() ? " of one person" : ""} are free`));
  box.ontoggle = () => { if (box.children.length === 1) box.append(...squaresOf(ways, rows)); };
  return box;
}

const peopleIn = row => chosen[0].peopleOf(chosen[0].rows[row]);

function nothingOn(row) {
  return peopleIn(row) === 1 ? "The report has nothing on this number."
    : `It stands for ${showCount(peopleIn(row))} people: what they have together may be told, and nobody's own number follows from that.`;
}

function moved(column, bound, step) {
  return `Give each row the number of the report's list, and this one ${showValue(BigInt(bound) + step, column.name)} in place of ` +
    `${showValue(bound, column.name)}: every answer is the same.`;
}

function changed(direction) {
  const most = 12, steps = direction.slice(0, most).map(([row, by]) => {
    const number = BigInt(by);
    return `row ${row}\u00a0${number < 0n ? "" : "+"}${showCount(number)}`;
  });
  const more = direction.length > most ? `, and ${direction.length - most} more in report.jsonl` : "";
  return `Change ${direction.length === 1 ? "this number" : direction.length + " numbers"} by these steps, and every total and average that was ` +
    `answered stays as it is: ${steps.join(", ")}${more}.`;
}

// A square for each row. One of them is in the order of Tab; the arrow keys go to the others.
function squaresOf(ways, rows) {
  const squares = element("div", "", {class: "squares", role: "group", "aria-label": "rows"});
  const said = element("div", "", {class: "hint", role: "status"});
  for (let row = 0; row < rows; row++) {
    const square = element("button", "", {type: "button", class: ways.has(row) ? "square" : "square missing", tabindex: row ? -1 : 0,
      "aria-label": describeRow(row), title: describeRow(row), "aria-pressed": "false"});
    square.onclick = () => {
      for (const other of squares.children) other.setAttribute("aria-pressed", String(other === square));
      said.textContent = `${describeRow(row)}. ${ways.get(row) || nothingOn(row)}`;
    };
    squares.append(square);
  }
  squares.onkeydown = event => {
    const move = {ArrowRight: 1, ArrowLeft: -1, ArrowDown: 10, ArrowUp: -10}[event.key];
    const next = move && squares.children[[...squares.children].indexOf(event.target) + move];
    if (!next) return;
    event.preventDefault();
    event.target.tabIndex = -1;
    next.tabIndex = 0;
    next.focus();
  };
  return [squares, said];
}
