// The condition: built from lists, typed, counted, marked.

const quoted = text => "'" + text.replaceAll("'", "''") + "'";

// The condition of a group within another. The clients write it in the same way: the same question asked again makes no record.
function within(base, part) {
  return base.trim() === "all" ? part : `(${base}) and ${part}`;
}

// A line of the builder: a public column, a comparison, and a value from those that are in the table.
class Part {
  constructor() {
    this.column = element("select", "", {"aria-label": "column of the condition"});
    this.column.append(...publics().map(column => option(titleOf(column.name), column.name)));
    this.comparison = element("select", "", {"aria-label": "comparison"});
    this.value = element("span", "", {class: "row"});
    const fields = element("div", "", {class: "row"});
    const leave = "leave this condition out";
    const away = element("button", "×", {type: "button", class: "plain", "aria-label": leave, title: leave});
    this.line = element("li");
    this.line.condition = this;
    fields.append(this.column, this.comparison, this.value);
    this.line.append(fields, away);
    this.column.onchange = () => { this.fillComparisons(); compose(); };
    this.comparison.onchange = () => { this.fillValue(); compose(); };
    this.value.oninput = compose;
    away.onclick = () => { this.line.remove(); byId("add").focus(); compose(); };
    this.fillComparisons();
  }

  get name() { return this.column.value; }
  get isText() { return columnOf(this.name).is === "text"; }

  fillComparisons() {
    const choices = Object.entries(COMPARISONS[columnOf(this.name).is]);
    this.comparison.replaceChildren(...choices.map(([mark, text]) => option(text, mark)));
    this.fillValue();
  }

  fillValue() {
    if (this.isText) this.value.replaceChildren(this.comparison.value === "in" ? this.checkboxes() : this.list());
    else if (this.comparison.value === "between") this.value.replaceChildren(this.number("from"), "and", this.number("to"));
    else this.value.replaceChildren(this.number("value"));
  }

  texts() {
    return textsOf(this.name).map(([value, rows]) => [value, (value || "(empty)") + (isWhole() ? ` (${showCount(rows)})` : "")]);
  }

  list() {
    const select = element("select", "", {"aria-label": "value"});
    select.append(...this.texts().map(([value, text]) => option(text, value)));
    return select;
  }

  checkboxes() {
    const box = element("div", "", {class: "choices", role: "group", "aria-label": "values of " + titleOf(this.name)});
    for (const [value, text] of this.texts()) {
      const line = element("label"), check = element("input", "", {type: "checkbox"});
      check.value = value;
      line.append(check, text);
      box.append(line);
    }
    return box;
  }

  number(label) {
    const numbers = numbersOf(this.name), places = placesOf(this.name);
    const shown = number => inUnits(BigInt(number), places).replaceAll(",", "");
    const range = `${shown(numbers[0])} to ${shown(numbers.at(-1))}`;
    return element("input", "", {"aria-label": `${label}, ${range}`, placeholder: range, autocomplete: "off"});
  }

  // Its condition. What isn't a number goes in as it was typed: the program's own reader marks it.
  text() {
    const given = [...this.value.querySelectorAll("input:not([type])")].map(input => inSteps(input.value.trim(), placesOf(this.name)));
    if (this.comparison.value === "between") return `${this.name} >= ${given[0]} and ${this.name} <= ${given[1]}`;
    if (!this.isText) return `${this.name} ${this.comparison.value} ${given[0]}`;
    if (this.comparison.value !== "in") return `${this.name} ${this.comparison.value} ${quoted(this.value.firstChild.value)}`;
    return `${this.name} in (${[...this.value.querySelectorAll(":checked")].map(check => quoted(check.value)).join(", ")})`;
  }
}

// Writes the condition of the builder's lines, after what was typed by hand.
function compose() {
  const join = byId("join").value, texts = [...byId("parts").children].map(line => line.condition.text());
  if (written.trim() && written.trim() !== "all") {
    texts.unshift(texts.length && join === " and " && /\bor\b/.test(written) ? `(${written})` : written);
  }
  byId("where").value = texts.length ? texts.join(join) : "all";
  setAddress(question());
  countSoon();
}

function writeCondition(text) {
  written = text;
  byId("parts").replaceChildren();
  byId("where").value = text;
  countSoon();
}

// Says of how many rows the condition holds, or from which place on it isn't understood. A count makes no record.
async function countSoon() {
  if (counting) counting.abort();
  const mine = counting = new AbortController(), where = byId("where").value;
  sayGroups();
  try {
    await pause(200);
    if (mine.signal.aborted) return;
    const outcome = await askChosen({ask: "count", where}, mine.signal);
    if (mine.signal.aborted) return;
    sayHolds(where, outcome);
    if (outcome.reason === "where") byId("holds").append(...hintLines(await hintOf({ask: "count", where}, mine.signal)));
  } catch (fault) {
    if (!mine.signal.aborted) byId("holds").replaceChildren(element("span", fault.message, {class: "bad"}));
  }
}

function sayHolds(where, outcome) {
  byId("where").setAttribute("aria-invalid", String(outcome.state === "refused"));
  if (outcome.state === "answered") {
    if (where.trim() === "all") rowsAsked = outcome.numerator;
    const whole = isWhole() ? rowsInAll() : rowsAsked;
    byId("holds").textContent = `holds for ${showCount(outcome.numerator)}${whole === null ? "" : ` of ${showCount(whole)}`} ${rowsWord()}`;
  } else if (outcome.reason === "where") byId("holds").replaceChildren(...marked(where, outcome.at));
  else byId("holds").replaceChildren(element("span", outcome.sentence, {class: "bad"}));
}

// Why a condition isn't understood, and how it is written.
function hintLines({hint, write}) {
  const lines = typeof hint === "string" ? [element("p", hint, {class: "hint"})] : [];
  if (typeof write !== "string") return lines;
  const line = element("p", "Write: ", {class: "hint"}), take = element("button", "Take it", {type: "button", class: "plain"});
  take.onclick = () => { writeCondition(write); setAddress(question()); byId("where").focus(); };
  line.append(element("code", write), " ", take);
  return [...lines, line];
}

// The condition from the refused byte on, with what is before it.
function marked(where, at) {
  const bytes = new TextEncoder().encode(where), decode = part => new TextDecoder().decode(part);
  const before = decode(bytes.slice(0, at)), rest = decode(bytes.slice(at));
  const go = element("button", "Go there", {type: "button", class: "plain"});
  go.onclick = () => { byId("where").focus(); byId("where").setSelectionRange(before.length, where.length); };
  const start = before.length > 30 ? "… " + before.slice(-30) : before;
  return [element("span", rest ? "not understood from here on: " : "something is missing at the end: ", {class: "bad"}),
    start, element("mark", rest.slice(0, 40) || "▯"), " ", go];
}
