// Addresses: a question, or an answer that was given, stands after the # of the page's address, which no server sees. Opening one asks
// nothing but a count.

// The address of a question, or of its answer, of the tables that are chosen.
function addressOf({ask, column, where}, kind, table = byId("table").value) {
  const parts = new URLSearchParams({[kind]: ask, ...column ? {column} : {}, where, ...table ? {table} : {}});
  return "#" + parts;
}

function setAddress(asked, kind = "question") {
  window.history.replaceState(null, "", addressOf(asked, kind));
}

function addressLine(asked) {
  const line = element("p", "", {class: "files"});
  line.append(element("a", "The address of this answer", {href: addressOf(asked, "answer")}));
  return line;
}

// What the page's address names: a question or an answer, of which table; or null.
function addressed() {
  const parts = new URLSearchParams(location.hash.slice(1)), kind = ["question", "answer"].find(one => parts.has(one));
  const ask = parts.get(kind), where = parts.get("where");
  if (!kind || !Object.hasOwn(KINDS, ask) || where === null) return null;
  const asked = ask === "count" ? {ask, where} : {ask, column: parts.get("column") || "", where};
  return {kind, table: parts.get("table") || "", question: asked};
}

// Shows what the page's address names.
async function openAddress() {
  const named = addressed();
  if (!named) return;
  putBack(named);
  const {kind, question: asked} = named;
  if (JSON.stringify(question()) !== JSON.stringify(asked)) {
    showAnswer("not", element("div", "Not asked", {class: "verdict"}), element("p", sentence("address", "column")));
  } else if (kind === "answer" && asked.ask !== "count") await waitFor(() => showGiven(asked));
  else showAnswer("");
}

// An answer as it stands in the transcripts.
async function showGiven(asked) {
  const parts = [];
  for (const table of chosen) {
    const found = (await answersOf(table)).find(one => ["ask", "column", "where"].every(key => one.asked[key] === asked[key]));
    if (found) parts.push({table, rows: await rowsOf(table, asked.where), outcome: found.outcome});
  }
  if (!parts.length) {
    showAnswer("not", element("div", "Not asked", {class: "verdict"}), element("p", sentence("address", "answer")), element("p", say(asked), {class: "hint"}));
    return;
  }
  const outcome = chosen.length > 1 ? {...together(asked, parts), parts} : parts[0].outcome;
  showAnswer("", element("div", textOf(asked, outcome), {class: "number"}), element("p", `${say(asked)}; ${sentence("address", "given")}`, {class: "hint"}),
    ...partLines(asked, outcome), addressLine(asked));
}

async function rowsOf(table, where) {
  const count = await askTable(table, {ask: "count", where});
  if (count.state !== "answered") throw Error(count.sentence);
  return count.numerator;
}

// The answers that a table has given, in their order, each with its question.
async function answersOf(table) {
  const response = await fetchFrom(table.base + "transcript.jsonl");
  if (!response.ok) throw Error(await errorOf(response));
  const lines = (await response.text()).split("\n"), found = [];
  for (let place = 0; place + 1 < lines.length; place += 2) {
    if (/^\{"(sum|num|max)"/.test(lines[place + 1])) found.push({asked: JSON.parse(lines[place]), outcome: outcomeOf(JSON.parse(lines[place + 1]))});
  }
  return found;
}
