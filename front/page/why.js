// Why a question is denied, and what is near it.

// The tables that denied a question.
const deniers = outcome => outcome.parts ? outcome.parts.filter(part => part.outcome.state === "denied").map(part => part.table) : chosen;

// A button that shows, of each table that denies a question, why. Nothing is asked and nothing is kept.
function why(asked, tables) {
  const box = element("div"), button = element("button", "Why?", {type: "button"});
  button.onclick = async () => {
    if (button.getAttribute("aria-disabled") === "true") return;
    button.setAttribute("aria-disabled", "true");
    const said = [];
    for (const table of tables) said.push(...await whyLines(table, asked));
    box.replaceChildren(...said, element("p", sentence("note", "why"), {class: "hint"}));
  };
  box.append(button);
  return box;
}

// A button that shows, of each table that denies a question, the nearest one that it would answer. Nothing is asked, and neither is that one.
function near(asked, tables) {
  const box = element("div"), button = element("button", "What is near?", {type: "button"});
  button.onclick = async () => {
    if (button.getAttribute("aria-disabled") === "true") return;
    button.setAttribute("aria-disabled", "true");
    const said = [];
    for (const table of tables) said.push(await nearLine(table, asked));
    box.replaceChildren(...said, element("p", sentence("near", "hint"), {class: "hint"}));
  };
  box.append(button);
  return box;
}

async function nearLine(table, asked) {
  const front = chosen.length > 1 ? table.name + ": " : "", line = element("p", front);
  try {
    const response = await post(table.base + "near", asked);
    if (!response.ok) throw Error(await errorOf(response));
    const said = await response.json();
    if (!said.near) {
      line.append(["unsafe", "wide", "withheld"].includes(said.verdict) ? sentence("near", "none") : sentence("verdict", said.verdict));
      return line;
    }
    const take = element("button", "Take it", {type: "button", class: "plain"});
    take.onclick = () => { putBack({question: said.near, table: byId("table").value}); byId("ask").focus(); };
    line.append("Near, and it would be answered: ", element("code", said.near.where), ` for ${rowsWords(said)}. `, take);
  } catch (fault) {
    line.append(element("span", fault.message, {class: "bad"}));
  }
  return line;
}

// How many rows a question is over, and how they differ from another one's.
function rowsWords({rows, more, fewer}) {
  const counts = [[more, "more"], [fewer, "fewer"]].filter(([number]) => number).map(([number, word]) => `${showCount(number)} ${word}`);
  return `${showCount(rows)} ${rows === 1 ? "row" : "rows"}, ${counts.join(" and ")}`;
}

async function whyLines(table, asked) {
  const front = tables.length > 1 ? table.name + ": " : "";
  try {
    const response = await post(table.base + "why", asked);
    if (!response.ok) throw Error(await errorOf(response));
    const text = (await response.text()).trim(), line = reportLines(text)[0], details = element("details");
    details.append(element("summary", "The certificate"), element("code", text));
    const said = element("p", front);
    said.append(...await whyWords(table, asked, line));
    return [said, ...line.verdict === "unsafe" ? [details] : []];
  } catch (fault) {
    return [element("p", front + fault.message, {class: "bad"})];
  }
}

// What `explain` says, in a sentence: with the questions of the transcript, or with the numbers of its records if those can't be told.
async function whyWords(table, asked, line) {
  if (line.verdict !== "unsafe") return [sentence("why", line.verdict)];
  if ("proof" in line) return [sentence("why", line.proof === "wide" ? "proof" : line.proof)];
  const target = "group" in line ? `the protected total where ${await protectedAt(table, line.group)}` : "";
  const records = await recordsOf(table, asked, line);
  if (records) return "answer" in line ? maxParts(line, asked, records, table) : sumParts(line, asked, records, table, target);
  if ("answer" in line) return [`${maxWords(line, asked.column)}. ${describeRow(line.row, table)}.`];
  if ("row" in line) return [`${sumWords(line, `the number of row ${line.row}`)}. ${describeRow(line.row, table)}.`];
  return [sumWords(line, target) + "."];
}

// The answers that a certificate names, by the numbers of their records; null if the transcript doesn't show which they are. Record k is its k-th
// answer, unless the journal was compacted, the table renewed, or somebody asked beside the door: so columns, kinds and for sums the rows
// have to fit.
async function recordsOf(table, asked, line) {
  const places = "answer" in line ? [line.pair].filter(place => place !== "asked") : line.by.map(([place]) => place);
  if (places.length > MOST_CHECKED) return null;
  try {
    const health = await (await fetchFrom(table.base + "health")).json();
    if (health.compacted !== 0 || health.earlier > 0 || !(health.transcript <= MOST_TRANSCRIPT)) return null;
    const answers = places.length ? await answersOf(table) : [], kinds = "high" in line ? ["max"] : "low" in line ? ["min"] : ["sum", "avg"];
    const records = new Map(places.map(place => [place, answers[place]]));
    const fits = [...records.values()].every(one => one && one.asked.column === asked.column && kinds.includes(one.asked.ask));
    return fits && ("answer" in line || await addsUp(table, asked, line, records)) ? records : null;
  } catch {
    return null;
  }
}

// Whether as many rows are added and taken away as what would be known has.
async function addsUp(table, asked, line, records) {
  let rows = BigInt(line.asked) * await rowsOf(table, asked.where);
  for (const [place, times] of line.by) rows += BigInt(times) * await rowsOf(table, records.get(place).asked.where);
  const due = "group" in line ? await rowsOf(table, await protectedAt(table, line.group)) : 1n;
  return rows === BigInt(line.times) * due;
}

// The public values of a row.
const cellsOf = (row, table) => publics().map(column => {
  const cell = table.cellOf(table.rows[row], column.name);
  return column.is === "number" ? showValue(cell.trim().replace(/^\+/, ""), column.name) : cell || "(empty)";
}).join(", ");

// A question that was answered, as a link to its answer.
function recordLink({asked}, table) {
  const box = element("span"), name = chosen.length > 1 || byId("table").value ? table.name : "";
  box.append(element("a", say(asked), {href: addressOf(asked, "answer", name)}), asked.ask === "avg" ? ", answered, as a total" : ", answered");
  return box;
}

// A certificate for sums: some answers and this one, less others, would be what is to stay open.
function sumParts(line, asked, records, table, target) {
  const own = asked.ask === "avg" ? "the total of this average" : "this total";
  const terms = [...line.by.map(([place, times]) => [recordLink(records.get(place), table), BigInt(times)]), [own, BigInt(line.asked)]];
  const added = joined(terms.filter(([, times]) => times > 0n)), less = joined(terms.filter(([, times]) => times < 0n));
  const times = String(line.times) === "1" ? "" : showCount(line.times) + " times ";
  const due = target || `the ${titleOf(asked.column)} of one person: ${cellsOf(line.row, table)}`;
  if (typeof added[0] === "string") added[0] = added[0][0].toUpperCase() + added[0].slice(1);
  return [...added, ...less.length ? [", less ", ...less] : [], ` would be ${times}${due}.`];
}

// Terms as a sentence has them: a, 3 times b and c. What stands last is never left out.
function joined(terms) {
  const shown = terms.length > MOST_TERMS ? [...terms.slice(0, MOST_TERMS - 1), terms.at(-1)] : terms;
  return shown.flatMap(([node, times], place) => {
    const before = place === 0 ? "" : place < shown.length - 1 ? ", " : " and ";
    const more = place === shown.length - 1 && shown.length < terms.length ? `${terms.length - shown.length} more answers and ` : "";
    const front = before + more + (size(times) === 1n ? "" : `${showCount(size(times))} times `);
    return typeof node === "string" ? [front + node] : [...front ? [front] : [], node];
  });
}

// A certificate for maxima or minima: with which answer one person alone could have a number.
function maxParts(line, asked, records, table) {
  const start = `Were this answer ${showValue(line.answer, asked.column)}, one person alone `, end = `: ${cellsOf(line.row, table)}.`;
  if (line.pair === "asked") return [start + "could have it" + end];
  return [start + "of ", recordLink(records.get(line.pair), table), ` could have the ${showValue((line.high || line.low)[line.row], asked.column)}` + end];
}

// The condition of a protected total by its place. Those of no row have none; a count makes no record.
async function protectedAt(table, place) {
  for (const {where} of table.protect) {
    const count = await askTable(table, {ask: "count", where});
    if (count.state === "answered" && count.numerator > 0n && place-- === 0) return where;
  }
  throw Error("The certificate names a protected total that schema.json hasn't.");
}

// Some names as a sentence has them: a, b and c.
const listed = names => names.length > 1 ? names.slice(0, -1).join(", ") + " and " + names.at(-1) : names.join("");

const size = number => BigInt(number) < 0n ? -BigInt(number) : BigInt(number);

// Some terms in words: records 0 and 2, 3 times record 4 and the answer asked for.
function counted(terms) {
  const records = terms.slice(0, MOST_TERMS).filter(([place]) => place !== "asked");
  const once = records.filter(([, times]) => size(times) === 1n).map(([place]) => String(place));
  const names = once.length ? [`record${once.length > 1 ? "s" : ""} ${listed(once)}`] : [];
  for (const [place, times] of records) if (size(times) !== 1n) names.push(`${showCount(size(times))} times record ${place}`);
  const own = terms.find(([place]) => place === "asked"), more = terms.length - records.length - (own ? 1 : 0);
  if (more > 0) names.push(`${more} more`);
  if (own) names.push((size(own[1]) === 1n ? "" : `${showCount(size(own[1]))} times `) + "the answer asked for");
  return listed(names);
}

// A certificate for sums: what would be known is some records and the question, less others.
function sumWords(line, target) {
  const terms = [...line.by, ["asked", line.asked]], positive = ([, times]) => BigInt(times) > 0n;
  const less = counted(terms.filter(term => !positive(term))), times = String(line.times);
  const said = `${times === "1" ? "" : showCount(times) + " times "}${target} is ${counted(terms.filter(positive))}${less ? ", less " + less : ""}`;
  return said[0].toUpperCase() + said.slice(1);
}

// A certificate for maxima or minima: with which answer one row alone could have a number.
function maxWords(line, column) {
  const answer = `Were the answer ${showValue(line.answer, column)}, row ${line.row} would be the only one `;
  if (line.pair === "asked") return answer + "that can have it";
  return answer + `of record ${line.pair} that can have the ${showValue((line.high || line.low)[line.row], column)}`;
}
