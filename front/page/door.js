// Questions to the door, and what comes back, over one table or over all as parts of one.

async function fetchFrom(address, choices = {}) {
  try {
    return await fetch(address, choices);
  } catch (fault) {
    if (fault.name === "AbortError") throw fault;
    throw Error("The door can't be reached.");
  }
}

async function errorOf(response) {
  try {
    const said = (await response.json()).error;
    if (typeof said === "string") return said;
  } catch { /* what a proxy says isn't JSON */ }
  return `The door, or a proxy before it, says ${response.status} ${response.statusText}.`;
}

// Sends a question. A door that is busy is asked again, four times in all.
async function post(address, question, signal) {
  const body = JSON.stringify(question), headers = {"Content-Type": "application/json"};
  for (let attempt = 1; ; attempt++) {
    const response = await fetchFrom(address, {method: "POST", headers, body, signal});
    if (response.status !== 503 || attempt === 4) return response;
    await pause(400 * attempt);
  }
}

const answered = (numerator, denominator) => ({state: "answered", numerator: BigInt(numerator), denominator: BigInt(denominator)});

// How a cell with what was said to a question looks: a number, a denial, or a reason that may be long.
const lookOf = state => "value" + (state === "answered" ? "" : state === "denied" ? " denied" : " reason");

// A question to one table: answered, denied, refused, or withheld by the door itself.
async function askTable(table, question, signal) {
  const response = await post(table.base + "ask", question, signal);
  if (response.status === 422) return {state: "withheld", sentence: await errorOf(response)};
  if (!response.ok) throw Error(await errorOf(response));
  return outcomeOf(await response.json());
}

// What a reply says.
function outcomeOf(reply) {
  for (const key of ["count", "sum", "max", "min"]) if (key in reply) return answered(reply[key], 1);
  if ("num" in reply) return answered(reply.num, reply.den);
  if ("denied" in reply) return denied(reply.denied);
  if ("refused" in reply) return {state: "refused", reason: reply.refused, at: reply.at, sentence: sentence("refused", reply.refused)};
  throw Error("The door's reply isn't one that this page knows.");
}

// What is wrong with a refused condition, and how it is written, as far as the door can say.
async function hintOf(question, signal) {
  try {
    const response = await post(chosen[0].base + "hint", question, signal);
    return response.ok ? Object(await response.json()) : {};
  } catch {
    return {};
  }
}

const unasked = {state: "unasked"};
const denied = reason => ({state: "denied", reason, sentence: sentence("denied", reason)});

// What would be said to a question now. Nothing is asked.
async function verdictOf(table, question, signal) {
  const response = await post(table.base + "would", question, signal);
  if (response.status === 422) return {table, verdict: "withheld", sentence: await errorOf(response)};
  if (!response.ok) throw Error(await errorOf(response));
  const {verdict, new: tells} = await response.json();
  return {table, verdict, follows: tells === false};
}

// A question to the chosen table, or to all of them as parts of one.
async function askChosen(question, signal) {
  if (chosen.length === 1) return askTable(chosen[0], question, signal);
  const parts = [];
  for (const table of chosen) {
    const count = await askTable(table, {ask: "count", where: question.where}, signal);
    if (count.state !== "answered") return count;
    parts.push({table, rows: count.numerator, outcome: count});
  }
  const asked = question.ask === "count" ? [] : parts.filter(part => part.rows > 0n);
  if (question.ask !== "count" && !asked.length) return {state: "refused", reason: "empty", sentence: sentence("refused", "empty"), parts};
  await askParts(question, asked, signal);
  return {...together(question, asked.length ? asked : parts), parts};
}

// Asks all parts, or none if one wouldn't answer: so no history is used for a number that can't be had.
async function askParts(question, parts, signal) {
  for (const part of parts) {
    const {verdict, sentence: said} = await verdictOf(part.table, question, signal);
    part.outcome = unasked;
    if (verdict === "withheld") part.outcome = {state: "withheld", sentence: said};
    if (verdict === "unsafe" || verdict === "wide") part.outcome = denied(verdict);
  }
  if (parts.some(part => part.outcome !== unasked)) return;
  for (const part of parts) part.outcome = await askTable(part.table, question, signal);
}

// Totals and counts add up, an average is weighed by the rows, the greatest is that of the greatest part, the least that of the least. If a part isn't
// answered the whole isn't.
function together(question, parts) {
  const missing = parts.find(part => part.outcome.state !== "answered" && part.outcome !== unasked);
  if (missing) return missing.outcome;
  const add = numbers => numbers.reduce((sum, number) => sum + number, 0n);
  if (question.ask === "max" || question.ask === "min") {
    const first = (one, other) => question.ask === "max" ? one > other : one < other;
    return answered(parts.map(part => part.outcome.numerator).reduce((one, other) => first(one, other) ? one : other), 1);
  }
  if (question.ask === "avg") {
    const totals = parts.map(part => part.outcome.numerator * part.rows / part.outcome.denominator);
    return answered(add(totals), add(parts.map(part => part.rows)));
  }
  return answered(add(parts.map(part => part.outcome.numerator)), 1);
}

function textOf(question, outcome) {
  if (outcome.state === "unasked") return "not asked, since another isn't answered";
  if (outcome.state === "denied") return "not answered";
  if (outcome.state === "withheld") return outcome.sentence;
  if (outcome.reason === "empty") return "no rows";
  if (outcome.state === "refused") return "not asked: " + (outcome.reason === "where" ? "the condition isn't understood" : outcome.sentence);
  if (question.ask === "count") return showCount(outcome.numerator);
  if (question.ask === "avg") return showQuotient(outcome.numerator, outcome.denominator, question.column).text;
  return showValue(outcome.numerator, question.column);
}

function say(question) {
  const what = kindWords(question.ask) + (question.ask === "count" ? "" : " of " + titleOf(question.column));
  return what + (question.where.trim() === "all" ? ", all rows" : " where " + question.where);
}
