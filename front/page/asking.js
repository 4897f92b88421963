// Asking, and whether it would be answered.

function question() {
  const ask = document.querySelector("#kinds input:checked").value, where = byId("where").value;
  return ask === "count" ? {ask, where} : {ask, column: byId("column").value, where};
}

// Shows that a reply is awaited, and its fault if there is none. One at a time: a second click changes nothing.
async function waitFor(work) {
  if (asking) return;
  asking = true;
  for (const name of ["ask", "would"]) byId(name).setAttribute("aria-disabled", "true");
  showAnswer("", element("p", "Waiting for the reply …", {class: "hint"}));
  try {
    await work();
  } catch (fault) {
    showAnswer("not", element("div", "No reply", {class: "verdict"}), element("p", fault.message));
  }
  asking = false;
  for (const name of ["ask", "would"]) byId(name).setAttribute("aria-disabled", "false");
  showState();
}

function showAnswer(look, ...content) {
  byId("answer").className = look;
  byId("answer").replaceChildren(...content);
}

async function askNow() {
  const asked = question(), outcome = await askChosen(asked);
  if (outcome.state === "answered") {
    const hint = [say(asked), exactly(asked, outcome)].filter(Boolean).join("; ");
    showAnswer("", element("div", textOf(asked, outcome), {class: "number"}), element("p", hint, {class: "hint"}), ...partLines(asked, outcome),
      addressLine(asked));
  } else {
    showAnswer("not", element("div", outcome.state === "denied" ? "Not answered" : "Not asked", {class: "verdict"}),
      element("p", outcome.sentence), element("p", say(asked), {class: "hint"}), ...partLines(asked, outcome));
    if (outcome.reason === "where") byId("answer").append(...hintLines(await hintOf(asked)));
    if (outcome.state === "denied") {
      byId("answer").append(element("p", sentence("note", isProtected(asked) ? "protected" : "denied"), {class: "hint"}));
      if (outcome.reason === "unsafe") byId("answer").append(why(asked, deniers(outcome)));
      byId("answer").append(near(asked, deniers(outcome)));
    } else if (outcome.state === "withheld") byId("answer").append(near(asked, chosen));
  }
  setAddress(asked, outcome.state === "answered" ? "answer" : "question");
  keep(asked, outcome);
}

// Whether a total or an average is asked of a protected group, in the schema's own words. In others it is denied too, without this note.
function isProtected({ask, column, where}) {
  return (ask === "sum" || ask === "avg") && protectedOf(column).some(total => total.trim() === where.trim());
}

// An average that has more places is said as the total over the number of rows, too.
function exactly(asked, outcome) {
  if (asked.ask !== "avg" || showQuotient(outcome.numerator, outcome.denominator, asked.column).exact) return "";
  return `exactly ${inUnits(outcome.numerator, placesOf(asked.column))} / ${showCount(outcome.denominator)}`;
}

function partLines(asked, outcome) {
  const text = part => part.rows || asked.ask === "count" ? textOf(asked, part.outcome) : "no rows";
  return (outcome.parts || []).map(part => element("p", `${part.table.name}: ${text(part)}`, {class: "hint"}));
}

// What would be said now. Nothing is asked; a count shows why a question would be refused.
async function wouldNow() {
  const asked = question(), verdicts = [];
  for (const table of chosen) verdicts.push(await verdictOf(table, asked));
  const good = one => one.verdict === "released" || one.verdict === "count";
  const first = verdicts.find(one => !good(one)) || verdicts[0];
  const lines = [element("div", sentence("verdict", first.verdict), {class: "verdict"}), element("p", await reasonOf(first, asked)),
    element("p", say(asked), {class: "hint"})];
  for (const one of chosen.length > 1 ? verdicts : []) {
    const more = one.follows ? " " + sentence("note", "follows") : "";
    lines.push(element("p", `${one.table.name}: ${sentence("verdict", one.verdict)}${more}`, {class: "hint"}));
  }
  const unsafe = verdicts.filter(one => one.verdict === "unsafe").map(one => one.table);
  if (unsafe.length) lines.push(why(asked, unsafe));
  const others = verdicts.filter(one => ["unsafe", "wide", "withheld"].includes(one.verdict)).map(one => one.table);
  if (others.length) lines.push(near(asked, others));
  showAnswer(good(first) ? "good" : "not", ...lines);
}

async function reasonOf({table, verdict, follows, sentence: said}, asked) {
  if (said) return said;
  if (verdict === "unsafe" && isProtected(asked)) return sentence("note", "protected");
  if (verdict === "unsafe" || verdict === "wide") return sentence("denied", verdict);
  if (verdict !== "refused") return (follows ? sentence("note", "follows") + " " : "") + sentence("note", "would");
  const count = await askTable(table, {ask: "count", where: asked.where});
  if (count.state !== "answered") return count.sentence;
  return sentence("refused", count.numerator === 0n ? "empty" : "full");
}
