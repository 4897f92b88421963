// What was asked, kept in the browser alone.

const storeName = () => "auditor: " + location.pathname;

function keep(asked, outcome) {
  history.unshift({question: asked, table: byId("table").value, state: outcome.state, text: textOf(asked, outcome),
    number: plainNumber(outcome, asked.ask, asked.column)});
  history.length = Math.min(history.length, KEPT);
  try {
    localStorage.setItem(storeName(), JSON.stringify(history));
  } catch { /* a browser that keeps nothing shows it until the page is closed */ }
  listHistory();
}

function readHistory() {
  const whole = entry => entry && entry.question && Object.hasOwn(KINDS, entry.question.ask) && typeof entry.question.where === "string" &&
    typeof entry.text === "string";
  try {
    const kept = JSON.parse(localStorage.getItem(storeName()));
    history = Array.isArray(kept) ? kept.filter(whole) : [];
  } catch {
    history = [];
  }
}

function listHistory() {
  const lines = history.map((entry, place) => {
    const line = element("tr", "", {class: place < SHOWN ? "" : "more"}), back = element("td", "", {class: "act"}), said = (entry.table ? entry.table + ": " : "") + say(entry.question);
    const button = element("button", "↺", {type: "button", class: "plain", "aria-label": "put back: " + said, title: "put this question back"});
    button.onclick = () => putBack(entry);
    back.append(button);
    line.append(element("td", said), element("td", entry.text, {class: lookOf(entry.state)}), back);
    return line;
  });
  const none = element("tr");
  none.append(element("td", "Nothing yet.", {class: "soft"}));
  byId("history").replaceChildren(...lines.length ? lines : [none]);
  byId("forget").hidden = byId("history-file").hidden = !lines.length;
  byId("more").hidden = lines.length <= SHOWN;
  byId("more").textContent = `Show all ${lines.length}`;
  byId("history").classList.remove("all");
  byId("history-file").replaceChildren(...csvLinks(historyCsv(), "questions.csv"));
}

// What was asked as a file, the last question first.
function historyCsv() {
  const lines = history.map(({question: {ask, column, where}, table, state, text, number}) =>
    [table || "", ask, column || "", where, number || "", state === "answered" ? "" : text]);
  return csvOf([["table", "ask", "column", "where", "answer", "not answered"], ...lines]);
}

function showAll() {
  byId("history").classList.add("all");
  byId("more").hidden = true;
}

function putBack({question: asked, table}) {
  if (table !== byId("table").value && [...byId("table").options].some(one => one.value === table)) {
    byId("table").value = table;
    choose();
  }
  const kind = document.querySelector(`#kinds input[value=${asked.ask}]`);
  if (kind) kind.checked = true;
  fillColumns();
  if (asked.column) byId("column").value = asked.column;
  writeCondition(asked.where);
}

function forget() {
  if (!confirm(`Forget what you asked here (${history.length})? The answers stay given.`)) return;
  history = [];
  try {
    localStorage.removeItem(storeName());
  } catch { /* nothing was kept */ }
  listHistory();
}
