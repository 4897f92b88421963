// What all of the page goes by.

const KINDS = {count: "Number of rows", sum: "Total", avg: "Average", max: "Greatest", min: "Least"};
// What may be asked of a secret column.
const ASKS = {sum: ["sum", "avg"], max: ["max"], min: ["min"]};
const COMPARISONS = {
  text: {"=": "is", "!=": "is not", in: "is one of"},
  number: {"=": "=", "!=": "≠", "<": "<", "<=": "≤", ">": ">", ">=": "≥", between: "between"},
};
const KEPT = 200;        // questions that the browser keeps
const MOST_GROUPS = 30;  // bars of a chart
const MOST_CELLS = 400;  // cells of a table
const MOST_TOTALS = 5;   // protected totals that are listed beside their column
const MOST_TERMS = 12;   // records that a certificate names in words
const MOST_CHECKED = 40; // records of a certificate whose questions are looked up
const MOST_TRANSCRIPT = 64 * 1024 * 1024; // bytes of a transcript that is looked through
const SHOWN = 12;        // questions that were asked and are shown at once

let words = {};          // the sentences of words.json
let tables = [];         // all tables behind the door
let chosen = [];         // those that are asked: one, or all of them as parts of one
let history = [];
let written = "all";     // the condition as far as it was typed by hand
let counting = null;     // the count that is under way
let drawing = null;      // the chart that is under way
let asking = false;
let rowsAsked = null;    // how many rows questions are over, if a schema keeps some out, once they were counted

const byId = id => document.getElementById(id);
const pause = milliseconds => new Promise(done => setTimeout(done, milliseconds));

// An element with a text and attributes. What people wrote goes in as text, never as markup.
function element(tag, text = "", attributes = {}) {
  const made = document.createElement(tag);
  made.textContent = text;
  for (const [name, value] of Object.entries(attributes)) made.setAttribute(name, value);
  return made;
}

function option(text, value) {
  return element("option", text, {value});
}

// Lines of a CSV file.
function csvOf(lines) {
  const field = text => /[",\r\n]/.test(text) ? `"${text.replaceAll('"', '""')}"` : text;
  return lines.map(line => line.map(field).join(",") + "\n").join("");
}

// A link that saves a CSV file, and a button that copies it.
function csvLinks(text, name) {
  const link = element("a", "Save it as CSV", {href: "data:text/csv;charset=utf-8," + encodeURIComponent(text), download: name});
  const button = element("button", "Copy", {type: "button", class: "plain", "aria-label": "copy as CSV"});
  button.onclick = async () => { button.textContent = await copy(text) ? "Copied" : "The browser didn't copy it"; };
  return [link, " ", button];
}

// Copies a text, also where the browser keeps its clipboard from pages without TLS.
async function copy(text) {
  try {
    await navigator.clipboard.writeText(text);
    return true;
  } catch { /* the older way */ }
  const area = element("textarea", text, {class: "unseen", "aria-label": "what is copied"}), before = document.activeElement;
  document.body.append(area);
  area.select();
  const done = document.execCommand("copy");
  area.remove();
  before.focus();
  return done;
}

// The sentence for a reason; if there is none, the reason as the program writes it.
function sentence(group, reason) {
  const known = Object.hasOwn(words, group) ? words[group] : {};
  return Object.hasOwn(known, reason) ? known[reason] : String(reason);
}
