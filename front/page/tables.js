// The tables: schema, public columns and notes, as the door has them.

class Table {
  constructor(name) {
    this.name = name;
    this.base = name ? encodeURIComponent(name) + "/" : "";
  }

  async load() {
    const [schema, text, notes] = await Promise.all([this.file("schema.json"), this.file("table.csv"), this.file("notes.json", true)]);
    const {columns, protect, only, ...limits} = parsed("schema.json", schema);
    this.columns = columns;
    this.only = typeof only === "string" ? only : "";   // what the rows of every question satisfy
    this.limits = limits;
    this.protect = Array.isArray(protect) ? protect : [];
    this.rows = records(text.replace(/^\uFEFF/, "")).slice(1);
    this.notes = notes ? parsed("notes.json", notes) : {};
    this.seen = this.columns.filter(column => ["text", "number", "count"].includes(column.is));      // those of table.csv, in its order
    this.publics = this.seen.filter(column => column.is !== "count");
    this.secrets = this.columns.filter(column => ["sum", "max", "min"].includes(column.is));
  }

  cellOf(row, name) {
    return row[this.seen.findIndex(column => column.name === name)];
  }

  // How many people a row stands for: one, if no column has their number.
  peopleOf(row) {
    const count = this.seen.find(column => column.is === "count");
    return count ? Number(this.cellOf(row, count.name)) : 1;
  }

  async file(name, mayBeMissing = false) {
    const response = await fetchFrom(this.base + name);
    if (response.ok) return response.text();
    if (mayBeMissing && response.status === 404) return "";
    throw Error(`${name}: ${await errorOf(response)}`);
  }
}

// Without its notes a table would be shown with wrong decimals: so one that can't be read is a fault, and a missing one isn't.
function parsed(name, text) {
  try {
    return Object(JSON.parse(text));
  } catch {
    throw Error(`${name} isn't JSON.`);
  }
}

// The records of a CSV text, as the program reads them: blank lines are passed over, a quote in a quoted field is doubled.
function records(text) {
  const found = [];
  let record = [], field = "", quoted = false, begun = false;
  const endField = () => { record.push(field); field = ""; begun = false; };
  const endRecord = () => { if (begun || record.length) { endField(); found.push(record); } record = []; };
  for (let at = 0; at < text.length; at++) {
    const letter = text[at];
    if (quoted && letter === '"' && text[at + 1] === '"') { field += '"'; at++; }
    else if (letter === '"' && (quoted || !begun)) { quoted = !quoted; begun = true; }
    else if (quoted) field += letter;
    else if (letter === ",") endField();
    else if (letter === "\n" || letter === "\r") endRecord();
    else { field += letter; begun = true; }
  }
  endRecord();
  return found;
}

const publics = () => chosen[0].publics;
const secrets = () => chosen[0].secrets;
const columnOf = name => chosen[0].columns.find(column => column.name === name);
const rowsInAll = () => chosen.reduce((sum, table) => table.rows.reduce((all, row) => all + table.peopleOf(row), sum), 0);
// What a count counts: people, if a column says how many each row stands for.
const isOfPeople = () => chosen.some(table => table.seen.some(column => column.is === "count"));
const rowsWord = () => isOfPeople() ? "people" : "rows";
const kindWords = kind => kind === "count" ? `Number of ${rowsWord()}` : KINDS[kind];
const isWhole = () => chosen.every(table => !table.only);       // whether questions are over all rows of the chosen tables

function noteOf(name) {
  const columns = chosen[0].notes.columns;
  return columns && Object.hasOwn(columns, name) && columns[name] || {};
}
const titleOf = name => typeof noteOf(name).title === "string" ? noteOf(name).title : name;
const unitOf = name => typeof noteOf(name).unit === "string" && noteOf(name).unit ? " " + noteOf(name).unit : "";
function placesOf(name) {
  const places = noteOf(name).decimals;
  return Number.isInteger(places) && places > 0 && places <= 12 ? places : 0;
}

// The values of a public column, each with the number of its rows.
function valuesOf(name) {
  const seen = new Map();
  for (const table of chosen) {
    for (const row of table.rows) {
      const cell = table.cellOf(row, name), value = columnOf(name).is === "number" ? String(BigInt(cell.trim().replace(/^\+/, ""))) : cell;
      seen.set(value, (seen.get(value) || 0) + table.peopleOf(row));
    }
  }
  return seen;
}

function textsOf(name) {
  return [...valuesOf(name)].sort(([one], [other]) => one.localeCompare(other, "en", {numeric: true}));
}

function numbersOf(name) {
  return [...valuesOf(name).keys()].map(Number).sort((one, other) => one - other);
}
