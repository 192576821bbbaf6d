"use strict";
// Sorts, searches and saves the rows of the answer. Row i of the data is the i-th row of the table as it was written.
const data = JSON.parse(document.getElementById("data").textContent);
const table = document.getElementById("answer");
const body = table.tBodies[0];
const rows = Array.from(body.rows).map((element, place) => ({
  element, mark: element.className, fields: data.rows[place], text: element.textContent.toLowerCase(),
}));
const search = document.getElementById("search");
const mark = document.getElementById("mark");
const shown = document.getElementById("shown");

// What a row is ordered by: its guess in a column. Numbers of one column have as many digits behind the point, so that their
// digits can be compared.
function key(row, heading) {
  const guess = row.fields[Number(heading.dataset.first) + 1];
  return heading.dataset.kind === "number" ? BigInt(guess.replace(".", "")) : guess;
}

function sort(heading) {
  const descending = heading.getAttribute("aria-sort") === "ascending";
  for (const row of rows) row.key = key(row, heading);
  const sign = descending ? -1 : 1;
  rows.sort((a, b) => (a.key < b.key ? -sign : a.key > b.key ? sign : 0));
  for (const other of table.tHead.rows[0].cells) other.removeAttribute("aria-sort");
  heading.setAttribute("aria-sort", descending ? "descending" : "ascending");
  body.append(...rows.map((row) => row.element));
}

function filter() {
  const words = search.value.toLowerCase().split(/\s+/).filter(Boolean);
  let count = 0;
  for (const row of rows) {
    row.element.hidden = (mark.value !== "" && row.mark !== mark.value) || !words.every((word) => row.text.includes(word));
    count += row.element.hidden ? 0 : 1;
  }
  shown.textContent = `${count.toLocaleString("en")} of ${rows.length.toLocaleString("en")} rows`;
}

function quoted(field) {
  return /[",\r\n]/.test(field) ? `"${field.replaceAll('"', '""')}"` : field;
}

// The rows that are shown, in their order, as audb prints them.
function asCsv() {
  const records = [data.header, ...rows.filter((row) => !row.element.hidden).map((row) => row.fields)];
  return records.map((record) => record.map(quoted).join(",") + "\n").join("");
}

function save() {
  const link = document.createElement("a");
  link.href = URL.createObjectURL(new Blob([asCsv()], { type: "text/csv" }));
  link.download = "answer.csv";
  link.click();
  URL.revokeObjectURL(link.href);
}

for (const heading of table.tHead.rows[0].cells) {
  heading.querySelector("button").addEventListener("click", () => sort(heading));
}
search.addEventListener("input", filter);
mark.addEventListener("change", filter);
document.getElementById("save").addEventListener("click", save);
filter();
