// A click on a heading sorts the table's rows by that column; a second one turns the order. What is no number comes last.
const order = new Intl.Collator("en", {numeric: true}).compare;
for (const button of document.querySelectorAll("th button"))
  button.onclick = () => {
    const head = button.parentNode, column = head.cellIndex, body = head.closest("table").tBodies[0];
    const down = head.ariaSort === "ascending", side = down ? -1 : 1;
    const value = row => { const text = row.cells[column].textContent.trim(); return /^-?\d[\d,.]*(?!\S)/.test(text) ? parseFloat(text.replaceAll(",", "")) : text; };
    const rows = [...body.rows].map(row => [value(row), row]);
    rows.sort(([a], [b]) => typeof a !== typeof b ? (typeof a === "string" ? 1 : -1) : side * (typeof a === "string" ? order(a, b) : a - b));
    for (const other of head.parentNode.cells) other.removeAttribute("aria-sort");
    head.setAttribute("aria-sort", down ? "descending" : "ascending");
    body.append(...rows.map(([, row]) => row));
  };
