// A table of levels: of one result, or of several files. Its heads sort it, and it is saved as CSV.

const COLUMNS = ["file", "level", "title", "width", "height", "boxes", "moves", "pushes", "status",
    "reason"];
// how many rows are shown, and how many levels are read between two pauses
const MOST_ROWS_SHOWN = 200, READ_AT_ONCE = 100;

// The rows of the table for the levels of some results. Pauses often.
function* tableRows(results) {
    const rows = [];
    for (const result of results) {
        const { names, data } = result;
        for (const [i, { number, title, rows: board, file }] of data.levels.entries()) {
            const { status, words } = data.verdicts[number], isSolved = status === "solved";
            const boxes = board.reduce((sum, row) => sum + row.split(/[$*]/).length - 1, 0);
            rows.push({ result, number,
                cells: [file ? `${names[0]} ${file}` : names[0], number, title,
                Math.max(...board.map(row => row.length)), board.length, boxes,
                isSolved ? Number(words[1]) : "", isSolved ? Number(words[3]) : "", status,
                isSolved || status === "missing" ? "" : words.join(" ")] });
            if (i % READ_AT_ONCE === 0) yield;
        }
    }
    return rows;
}

// numbers before words, and both before nothing
const rankOf = value => value === "" ? 2 : typeof value === "number" ? 0 : 1;
const compared = (one, other) => rankOf(one) - rankOf(other)
    || (typeof one === "number" ? one - other : one < other ? -1 : one > other ? 1 : 0);

// a text of a cell for CSV: quoted, and not begun as a formula
function quoted(value) {
    const text = String(value).replace(/^[=+@\t\r-]/, "'$&");
    return /[",\n\r]/.test(text) ? `"${text.replace(/"/g, "\"\"")}"` : text;
}

const csvOf = rows => [COLUMNS, ...rows.map(({ cells }) => cells)]
    .map(cells => `${cells.map(quoted).join(",")}\r\n`).join("");

// The table as an element. `open` is called with the row that is clicked.
function tableOf(rows, open) {
    const body = html("tbody"), more = html("p", { class: "more" });
    const fill = () => {
        body.replaceChildren(...rows.slice(0,
            MOST_ROWS_SHOWN).map(row => html("tr", { class: row.cells[8] },
            ...row.cells.map((value, i) =>
                html("td", typeof value === "number" ? { class: "number" } : {},
                i === 1 ? html("button", { onclick: () => open(row) }, String(value))
                    : String(value))))));
        more.textContent = rows.length > MOST_ROWS_SHOWN
            ? `The first ${MOST_ROWS_SHOWN} of ${rows.length} are shown. The CSV file has all.`
                : "";
    };
    const heads = COLUMNS.map((name, i) => html("th", { scope: "col" }, html("button", { onclick() {
        const head = heads[i], isUp = head.getAttribute("aria-sort") !== "ascending";
        for (const it of heads) it.removeAttribute("aria-sort");
        head.setAttribute("aria-sort", isUp ? "ascending" : "descending");
        rows.sort((one, other) => (isUp ? 1 : -1) * compared(one.cells[i], other.cells[i]));
        fill();
    } }, name)));
    fill();
    return [html("div", { class: "wide", tabindex: 0, role: "group",
        "aria-label": "Table of levels" },
        html("table", {}, html("thead", {}, html("tr", {}, ...heads)), body)), more];
}
