// Shows a result: its total, its levels by the viewer, and what is saved of it.

const MOST_SAID = 200;
// the result that is shown, the viewer of its levels, and the number of the last viewer
const kept = {};
let viewer = null, of = 0;

const totalIn = report => report.slice(report.lastIndexOf("\n", report.length - 2) + 1).trimEnd();
const STATES = { solved: "solved", unsolvable: "proved unsolvable", refused: "refused",
    missing: "without an answer" };

// The numbers of a last line as they are read: "3 levels: 1 solved, 2 refused". Each has its
// colour, and zeros are left out.
function totalWords({ total, ...counts }) {
    const parts = Object.entries(STATES).filter(([status]) => counts[status])
        .map(([status, words]) => html("span", { class: status }, `${counts[status]} ${words}`));
    return [many(total, "level"), ...parts.flatMap((part, i) => [i ? ", " : ": ", part])];
}

// the numbers of a last line, by their words
function countsIn(line) {
    const words = line.split(" "), counts = {};
    for (let i = 0; i < words.length; i += 2) counts[words[i]] = Number(words[i + 1]);
    return counts;
}

// says what was read with a change, or not at all: the latter first
function tellAll(said) {
    const sorted = [...said].sort((a, b) => Boolean(a.isNote) - Boolean(b.isNote));
    const more = sorted.splice(MOST_SAID).length;
    $("told").replaceChildren(...sorted.map(({ place, words, isNote }) =>
        html("li", { class: isNote ? "" : "unread" }, place ? `${place}: ${words}` : words)),
    ...more ? [`and ${more} more`] : []);
}

// Shows a result. If its levels are those that are shown, the open one stays open.
function show(result, areSame) {
    const { names, totals, notes, report, status, took, data } =
        Object.assign(kept, { table: null }, result);
    globalThis.shownData = data;
    $("total").replaceChildren(...inputs.pairs.length ? [`${names[0]}: `] : [],
        ...totalWords(countsIn(totalIn(report))));
    $("said").textContent = $("total").textContent;
    $("total").className = status ? "open" : totals.count ? "fine" : "";
    $("notes").textContent = [...notes, ...took > 1000
        ? [`The program took ${(took / 1000).toFixed(1)} seconds.`] : []].join(" ");
    $("lines").textContent = report;
    $("make").disabled = !totals.missing;
    $("table").open = false;
    $("result").hidden = false;
    draw(areSame ? viewer?.address ?? "" : totals.count === 1 ? "#1" : "");
    tellAll(result.said ?? []);
}

// shows the levels of the result, at an address
function draw(address) {
    viewer?.close();
    of = Math.max(of + 1, Date.now());
    history.replaceState({ of }, "", location.href.replace(/#.*/s, "") + address);
    viewer = mount($("view"), shownData,
        { judge: judged, deadSquares, linkOf: linkToLevel, explain, of,
        heading: false, title: "sokoaudit",
        unanswered: "There is no answer for this level. 'Prove unsolvable levels' looks for a "
            + "proof that it has no solution; 'sokotool find' searches for either." });
}

// takes away what is shown of an earlier run
function hide() {
    $("result").hidden = true;
    $("result").classList.remove("stale");
    viewer?.close();
    viewer = null;
    tellAll([]);
}

// shows what is proved
function explain() {
    $("proof").open = true;
    $("proof").scrollIntoView({ block: "end" });
    $("proof").querySelector("summary").focus({ preventScroll: true });
}

// the cells of a legal level that are dead squares, by the program
async function deadSquares(rows) {
    const said = await judge.ask("dead", { rows });
    return { cells: said.cells ?? [], fault: said.isStopped ? "stopped" : troubleIn(said, judge) };
}

// ---- links, and the table

// a link that opens a level of the result as it is shown
function linkToLevel(level, record, at) {
    const head = /^[^\n\r]*/.exec(textOf(kept.answers.subarray(0, 64)))[0];
    return linkOf(textOfLevel(level), answersOf(record, head),
        at === undefined ? "#1" : `#1:${at}`);
}

// copies a link that opens all levels of the result
async function copyLink(button) {
    const isShort = kept.levels.length + kept.answers.length < 10 * MOST_KEPT;
    const [levels, answers] =
        [kept.levels, kept.answers].map(bytes => new TextDecoder().decode(bytes));
    const link = isShort ? await linkOf(levels, answers) : "";
    if (link) await copy(link, button);
    else button.textContent = "too long for a link: save the page";
}

// shows the table of the result, or of all files
async function showTable() {
    const place = $("table"), results = inputs.pairs.length
        ? inputs.pairs.flatMap(({ result }) => result?.data ? [result] : []) : [kept];
    if (!place.open || kept.table) return;
    const rows = kept.table = await inSlices(tableRows(results));
    const button = html("button",
        { id: "save-csv", onclick: () => save("csv", new Blob([csvOf(rows)])) }, "Save as CSV");
    place.replaceChildren(place.querySelector("summary"), button, ...tableOf(rows, row => {
        if (row.result !== kept && row.result.data !== kept.data) show(row.result, false);
        viewer.go(row.number);
    }));
}

// ---- what is saved

function save(what, blob, name = kept.names[0]) {
    const link = document.createElement("a");
    link.href = URL.createObjectURL(blob);
    link.download = `${baseOf({ name })}.${what}`;
    link.click();
    setTimeout(() => URL.revokeObjectURL(link.href), 60000);
}

// Saves the page of the result: the viewer around its data, with the program that judges.
async function savePage() {
    const scriptOf = (id, type = "") => `<script id="${id}"${type}>${$(id).textContent}<\/script>`;
    const plain = " type=\"text/plain\"",
        more = ["wasm", "texts", "thread"].map(id => scriptOf(id, plain));
    const [above, between, below] = JSON.parse($("saved").textContent);
    const scripts = [scriptOf("game"), scriptOf("viewer"), ...more, scriptOf("threads")].join("\n");
    const parts = [above, `${between}${scripts}\n${below}`], result = textsOf(kept);
    const said = await judge.ask("page", { parts, result });
    if (said.page) save("html", kept.page = said.page, result.names[0]);
    else if (!said.isStopped) complain(troubleIn(said, judge));
}
