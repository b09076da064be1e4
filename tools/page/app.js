// The page that audits: takes texts, and asks the program's thread.

const INSTEAD = "Use another browser, or the program sokoaudit on Linux, sokoaudit.exe on "
    + "Windows, or 'reference/sokoaudit audit LEVELS ANSWERS', which needs Python alone.";
// the smallest module with a vector of 128 bits, which the program's module has too
const VECTOR = "0061736d010000000105016000017b030201000a080106004100fd0f0b";
const EXAMPLE = `Round the corner
  #####
###   #
#.  $ #
### $.#
  #@  #
  #####
Solution
rruuLLLrdR

A box in a corner
#######
#.    #
#  $  #
# @   #
#  .  #
#$    #
#######

A push too many
#######
#@ $ .#
#######
Solution
rRRR
`;

const KEPT_AS = "sokoaudit";

// ---- runs

const runner = new Thread(words => run.say(words));

// What the user asked for last: its number, what is said while it runs, and since when.
class Run {
    number = 0;
    stage = "";
    began = 0;
    ticking = 0;
    // Ends what runs, of which nothing is shown any more, and says what begins. Returns its number.
    begin(words) {
        if (runner.isBusy) runner.stop();
        this.say(words);
        inputs.untold = [];
        return ++this.number;
    }
    // says what runs, or nothing for ""
    say(words) {
        this.stage = words;
        $("busy").hidden = !words;
        if (!words) {
            clearInterval(this.ticking);
            this.ticking = 0;
            return;
        }
        if (inputs.text !== EXAMPLE || inputs.levels) document.body.classList.remove("welcome");
        if (!this.ticking) {
            this.began = Date.now();
            this.ticking = setInterval(() => this.tick(), 1000);
        }
        $("message").hidden = true;
        $("why").textContent = $("said").textContent = "";
        this.tick();
    }
    tick() {
        const seconds = Math.floor((Date.now() - this.began) / 1000);
        $("busy").querySelector("span").textContent = this.stage
            + (seconds ? `, ${many(seconds, "second")}` : "");
    }
    // Asks the thread for what the user wants now. Returns its answer, or null if the user wanted
    // something else before it came.
    async ask(words, task, values) {
        const mine = this.begin(words), said = await runner.ask(task, values);
        if (mine !== this.number) return null;
        const trouble = troubleIn(said),
            data = trouble || !said.report ? null : await inSlices(dataOf(said));
        if (mine === this.number) this.say("");
        return mine === this.number ? { ...said, trouble, data } : null;
    }
}
const run = new Run();

// Does work in parts, between which the page answers. Returns its value.
async function inSlices(work) {
    let step = work.next();
    while (!step.done) {
        await pause();
        step = work.next();
    }
    return step.value;
}

// ends what runs, and says so
function cancel() {
    const isRunning = !$("busy").hidden;
    run.begin("");
    if (isRunning) $("why").textContent = "Cancelled.";
}

function complain(words) {
    hide();
    $("form").open = true;
    $("message").textContent = words;
    $("message").hidden = false;
    $("why").textContent = faultWords(words);
}

// What an answer of a thread says that is no result, or "". After an error the next task gets a new
// thread.
function troubleIn({ isStart, error, name, fault }, thread = runner) {
    if (!error) return fault ?? "";
    thread.stop();
    if (isStart) return `This browser can't run the program: ${error}. ${INSTEAD}`;
    if (error === "out of memory" || name === "RangeError") return `out of memory. ${INSTEAD}`;
    if (name === "RuntimeError" || name === "InternalError") {
        return `The program stopped, since its stack or its memory was overrun (${error}). `
            + INSTEAD;
    }
    return `The page has a fault (${name}: ${error}). Please report this.`;
}

// shows a result, or what is wrong
function showResult(result, areSame = false) {
    if (!result.trouble) {
        show(result, areSame);
        return;
    }
    complain(result.trouble);
    tellAll(result.said ?? []);
}

function clear(text = "") {
    run.begin("");
    inputs.write(text);
    $("message").hidden = true;
    $("why").textContent = $("said").textContent = "";
    hide();
}

// Takes files: levels, answers and lists of solutions, which the thread tells apart, after the ones
// of drops before that it hasn't told apart yet.
async function take(files) {
    if (!files.length) return;
    // what is dropped isn't for the example
    if (document.body.classList.contains("welcome")) clear();
    const drops = [...inputs.untold, [...files]],
        asked = run.ask("Reading the files", "sort", { drops }), made = [];
    inputs.untold = drops;
    const said = await asked;
    if (!said) return;
    inputs.untold = [];
    if (said.trouble) {
        complain(said.trouble);
        return;
    }
    const faults = drops.map((some, i) => inputs.place(some, said.kinds[i], made));
    if (faults.at(-1)) {
        complain(faults.at(-1));
        return;
    }
    await audit();
    fold();
    if (made.length) $("notes").append(
        ` Left out, since they were made from the levels: ${few(made)}.`);
}

// audits what is there, and shows the result
async function audit() {
    hide();
    kept.pair = null;
    $("several").hidden = !inputs.pairs.length;
    $("each").replaceChildren();
    if (inputs.pairs.length) return auditPairs();
    const sources = inputs.sources();
    if (!sources) {
        run.begin("");
        complain("There is nothing to audit yet: paste or drop levels.");
        return null;
    }
    const result = await run.ask("Auditing", "audit", sources);
    if (result) showResult(result);
    return result;
}

const textsOf = ({ levels, answers, names, slices, said }) =>
    ({ levels, answers, names, slices, said });

// looks for certificates
async function make() {
    const { pair } = kept, result =
        await run.ask("Looking for certificates", "make", textsOf(kept));
    if (!result) return;
    if (pair) pair.result = result;
    showResult(result, true);
    if (pair) tellTotals();
}

// ---- several files

// Audits several files, one after the other, and shows the first of those with open levels.
async function auditPairs() {
    const { pairs } = inputs;
    for (const pair of pairs) pair.result = null;
    for (const [i, pair] of pairs.entries()) {
        const result = await run.ask(`File ${i + 1} of ${pairs.length}`, "audit",
            inputs.sources(pair));
        if (!result) break;
        pair.result = result;
        tellTotals(i + 1 < pairs.length);
    }
    const done = worstFirst(pairs);
    tellTotals();
    if (done.length && inputs.pairs === pairs) showPair(done[0]);
}

// the files that are done: first those without a report, and those with the most open levels
function worstFirst(pairs) {
    const open = ({ result: { trouble, report } }) => {
        const { refused, missing } = trouble ? { refused: Infinity, missing: 0 }
            : countsIn(totalIn(report));
        return refused + missing;
    };
    return pairs.filter(({ result }) => result).sort((one, other) =>
        Number(open(other) > open(one)) - Number(open(other) < open(one)));
}

function showPair(pair) {
    kept.pair = pair;
    showResult(pair.result);
}

// Shows the sum of several files and what became of each. While others run, none can be clicked,
// since a click would end what runs.
function tellTotals(areRunning = false) {
    const done = worstFirst(inputs.pairs), sum = {};
    for (const { result } of done) {
        const counts = result.trouble ? {} : countsIn(totalIn(result.report));
        for (const word in counts) sum[word] = (sum[word] ?? 0) + counts[word];
    }
    $("sum").replaceChildren(`${many(done.length, "file")}, `, ...totalWords({ total: 0, ...sum }));
    $("each").replaceChildren(...done.map(pair => {
        const { result: { trouble, report, said = [] }, levels: { name } } = pair;
        const unread = said.filter(({ isNote }) => !isNote).length;
        const button = html("button", { onclick: () => showPair(pair) }, name);
        button.disabled = areRunning;
        return html("li", {}, button, " ",
            ...trouble ? [trouble] : totalWords(countsIn(totalIn(report))),
            unread ? `, ${many(unread, "remark")}` : "");
    }));
}

// ---- what the user does

// says that the result is of a former text
function spoil() {
    if (!$("result").hidden) $("why").textContent = "The result is of the text before your change.";
    $("result").classList.add("stale");
}

// Folds the form once the text in it is audited, so that the result comes first. A user who typed
// on meanwhile stays in the field.
function fold() {
    if ($("result").hidden || $("result").classList.contains("stale")) return;
    const files = (inputs.pairs.length ? inputs.pairs : [inputs]).flatMap(({ levels }) => levels
        ?? []);
    $("names").textContent = files.length ? few(files.map(({ name }) => name))
        : "open this to change them";
    $("form").open = false;
    $("total").focus();
}

// audits a text that was pasted: answers for a file of levels, or levels
async function takeText(text) {
    const isLong = text.length > MOST_KEPT && !HEADER.test(text) && !INNER_HEADER.test(text);
    if (isLong) await take([new File([text], "levels")]);
    else if (HEADER.test(text) && (inputs.levels || inputs.pairs.length))
        await take([new File([text], "answers")]);
    else {
        clear(text);
        await audit();
        fold();
    }
}

function listen() {
    const on = (id, does) => $(id).addEventListener("click", does), field = $("levels");
    // What is pasted outside of a field replaces what is there. A browser lays out a long text in a
    // field for seconds, so such a one is taken as a file.
    addEventListener("paste", event => {
        const { clipboardData: data, target } = event;
        const isText = !data?.files.length || data.types.includes("text/plain");
        const text = isText ? data?.getData("text/plain") ?? "" : "";
        if (target !== field && target.closest?.("input, textarea")) return;
        if (target === field && isText && text.length <= MOST_KEPT) {
            setTimeout(() => audit().then(fold), 0);
            return;
        }
        event.preventDefault();
        if (!isText) take(data.files);
        else if (text.trim()) takeText(text);
    });
    field.addEventListener("input", spoil);
    field.addEventListener("focus",
        () => document.body.classList.contains("welcome") && field.select());
    for (const kind of ["levels", "answers"]) {
        $(`${kind}-file`).querySelector("button").addEventListener("click", () => {
            cancel();
            if (inputs.pairs.length) inputs.remove();
            else if (kind === "levels") Object.assign(inputs, { levels: null, lists: [] });
            else inputs.answers = null;
            inputs.show();
            spoil();
            field.focus();
        });
    }
    on("audit", async () => {
        await audit();
        fold();
    });
    on("make", async () => {
        await make();
        // the button may be gone, which had the focus
        if ($("make").disabled && !document.activeElement.matches("textarea")) $("total").focus();
    });
    on("cancel", () => {
        cancel();
        $("audit").focus();
    });
    on("save-report", () => save("report", new Blob([kept.report])));
    on("save-levels", () => save("xsb", new Blob([kept.levels])));
    on("save-answers", () => save("answers", new Blob([kept.answers])));
    on("save-page", savePage);
    on("link", event => copyLink(event.target));
    on("choose", () => $("files").click());
    on("clear", () => clear());
    on("example", () => {
        clear(EXAMPLE);
        audit();
    });
    document.querySelector("#proved .why-proved").addEventListener("click", explain);
    $("table").addEventListener("toggle", showTable);
    $("files").addEventListener("change", () => {
        const files = [...$("files").files];
        $("files").value = "";
        take(files);
    });
    addEventListener("keydown", event => {
        if (event.key === "Enter" && (event.ctrlKey || event.metaKey)) $("audit").click();
    });
    addEventListener("hashchange", () => openLink());
    // a level that is opened with Ctrl gets a tab of its own, by a link that has it
    for (const name of ["click", "auxclick"]) addEventListener(name, openBeside);
    takeDrops();
}

// takes the files that are dropped anywhere
function takeDrops() {
    addEventListener("dragover", event => {
        // a field takes a text itself
        if (!event.dataTransfer.types.includes("Files")
            && event.target.closest?.("input, textarea")) return;
        event.preventDefault();
        document.body.classList.add("dropping");
    });
    for (const name of ["dragleave", "drop"])
        addEventListener(name, () => document.body.classList.remove("dropping"));
    addEventListener("drop", event => {
        if (!event.dataTransfer.files.length) return;
        event.preventDefault();
        take(event.dataTransfer.files);
    });
}

async function openBeside(event) {
    const link = event.target.closest?.("#view a[href^='#']"), number = Number(link?.hash.slice(1));
    const isOther = event.ctrlKey || event.metaKey || event.shiftKey || event.button === 1;
    if (!number || !isOther) return;
    event.preventDefault();
    const level = shownData.levels[number - 1];
    const address = await linkToLevel(level, shownData.records[number]);
    if (address) window.open(address);
    else viewer.say("The level is too long for a link.");
}

function canRun() {
    const bytes = Uint8Array.from(VECTOR.match(/../g), it => parseInt(it, 16));
    return typeof WebAssembly === "object" && WebAssembly.validate(bytes);
}

// opens the levels that the address has, and returns whether it has any
async function openLink() {
    const [, number, at, words] = LINK.exec(location.hash) ?? [];
    if (!words) return false;
    const text = await unpacked(words).catch(() => "");
    clear(text);
    if (!text) {
        complain("The link is cut or broken: ask for it once more.");
        return true;
    }
    const result = await audit();
    fold();
    if (!result?.data) return true;
    draw(number ? `#${number}${at ? `:${at}` : ""}` : "");
    return true;
}

// keeps the text of the field for this tab, or returns what was kept; a browser may forbid both
function keep() {
    try {
        sessionStorage.setItem(KEPT_AS, inputs.text === EXAMPLE ? "" : inputs.text);
    } catch {}
}
function keptText() {
    try {
        return sessionStorage.getItem(KEPT_AS) ?? "";
    } catch {
        return "";
    }
}

// Shows the example to whoever opens the page, with a certificate for its unsolvable level. A text
// that was in the field before a reload, or before the browser went back here, is audited in its
// place.
async function welcome() {
    if (await openLink()) return;
    const [{ type }] = performance.getEntriesByType("navigation");
    if (type !== "navigate") $("levels").value = keptText();
    if (inputs.text.trim()) {
        await audit();
        fold();
        return;
    }
    $("levels").value = EXAMPLE;
    document.body.classList.add("welcome");
    const result = await audit();
    if (result && document.body.classList.contains("welcome")) await make();
}

if (canRun()) {
    listen();
    addEventListener("pageshow", welcome, { once: true });
    addEventListener("pagehide", keep);
} else {
    complain("This browser has no WebAssembly with vectors, which the program needs here. "
        + INSTEAD);
}
