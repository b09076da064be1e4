// Finds the rows of levels in lines: plain, run-length coded, quoted, in a table or in one line.
// Makes them plain.

const MOST_ROWS = 65536, LONGEST_LINE = 20000, LONGEST_STRING = 1000, LONGEST_JOINED = 1 << 20,
    MOST_BLANKS = 64;
const CELL = "#-@+$*._ 0123456789bBpPo()", CELLS = /^[-#@+$*._ 0-9bBpPo()]*$/;
const PIECES = { b: "$", B: "*", p: "@", P: "+", o: "." }, MAZE = { X: "#", "*": "$", "&": "*" };
// what ends a line although it is no end of one to an editor; the last parts begin and end rows in a
// web page and in XML
const INNER_BREAK = "[\\v\\f\\x85\\u2028\\u2029\\ufeff]|</?pre\\b[^<>\\n]*>|<!\\[CDATA\\[|\\]\\]>";
const BREAK = new RegExp(`(\\r{0,2}\\n(?:\\r(?!\\n))?|\\r)|${INNER_BREAK}`, "gi"),
    IS_BROKEN = new RegExp(`\\r(?!\\n)|${INNER_BREAK}`, "i");
// what parts the rows of a level that stands in one line
const ROW_ENDS = ["|", "\\n", "\",\"", "\", \"", "','", "', '", "/", "!"];
const OTHER_GAME = new RegExp("^\\W*(?:type|variant|game)\\s*[:=]\\s*"
    + "(\\w*(?:(?:hex|tri|octo|multi|num|modo)\\w*ban|sokomind|hexagon|triang)\\w*)", "i");

// The lines of a text with their numbers. Some breaks are none to an editor, and have no number. Of
// many blank lines in a row only the first are kept, because a text may have millions.
function numbered(text) {
    const lines = [], find = new RegExp(BREAK);
    let number = 1, at = 0, blanks = 0;
    const put = line => {
        blanks = line ? 0 : blanks + 1;
        if (blanks <= MOST_BLANKS) lines.push({ number, line });
    };
    for (let it; it = find.exec(text);) {
        put(text.slice(at, it.index));
        at = find.lastIndex;
        if (it[1]) number++;
        if (blanks <= MOST_BLANKS) continue;
        for (; text.charCodeAt(at) === 10; at++) number++;
        find.lastIndex = at;
    }
    if (at < text.length) put(text.slice(at));
    return lines;
}

// ---- one line

const isEnclosed = row => row.length < MOST_ROWS && /^[-_ ]*#/.test(row) && /#[-_ ]*$/.test(row);
const isWalls = rows => rows.every(row => !/[@+$*.]/.test(row));
// a line without the marks of terminals, HTML and forums
const untagged = line => /[<[&`\x1b]/.test(line)
    ? unescaped(line.replace(/\x1b\[[\d;]*m/g, "").replace(/<br *\/?>(?=.)/gi, "|")
    .replace(/<\/?[A-Za-z!][^<>]*>|\[\/?[A-Za-z]+\]|^\s*```|```\s*$/g, "")) : line;
// a line with plain characters for those that some programs put in their place
const narrow = line => /[^\0-\x7f]/.test(line)
    ? line.replace(/[\u200b-\u200d\u2060\u00ad\ufe0e\ufe0f]/g, "").replace(/[\u2010-\u2012\u2212]/g,
        "-").replace(/\u2588/g, "#").normalize("NFKC") : line;

// A text with its run-length coding written out, such as rrr for 3r, and rUrU for 2(rU); null if it
// is wrong or gets too long.
function expanded(text, most) {
    for (let round = 0; /[0-9()]/.test(text); round++) {
        const before = text;
        let length = 0;
        text = text.replace(/(\d*)\(([^()\d]*)\)|(\d+)([^()\d])/g,
            (_, times, group, count, one) => {
            const some = group ?? one, number = Number(times || count || 1);
            length += some.length * number;
            return length > most ? "" : some.repeat(number);
        });
        if (length > most || text === before || round > 20) return null;
    }
    return text;
}

// The rows that coded parts of a line are, or null.
function spelled(parts) {
    const line = parts.join("|");
    if (/\d/.test(line) && (/ /.test(line.trim()) || /(?<!\d)[01](?!\d)|(?<!\d)0/.test(line))
        || /^[#\d]*#\d[#\d]*$/.test(line)) return null;
    const rows = expanded(line, MOST_ROWS)?.replace(/[bBpPo]/g,
        it => PIECES[it]).split("|").filter(row => row.trim());
    return rows?.length && rows.every(isEnclosed)
        && rows.some(row => row.trim().length > 2) ? rows.map(row => row.trimEnd()) : null;
}

// the characters of coded rows at the end of a text
function cellsAtEnd(text) {
    let at = text.length;
    while (at && CELL.includes(text[at - 1])) at--;
    const cells = text.slice(at), before = text.slice(0, at);
    // A blank after other words is none of a row.
    if (/["'`]\s*$/.test(before)) return cells;
    if (/\d/.test(cells)) return cells.slice(cells.lastIndexOf(" ") + 1);
    return before ? cells.trimStart() : cells;
}

const KEYED_TITLE = /["'](?:title|name)["']\s*:\s*(["'])(.+?)\1/i,
    TITLE_LINE = new RegExp(`^\\W*?${KEYED_TITLE.source},?\\s*$`, "i");

// What is beside the levels in a line, given the text around each: their titles, if keys name them
// or a field of a table has one, the text that is kept, and the words that are neither the name of a
// list nor a key.
function besideIn(around) {
    const keyed = around.map(it => [...it.matchAll(new RegExp(KEYED_TITLE, "gi"))]);
    // the title of a level is above it, or below it if none is above the first one
    const isAbove = keyed[0].length > 0, last = around.length - 1;
    const named = keyed.map((it, i) => isAbove ? i < last ? it.at(-1) : null : i ? it[0] : null);
    const texts = around.map((it, i) => named[i] ? it.replace(named[i][0], () => "") : it),
        rest = texts.join(" ");
    const isList = BEFORE.test(around[0].replace(/["'`]\s*$/, "")), head = isList ? "" : texts[0];
    const words = [head, ...texts.slice(1)].join(" ").replace(/(["'])\w+\1\s*:/g, "");
    if (named.some(it => it)) {
        const titles = named.map(it => it?.[2] ?? "");
        return { titles: isAbove ? titles.slice(0, -1) : titles.slice(1), rest: rest.trim(), words };
    }
    if (around.length > 2) return { titles: [], rest: rest.trim(), words };
    const fields = `${head}\t${texts[1]}`.split(/[\t;,|]/).map(it => it.trim())
        .filter(it => /\p{L}/u.test(it) && /[^\dlurdLURD() \t"'`]/.test(it)
            && !/^(["'])\w+\1\s*:/.test(it));
    // of several fields the one in quotes
    const some = fields.length === 1 ? fields
        : fields.filter(it => it[0] === it.at(-1) && "\"'`".includes(it[0]));
    const title = some.length === 1 ? some[0].replace(/^[\s"'`]+|[\s"'`]+$/g, "") : "";
    if (!title || /[:={}<>()[\]]/.test(title)) return { titles: [], rest: rest.trim(), words };
    return { titles: [title], rest: rest.replace(title, () => "").trim(),
        words: fields.length === 1 ? "" : words.replace(title, () => "") };
}

// The levels within one line, as in a table, between other words: their rows, with a blank one
// between two levels, and what is beside them.
function joinedIn(line) {
    for (const mark of ROW_ENDS) {
        const parts = line.split(mark), rows = [], around = [""];
        for (let first = 0, last; first < parts.length; first = last) {
            const begin = cellsAtEnd(parts[first]);
            last = first + 1;
            while (begin.includes("#") && last < parts.length - 1 && parts[last].includes("#")
                && CELLS.test(parts[last])) last++;
            const end = /^[-#@+$*._ 0-9bBpPo()]*/.exec(parts[last] ?? "")[0];
            // a cell of a table has a blank on both sides
            const isCell = first && begin === parts[first] && begin[0] === " " && end.endsWith(" ");
            const some = [begin.slice(isCell ? 1 : 0), ...parts.slice(first + 1, last),
                end].filter(it => it.includes("#"));
            const found = some.length > 2 && begin.includes("#") ? spelled(some) : null;
            around[around.length - 1] += found ? parts[first].slice(0, -begin.length)
                : parts.slice(first, last).join(mark) + (last < parts.length ? mark : "");
            if (!found) continue;
            rows.push(...rows.length ? [""] : [], ...found);
            around.push("");
            if (end.includes("#")) parts[last] = parts[last].slice(end.length);
        }
        if (rows.length) return { kind: "joined", lead: "", rows, ...besideIn(around) };
    }
    return null;
}

// A row with something beside it.
const BESIDE = new RegExp("^\\s*[\"'|`]?([-_ ]*#[-#@+$*._ ]*?#)[-_ ]*"
    + "(?:(?:\\\\n)?[\"'|`]?[,;\\\\]*|\\s+(?:<|;|//|\\(|!|\\u2190).*)$");
// A row in a string of a program. Before it may be a comma, the mark of a list, and for the first
// row of a level a name; but no comment.
const STRING = /^(.*?)(["'`])([-#@+$*._ ]+)(?:\\r)?(?:\\n)?\2([^\w"'`]*)$/;
const BEFORE =
    /^(?!\s*(?:[;#]|\/\/))[^\w"'`]*(?:[^"'`]*[=:({[]\s*|("|')\w+\1\s*:[^\w"'`]*)?[rbfuRBFU]?$/;
const KEYED = new RegExp(`^[A-Za-z]\\w{0,15} ?= ?(${ROW})$`);
const BETWEEN_ROWS = /^[^\w({["'`]*[rbfuRBFU]?$/;
// the tag of a row in SokoSolve, and what its characters are
const TAGGED = /^\s*<Row>([~#.OXP$*]+)<\/Row>\s*$/,
    SOKOSOLVE = { "~": " ", ".": " ", O: ".", X: "$", P: "@", "$": "*", "*": "+" };

// The first or the last row of a level in a cell of a table, with what is beside it, or null.
function cellIn(line) {
    const [before, after, ...more] = line.split("\""), row = { kind: "plain", lead: "", words: "" };
    if (after === undefined || more.length) return null;
    if (isRow(after) && /(?:^|[\t,;])$/.test(before))
        return { ...row, rows: [after], begins: true, ...besideIn([before, ""]), words: "" };
    return isRow(before) && /^(?:[\t,;]|$)/.test(after)
        ? { ...row, rows: [before], ends: true, rest: after } : null;
}

// The row that a line has as a string, or as the value of a key, or null. `lead` is its mark, since
// the rows of a level are strings of the same kind.
function stringIn(line) {
    const keyed = KEYED.exec(line);
    if (keyed) return { kind: "string", rows: [keyed[1]], lead: "=" };
    const [, before, mark, row, after] = STRING.exec(line) ?? [];
    return row?.includes("#") && BEFORE.test(before)
        ? { kind: "string", rows: [row], lead: mark, begins: !BETWEEN_ROWS.test(before),
            ends: /[\])};]/.test(after) } : null;
}

// The row that a line may be: { kind, rows, lead }, or null. A bare line has no marks of other
// programs left.
function rowIn(line, isBare = false) {
    if (!/[#&\uff03\u2588]/.test(line) || /^\s*::/.test(line)) return null;
    if (IS_PLAIN.test(line)) return { kind: "plain", rows: [line], lead: "" };
    if (line.length > LONGEST_LINE) return line.length > LONGEST_JOINED ? null : joinedIn(line);
    const lead = /^(?:\t+|: (?=[-_ ]*#)|(?:> ?)+)?/.exec(line)[0],
        core = line.slice(lead.length).trimEnd();
    if (IS_PLAIN.test(core)) return { kind: "plain", rows: [core], lead };
    if (CELLS.test(core)) {
        const rows = spelled([core]);
        return rows && { kind: "coded", rows, lead };
    }
    const end = core.endsWith("|") && !core.startsWith("|")
        && CELLS.test(core.replace(/\|/g, "")) ? spelled(core.split("|").filter(it => it)) : null;
    if (end) return { kind: "joined", rows: end, lead, goesOn: true };
    const marked = core.replace(/^[~x^ ]+(?=#)|(?<=#)[~x^ ]+$/g, it => " ".repeat(it.length));
    if (marked !== core && IS_PLAIN.test(marked))
        return { kind: "marked", rows: [marked.trimEnd()], lead };
    const string = core.length < LONGEST_STRING ? stringIn(core) ?? cellIn(core) : null,
        beside = string ? null : BESIDE.exec(core);
    if (string) return string;
    if (beside) return { kind: "beside", rows: [beside[1]], lead: "" };
    const bare = isBare ? line : narrow(untagged(line));
    return bare !== line ? rowIn(bare, true) : joinedIn(core);
}

// ---- the lines of a part

// Sets the row of each line that may be one. A game with other letters and a comment are known by
// their own lines.
function rowsOfLines(lines, faults) {
    const isSokoSolve = lines.some(({ line }) => /^\s*<Row>[^<]*[OXP]/.test(line));
    let isMaze = false, comment = -1;
    for (const [at, it] of lines.entries()) {
        const { line, number } = it, game = OTHER_GAME.exec(line);
        it.row = rowIn(line);
        isMaze ||= /^\s*Maze:\s*\d+/i.test(line);
        if (isMaze && /X/.test(line) && /^[X *.&@+]*$/.test(line)) {
            it.row = { kind: "plain", lead: "maze",
                rows: [line.trimEnd().replace(/[X*&]/g, one => MAZE[one])] };
        }
        const tagged = isSokoSolve ? TAGGED.exec(line) : null;
        if (tagged) it.row = { kind: "plain", lead: "tagged",
            rows: [tagged[1].replace(/[~.OXP$*]/g, one => SOKOSOLVE[one])] };
        if (game) faults.push({ number,
            words: `names another game, ${game[1]}: its levels are judged by the rules of `
                + "Sokoban here" });
        if (line.startsWith("<<<<<<< "))
            faults.push({ number, words: "an unsolved conflict of git" });
        if (/^[\s;]*comment[\s:;]*$/i.test(line)) comment = at;
        if (comment >= 0 && /^[\s;]*comment[-_ ]end/i.test(line)) {
            for (; comment < at; comment++) Object.assign(lines[comment],
                { row: null, isComment: true });
            comment = -1;
        }
    }
}

// Finds which lines of a part are rows, in place: `row` of a line stays, and `starts` is set for
// the first of a level. What isn't read is a fault.
function findRows(part) {
    const lines = part.lines ??= numbered(part.text), { faults } = part;
    const goesOn = ({ row }, { row: next }) => row && next && row.lead === next.lead && !row.ends
        && !next.begins
        && (row.goesOn || row.kind !== "joined" && next.kind !== "joined");
    const isHeading = ({ row }) => row.kind === "coded" && !isWalls(row.rows);
    rowsOfLines(lines, faults);
    for (let first = 0, end; first < lines.length; first = end) {
        for (end = first + 1; end < lines.length && goesOn(lines[end - 1], lines[end]);) end++;
        if (!lines[first].row) continue;
        if (end === first + 1) end = endOfApart(lines, first, goesOn, faults);
        let last = end - 1;
        while (first < last && isHeading(lines[first])) lines[first++].row = null;
        while (last > first && isHeading(lines[last])) lines[last--].row = null;
        findLevel(lines, first, last, faults);
    }
    for (const [at, { number, line, row, isComment }] of lines.entries()) {
        const isNear = lines[at - 1]?.row && lines[at + 1]?.row;
        if (row || isComment || !isRowLike(line, isNear)) continue;
        faults.push({ number,
            words: `looks like a row and isn't read as one: ${line.trim().slice(0, 40)}` });
    }
    faults.sort((a, b) => a.number - b.number);
}

// The end of a level whose rows are a line apart, each alone; otherwise that of its first row. One
// row alone is never a level.
function endOfApart(lines, first, goesOn, faults) {
    const isNext = at => lines[at + 1]?.line.trim() === "" && lines[at + 2]
        && goesOn(lines[at], lines[at + 2]) && !lines[at + 3]?.row;
    let last = first;
    while (isNext(last)) last += 2;
    if (last < first + 4) return first + 1;
    for (let at = first + 1; at < last; at += 2) lines[at].isLeftOut = true;
    faults.push({ number: lines[first].number, words: "blank lines between rows were left out",
        isNote: true });
    return last + 1;
}

// Decides whether a run of rows is a level.
function findLevel(lines, first, last, faults) {
    const run = lines.slice(first, last + 1).filter(({ row }) => row),
        [{ row: { kind }, number }] = run;
    const count = run.reduce((sum, { row }) => sum + row.rows.length, 0);
    const areFew = (kind === "string" || run.length === 1 && kind !== "plain") && count < 3;
    const areWalls = !areFew && run.every(({ row }) => isWalls(row.rows));
    if (areWalls) {
        const isAlone = run.length === 1
            && [first - 1, last + 1].every(at => !lines[at]?.line.trim());
        faults.push({ number, words: "walls alone, and no level", isNote: isAlone });
    }
    if (areFew || areWalls) for (const it of run) it.row = null;
    else lines[first].starts = true;
    // a bullet, or the mark of a patch
    const mark = /^(?:[*.] |\+)/.exec(run[0].row?.rows[0])?.[0];
    if (run.length > 2 && mark
        && run.every(({ row }) => row?.rows.every(it => it.startsWith(mark)))) {
        for (const { row } of run) row.rows = row.rows.map(it => it.slice(mark.length));
        const what = mark === "+" ? "the + of a patch" : "a bullet";
        faults.push({ number, words: `each row has ${what} in front, which is left out`,
            isNote: true });
    }
}

// Whether a line that isn't read may be meant as a row, or as levels in another form.
function isRowLike(line, isNear) {
    const core = line.replace(/^[\s"',;()|>]+|[\s"',;()|]+$/g, "");
    if (isNear && /^(.)(?!\1*$)/.test(core)
        && (IS_PLAIN.test(core) || core.includes("#") && !/^;/.test(line))) return true;
    if (/^(?![2468]*$)\d{5,}$|^(?=.*\d)(?=.*[A-Z])[A-Za-z0-9+\/]{60,}={0,2}$/.test(core)
        || /^([^\s\w#;=~*.:-])\1{3,}$/.test(core)) return true;
    if (/^X[X@$.*+ _-]*[@$.*+][X@$.*+ _-]*X$/.test(core)) return true;
    if (core.split("#").length < 3 || !/^\d*#|#$|##/.test(core) || /^(?:;|::)/.test(line))
        return false;
    const words = core.replace(/^[#= *\t-]+|[#= *\t-]+$/g, "");
    if (words && !words.includes("#") && /^[\w("'][\w .,:;'"!?()&\/-]*$/.test(words)
        && /\w/.test(words)) return false;
    return 3 * core.replace(/[^-#@+$*._ \t0-9|bBpPo()~x^]/g, "").length >= 2 * core.length
        && !/^#+$/.test(core);
}
