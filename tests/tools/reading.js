// Reads exports as the page does, outside a browser, by the page's scripts, whose names are its arguments: from standard input a JSON list of
// lists of files, each a name and its bytes in base64; to standard output of each list the two texts, in base64, and what is said.
"use strict";
const { readFileSync } = require("fs"), { runInThisContext } = require("vm");
const scripts = process.argv.slice(2);
runInThisContext(scripts.map(it => readFileSync(it, "utf8")).join("\n")
    + "\nglobalThis.reader = { partsOf, readParts, isRow, eachLine, copiesIn };");
const { partsOf, readParts, isRow, eachLine } = globalThis.reader;

// where the levels of a text are: the longest runs of rows
function spansOf(text) {
    const spans = [];
    let isOpen = false;
    eachLine(text, (line, number, at, next) => {
        const is = isRow(line);
        if (is && !isOpen) spans.push({ at, end: next });
        if (is) spans.at(-1).end = next;
        isOpen = is;
    }, text.startsWith("\xef\xbb\xbf") ? 3 : 0);
    return spans;
}

(async () => {
    const made = [];
    for (const files of JSON.parse(readFileSync(0, "utf8"))) {
        const parts = [];
        for (const [name, data] of files) parts.push(...await partsOf(name, new Uint8Array(Buffer.from(data, "base64"))));
        const { text, levels, answers, said } = readParts(parts, spansOf);
        made.push({ levels: Buffer.from(text, "latin1").toString("base64"), titles: levels.map(({ title }) => title),
            answers: Buffer.from(answers, "latin1").toString("base64"), said });
    }
    process.stdout.write(JSON.stringify(made));
})();
