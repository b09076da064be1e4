// What is to be audited: a text in the field, or files in its place.

const $ = id => document.getElementById(id);
// the longest text that a browser keeps in a field without delay
const MOST_KEPT = 100000;
const baseOf = ({ name }) => name.replace(/(?!^)\.[^.]*$/, "");

class Inputs {
    // a file of levels in place of the field's, a file of answers, and lists of solutions
    levels = null;
    answers = null;
    lists = [];
    // several files of levels, audited one after the other: { levels, answers, lists, result }
    pairs = [];
    // the files of each drop that the thread hasn't told apart yet
    untold = [];
    get text() {
        return $("levels").value;
    }
    // whether the field has answers alone, which may go with levels in a file
    get hasAnswersAlone() {
        return HEADER.test(this.text) && !HAS_ROW.test(this.text);
    }
    get hasLevels() {
        return Boolean(this.pairs.length || this.levels || this.text.trim()
            && !this.hasAnswersAlone);
    }
    // shows which files there are
    show() {
        const { pairs, levels, answers, lists } = this,
            ofPairs = pairs.filter(it => it.answers).length;
        const files = [levels, ...lists].filter(it => it),
            sized = it => `${it.name}, ${many(it.size, "byte")}`;
        const words = { levels: pairs.length ? many(pairs.length, "levels file")
            : files.length === 1 ? sized(files[0]) : files.map(({ name }) => name).join(", "),
        answers: ofPairs ? many(ofPairs, "answers file") : answers ? sized(answers) : "" };
        for (const kind in words) {
            $(`${kind}-file`).hidden = !words[kind];
            $(`${kind}-file`).querySelector("span").textContent = words[kind];
        }
        $("levels").hidden = Boolean(pairs.length || levels) && !(levels && this.hasAnswersAlone);
    }
    // takes the files away
    remove() {
        Object.assign(this, { pairs: [], levels: null, answers: null, lists: [] });
        $("several").hidden = true;
        this.show();
    }
    // Puts a text into the field, without files. Ctrl+Z brings back what was there, unless that is
    // so long that it takes the browser seconds to keep it.
    write(text) {
        this.remove();
        $("form").open = true;
        const field = $("levels");
        field.focus();
        field.select();
        if (field.value.length <= MOST_KEPT)
            document.execCommand(text ? "insertText" : "delete", false, text);
        if (field.value !== text) field.value = text;
    }
    // Takes the files of a drop by their kinds. Without levels they are for those that are there.
    // Adds what was made from levels to a list, and returns why the files don't go together, or "".
    place(files, kinds, made) {
        // a file replaces the one of its name
        const others = former => former.filter(({ name }) => !files.some(it => it.name === name));
        const again = files.findIndex(it => it.name === this.levels?.name);
        if (kinds[again] === "list") kinds[again] = "levels";
        let [levels, answers, lists] = ["levels", "answers", "list"]
            .map(kind => files.filter((_, i) => kinds[i] === kind));
        made.push(...files.filter((_, i) => kinds[i] === "made").map(({ name }) => name));
        // lists may come before their levels, or stay with mended ones, but don't go with others
        if (!levels.length || !this.hasLevels || levels.length === 1 && kinds[again] === "levels") {
            lists = [...lists, ...others(this.lists)];
        }
        if (!levels.length && this.pairs.length) {
            levels = this.pairs.map(it => it.levels);
            answers = [...answers, ...others(this.pairs.flatMap(it => it.answers ?? []))
                .filter(former => !answers.some(it => baseOf(it) === baseOf(former)))];
            lists = [...lists, ...others(this.pairs[0].lists)];
        }
        const fault = levels.length > 1 || answers.length > 1
            ? this.placePairs(levels, answers, lists)
                : this.placePair(levels[0], answers[0], lists);
        this.show();
        return fault;
    }
    // Takes one file of levels and one of answers, or either. New levels drop the answers of
    // others, but not those of the same file.
    placePair(levels, answers, lists) {
        const areOthers = levels && this.hasLevels && levels.name !== this.levels?.name;
        if (this.pairs.length || areOthers) this.remove();
        if (levels) this.levels = levels;
        if (levels || lists.length) this.lists = lists;
        if (answers) this.answers = answers;
        return "";
    }
    // takes several files of levels, each with the answers of its name
    placePairs(levels, answers, lists) {
        const isOf = answer => it => baseOf(it) === baseOf(answer);
        const ofNone = answers.find(file => !levels.some(isOf(file)));
        if (ofNone) return `${ofNone.name}: no levels file among these has this name.`;
        const twins = answers.map(it => answers.filter(isOf(it))).find(({ length }) => length > 1);
        if (twins) return `${twins[1].name}: ${twins[0].name} is for the same levels file.`;
        this.remove();
        this.pairs = levels.map(file =>
            ({ levels: file, lists, answers: answers.find(isOf(file)) ?? null }));
        return "";
    }
    // What the thread is given: the files of a pair, or what is there; or null if there is nothing.
    // The thread tells levels and answers in the text apart.
    sources({ levels, answers, lists } = this) {
        const text = this.pairs.length ? "" : this.text;
        // of a list alone it is said that it has no level
        if (!levels && !this.hasLevels) [levels = null, ...lists] = lists;
        if (!levels && !this.hasLevels) return null;
        return { levels, answers, lists, text,
            names: [levels?.name ?? "levels", answers?.name ?? "answers"] };
    }
}

const inputs = new Inputs();
