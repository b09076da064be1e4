// What the words of a report line and of a fault mean, in the sentences of sokotool's messages.py.

// The two sentences on some words, what they mean and what to do, or "".
function sentencesOn(key) {
    return Object.hasOwn(WORDS, key) ? WORDS[key].join(" ").trim() : "";
}

// the sentences on the words of a report line after 'refused', or ""
const refusalWords = ([what, ...more]) =>
    sentencesOn([what, ...more.filter(it => /^[a-z]{2,}$/.test(it))].join(" "));

// the sentences on a fault, or ""
const faultWords = fault => sentencesOn(fault.replace(/ line \d+/, ""));
