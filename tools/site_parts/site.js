"use strict";
// The search of the site. The index is a script, so that it loads without a server, and it loads when it is first needed.
// `?search=WORDS` after the address of a page searches at once.

const siteRoot = document.currentScript.dataset.root;
const field = document.getElementById("site-search");
const results = document.getElementById("site-results");
const text = document.getElementById("site-text");
const mostResults = 50;

// Calls `then` once the index is loaded.
function withIndex(then) {
    if (typeof searchIndex !== "undefined") {
        then();
        return;
    }
    const script = document.createElement("script");
    script.src = siteRoot + "search_index.js";
    script.onload = then;
    document.head.append(script);
}

// Returns how well a word of the index matches a word of the question: 3 if they are equal, 2 if the word of the index begins with
// the word of the question, 1 if it contains it, 0 otherwise.
function match(word, wanted) {
    if (word === wanted) {
        return 3;
    }
    const place = word.indexOf(wanted);
    return place === 0 ? 2 : place > 0 ? 1 : 0;
}

// Returns the score of each section that has a word that matches. A match in the title of a section counts more.
function scoresOf(wanted) {
    const scores = new Map();
    for (const [word, places] of Object.entries(searchIndex.words)) {
        const value = match(word, wanted);
        if (value === 0) {
            continue;
        }
        for (const place of places) {
            const inTitle = searchIndex.sections[place][1].toLowerCase().includes(word);
            const score = inTitle ? value * 10 : value;
            scores.set(place, Math.max(score, scores.get(place) || 0));
        }
    }
    return scores;
}

// Returns 100 if the title of a section is the question, 10 if it begins with the question, and 0 otherwise.
function titleScore(title, question) {
    if (title === question) {
        return 100;
    }
    return title.startsWith(question) ? 10 : 0;
}

// Returns the sections that have all words of a question, the best first.
function find(question) {
    const wanted = question.match(/[\p{L}\p{N}_]+/gu) || [];
    const scores = wanted.map(scoresOf);
    const bonus = (place) => titleScore(searchIndex.sections[place][1].toLowerCase(), question);
    const total = (place) => scores.reduce((sum, it) => sum + it.get(place), bonus(place));
    const places = scores.length === 0 ? [] : [...scores[0].keys()];
    return places
        .filter((place) => scores.every((it) => it.has(place)))
        .sort((a, b) => total(b) - total(a) || a - b)
        .map((place) => searchIndex.sections[place]);
}

// Returns the entry of the list of results for a section.
function entry([link, title, page]) {
    const item = document.createElement("li");
    const anchor = document.createElement("a");
    anchor.href = siteRoot + link;
    anchor.textContent = title;
    anchor.addEventListener("click", close);
    const place = document.createElement("small");
    place.textContent = title === page ? "" : " " + page;
    item.append(anchor, place);
    return item;
}

// Shows the text of the page again.
function close() {
    field.value = "";
    show();
}

// Shows the results for the words in the search field in place of the text.
function show() {
    const question = field.value.trim().toLowerCase();
    results.hidden = question.length < 2;
    text.hidden = !results.hidden;
    if (results.hidden) {
        return;
    }
    withIndex(() => {
        const found = find(question);
        const heading = document.createElement("h1");
        const list = document.createElement("ol");
        heading.textContent = found.length === 1 ? "1 result" : `${found.length} results`;
        if (found.length > mostResults) {
            heading.textContent += `, the first ${mostResults} shown`;
        }
        list.append(...found.slice(0, mostResults).map(entry));
        results.replaceChildren(heading, list);
    });
}

// Scrolls the navigation to the entry of this page.
function showEntry() {
    const header = document.querySelector("header");
    const current = document.querySelector("nav [aria-current]");
    if (current) {
        header.scrollTop = current.offsetTop - header.clientHeight / 2;
    }
}

showEntry();
field.addEventListener("input", show);
document.addEventListener("keydown", (event) => {
    if (event.key === "Escape") {
        close();
    } else if (event.key === "/" && document.activeElement !== field) {
        event.preventDefault();
        field.focus();
    }
});
const asked = new URLSearchParams(location.search).get("search");
if (asked) {
    field.value = asked;
    show();
}
