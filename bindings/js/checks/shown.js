// Returns, run in the page, what it shows and copies for each reading and text of its argument, and the marks of the axis.
const $ = id => document.getElementById(id), texts = nodes => [...nodes].map(node => node.textContent);
let copied = [], marks = null;
navigator.clipboard.writeText = async text => { copied.push(text); };
// The middle of an element on the axis, in percent of it, from 1 B to 1 RB.
const placeOf = element => {
    const axis = document.querySelector("#scale .axis").getBoundingClientRect(), box = element.getBoundingClientRect();
    return 100 * (box.left + box.width / 2 - axis.left) / axis.width;
};
const rows = table => [...table.querySelectorAll("tbody tr")].map(row =>
    [row.className, row.querySelector("th").firstChild.data, ...texts(row.querySelectorAll("td"))]);
const shown = arguments[0].map(([reading, text]) => {
    document.querySelector(`[value=${reading}]`).checked = true;
    $("text").value = text;
    $("form").dispatchEvent(new Event("input"));
    copied = [];
    document.querySelectorAll("[data-copy]").forEach(button => button.hidden || button.click());
    if (!$("of-size").hidden)
        marks ??= [...document.querySelectorAll("#scale span:not(.label)")].map(
            mark => [mark.textContent, mark.className, placeOf(mark), placeOf(mark.nextSibling)]);
    const size = $("of-size").hidden ? {} : {
        units: [...$("units").querySelectorAll("table")].map(table => [table.caption.textContent, rows(table)]),
        label: document.querySelector("#scale .label").textContent,
        axis: $("scale").getAttribute("aria-label"),
        place: placeOf(document.querySelector("#scale .here")),
        placeOfLabel: placeOf(document.querySelector("#scale .label")),
    };
    return { answer: texts($("answer").children), mark: document.querySelector("mark")?.textContent ?? null, copied,
        invalid: $("text").getAttribute("aria-invalid"), rules: rows($("rules")), ...size };
});
return [shown, marks];
