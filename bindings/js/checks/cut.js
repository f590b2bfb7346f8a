// Returns, run in the page, up to three of what a reader does not see whole: elements whose content is wider than they
// are, elements beyond the window, and groups of digits that lie in two lines. A text field, which scrolls, is none.
const all = [...document.querySelectorAll("body, body *:not(script, input)")];
const right = document.documentElement.clientWidth;
const wide = all.filter(element => element.clientWidth > 0 && element.scrollWidth > element.clientWidth);
const beyond = all.filter(element => {
    const box = element.getBoundingClientRect();
    return box.width > 0 && (box.left < -0.5 || box.right > right + 0.5);
});
// The texts of numbers are groups of digits, each a node; an error quotes its text, which may be broken anywhere.
const texts = all.filter(element => !element.closest(".wrong, pre")).flatMap(element => [...element.childNodes])
    .filter(node => node.nodeType === Node.TEXT_NODE && /^[\d.]+\u202f?$/.test(node.data));
const broken = texts.filter(node => {
    const range = document.createRange();
    range.selectNodeContents(node);
    return new Set([...range.getClientRects()].map(box => Math.round(box.top))).size > 1;
});
return [...wide, ...beyond, ...broken].map(node => `${node.nodeName} ${node.textContent.slice(0, 60)}`).slice(0, 3);
