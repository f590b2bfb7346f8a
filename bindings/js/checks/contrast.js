// Returns, run in the page, up to three elements with text whose contrast is below 4.5, the least of WCAG's level AA.
// The relative luminance of a color, from 0 to 1, as WCAG defines it.
const luminance = color => {
    const [red, green, blue] = color.match(/[\d.]+/g).slice(0, 3).map(part => {
        const share = part / 255;
        return share <= 0.04045 ? share / 12.92 : ((share + 0.055) / 1.055) ** 2.4;
    });
    return 0.2126 * red + 0.7152 * green + 0.0722 * blue;
};
// The color behind an element: that of the nearest one around it whose background is not transparent, or white.
const background = element => {
    for (let at = element; at; at = at.parentElement) {
        const color = getComputedStyle(at).backgroundColor;
        if (!/, 0\)$/.test(color))
            return color;
    }
    return "rgb(255, 255, 255)";
};
// The contrast of an element's text, from 1 to 21, as WCAG defines it.
const contrast = element => {
    const [less, more] = [luminance(getComputedStyle(element).color), luminance(background(element))].sort((a, b) => a - b);
    return (more + 0.05) / (less + 0.05);
};
return [...document.querySelectorAll("p, th, td, label, legend, caption, span, button, mark, small, h1, h2")]
    .filter(element => element.textContent.trim() && element.offsetParent && contrast(element) < 4.5)
    .map(element => element.outerHTML.slice(0, 80)).slice(0, 3);
