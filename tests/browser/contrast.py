"""Which texts of a page are too pale to read, by the level AA of WCAG 2."""
from typing import List

from selenium import webdriver

PALE = """
const linear = (part) => part / 255 <= 0.03928 ? part / 255 / 12.92 : ((part / 255 + 0.055) / 1.055) ** 2.4;
const light = (color) => {
    const [red, green, blue] = color.match(/[\\d.]+/g).map(Number).map(linear);
    return 0.2126 * red + 0.7152 * green + 0.0722 * blue;
};
const behind = (one) => {
    for (; one; one = one.parentElement) {
        const color = getComputedStyle(one).backgroundColor;
        if (!/, 0\\)$/.test(color)) return color;
    }
    return 'rgb(255, 255, 255)';
};
const isText = (one) => [...one.childNodes].some((node) => node.nodeType === 3 && node.data.trim());
const isShown = (one) => one.offsetParent !== null && !one.closest('.CodeMirror, select, option') && !one.disabled;
const isPale = (one) => {
    const [most, least] = [light(getComputedStyle(one).color), light(behind(one))].sort((x, y) => y - x);
    return (most + 0.05) / (least + 0.05) < 4.5;
};
const shown = [...document.querySelectorAll('body *')].filter((one) => isShown(one) && isText(one));
return shown.filter(isPale).map((one) => one.outerHTML.slice(0, 80))"""


def pale_texts(page: webdriver.Chrome) -> List[str]:
    """Returns the beginnings of elements whose text has less than 4.5 times the contrast
    of what stands behind."""
    return list(page.execute_script(PALE))
