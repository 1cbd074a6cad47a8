// Makes elements of the page.
var Cnum = globalThis.Cnum || {};

(() => {
    'use strict';

    const SVG = 'http://www.w3.org/2000/svg';

    Cnum.setAll = (made, attributes) => {
        for (const name of Object.keys(attributes)) made.setAttribute(name, attributes[name]);
    };

    function filled(made, attributes, children) {
        Cnum.setAll(made, attributes);
        made.append(...children);
        return made;
    }

    Cnum.element = (name, attributes = {}, ...children) => filled(document.createElement(name), attributes, children);
    Cnum.svgElement = (name, attributes = {}, ...children) => filled(document.createElementNS(SVG, name), attributes, children);

    // A table with these heads. Each row is given as its cells; the first cell is the head of the row.
    Cnum.tableOf = (heads, rows, attributes = {}) => {
        const { element } = Cnum;
        const row = ([first, ...cells]) => element('tr', {}, element('th', { scope: 'row' }, first), ...cells.map(it => element('td', {}, it)));
        const top = element('tr', {}, ...heads.map(it => element('th', { scope: 'col' }, it)));
        return element('table', attributes, element('thead', {}, top), element('tbody', {}, ...rows.map(row)));
    };

    // Something that may be wider than the page: it scrolls by itself, with the keyboard too.
    Cnum.wide = (label, content) => Cnum.element('div', { class: 'wide', tabindex: 0, role: 'region', 'aria-label': label }, content);

    // What a button opens and closes. On paper it is open.
    Cnum.disclosure = (label, ...content) => {
        const inner = Cnum.element('div', { class: 'folded' }, ...content);
        const opener = Cnum.button(label, () => {
            const isOpen = !inner.classList.toggle('folded');
            opener.setAttribute('aria-expanded', String(isOpen));
        }, { class: 'opener', 'aria-expanded': 'false' });
        return Cnum.element('div', { class: 'disclosure' }, opener, inner);
    };

    // A button that does something.
    Cnum.button = (label, act, attributes = {}) => {
        const made = Cnum.element('button', { type: 'button', ...attributes }, label);
        made.addEventListener('click', act);
        return made;
    };

    // Does something before the page is printed.
    Cnum.beforePrint = act => {
        window.addEventListener('beforeprint', act);
        window.matchMedia('print').addEventListener('change', ({ matches }) => matches && act());
    };

    // Gives the reader a text or a blob as a file.
    Cnum.offer = (name, content, type) => {
        const place = URL.createObjectURL(new Blob([content], { type }));
        const link = Cnum.element('a', { href: place, download: name });
        link.click();
        setTimeout(() => URL.revokeObjectURL(place), 10000);
    };
})();
