// The page as a file that holds a table and a run. Only the page in one file can be saved so: it has all of
// its parts in its own text.
var Cnum = globalThis.Cnum || {};

(() => {
    'use strict';

    // Takes the page as it is before anything is shown in it. Gives the function that makes the text of the
    // file with a link in it, whose title is the name of the type; or null if the page has parts elsewhere.
    Cnum.pageToSave = function () {
        if (document.querySelector('script[src]')) return null;
        const whole = document.documentElement.cloneNode(true);
        return (link, name) => {
            const copy = whole.cloneNode(true);
            copy.dataset.link = link;
            if (name) copy.querySelector('title').textContent = name;
            return `<!doctype html>\n${copy.outerHTML}\n`;
        };
    };

    // The link that a file of this kind holds, or an empty text.
    Cnum.savedLink = () => document.documentElement.dataset.link || '';
})();
