// The words of the subject, explained where they stand: the first place of each word that a text marks becomes a
// button that opens a short explanation.
var Cnum = globalThis.Cnum || {};

(() => {
    'use strict';

    const { element, say } = Cnum;
    let count = 0;

    // A word as a button, with its explanation, which is closed at first.
    function noteFor(word, key) {
        const note = element('span', { class: 'note', id: `note-${++count}`, hidden: '' }, say(key));
        const made = Cnum.button(word, () => {
            note.hidden = !note.hidden;
            made.setAttribute('aria-expanded', String(!note.hidden));
        }, { class: 'word', 'aria-expanded': 'false', 'aria-controls': note.id });
        return [made, note];
    }

    // Explains the words in this place, each once.
    Cnum.explainWords = function (place) {
        const explained = new Set();
        for (const it of place.querySelectorAll('[data-word]')) {
            const { word } = it.dataset;
            it.replaceWith(...(explained.has(word) ? [it.textContent] : noteFor(it.textContent, word)));
            explained.add(word);
        }
    };
})();
