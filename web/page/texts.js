// The texts of the page in the language of the reader.
var Cnum = globalThis.Cnum || {};

(() => {
    'use strict';

    const FIRST = 'en';
    Cnum.FIRST_LANGUAGE = FIRST;
    // A word that is explained, in a text: [the word](the key of its explanation).
    const MARK = /\[([^\]]+)\]\((word_\w+)\)/g;

    // The page has this language from now on.
    Cnum.useLanguage = function (code = FIRST) {
        Cnum.language = code;
        Cnum.texts = Cnum.languages[code].texts;
    };

    const filled = (key, words) => Cnum.texts[key].replace(/\{(\w+)\}/g, (_, name) => words[name]);

    // A text of the page, with these words in it.
    Cnum.say = (key, words = {}) => filled(key, words).replace(MARK, '$1');

    // The same in parts. A word that is explained is an element, which tells the key of its explanation.
    Cnum.marked = function (key, words = {}) {
        const parts = filled(key, words).split(MARK); // a text, a word, its key, a text ..
        const partOf = (it, place) => (place % 3 === 0 ? it : Cnum.element('span', { 'data-word': parts[place + 1] }, it));
        return parts.map(partOf).filter((_, place) => place % 3 < 2);
    };

    // Puts the texts into the elements that name them: what they hold, their names for screen readers, and what
    // an empty field shows.
    Cnum.fillTexts = function () {
        document.documentElement.lang = Cnum.language;
        const withWords = key => Cnum.texts[key].replace(MARK, '<span data-word="$2">$1</span>');
        for (const it of document.querySelectorAll('[data-text]')) it.innerHTML = withWords(it.dataset.text);
        for (const it of document.querySelectorAll('[data-label]')) it.setAttribute('aria-label', Cnum.say(it.dataset.label));
        for (const it of document.querySelectorAll('[data-placeholder]')) it.placeholder = Cnum.say(it.dataset.placeholder);
    };

    Cnum.useLanguage();
})();
