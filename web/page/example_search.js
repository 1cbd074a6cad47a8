// The search over the examples: by their names, by the words of engineers, by what is said of them, and by their numbers.
var Cnum = globalThis.Cnum || {};

(() => {
    'use strict';

    const { element, say } = Cnum;

    // A text as it is compared: a dash, an underscore and a space are the same.
    const plain = text => text.toLowerCase().replace(/[-_/\s]+/g, ' ');

    const nameOf = path => path.split('/').pop();
    const inLanguage = said => said[Cnum.language] || said[Cnum.FIRST_LANGUAGE];

    // From now on a text of this key is in the language of the reader; all its languages stand under another key.
    function translate(it, key, all) {
        it[all] = it[key];
        Object.defineProperty(it, key, { get: () => inLanguage(it[all]) });
    }

    for (const group of Cnum.examples) {
        translate(group, 'name', 'names');
        for (const example of group.types) translate(example, 'about', 'said');
    }

    // The words of engineers, each with the names of the examples that it finds, the best first.
    const WORDS = new Map(Object.entries(Cnum.exampleWords).map(([word, names]) => [plain(word), names]));

    // The examples with the words by which each is found: its name, its group, what is said of it, the first lines of its
    // table, which say what it is and where it is from, the names of its operations, the instructions and calls that it stands for,
    // and the words of engineers.
    Cnum.exampleIndex = function () {
        const remarks = text => text.split('\n').filter(it => it.startsWith('#') || it.startsWith('name = '));
        return Cnum.examples.flatMap(group =>
            group.types.map(example => {
                const name = nameOf(example.path);
                const words = [...WORDS.keys()].filter(it => WORDS.get(it).includes(name));
                const said = [...Object.values(group.names), ...Object.values(example.said), ...remarks(example.text)];
                const texts = [name, ...said, ...(example.used || []), ...words];
                return { path: example.path, name, group, example, words: plain(texts.join(' ')) };
            }),
        );
    };

    const isLetter = sign => sign !== undefined && sign.toLowerCase() !== sign.toUpperCase();

    // Whether a word of a text begins like this.
    function hasWord(text, begin) {
        let at = text.indexOf(begin);
        while (at >= 0 && isLetter(text[at - 1])) at = text.indexOf(begin, at + 1);
        return at >= 0;
    }

    // How well an example fits, as a kind and a place in it: [0, 0] if its name is what is asked for, and more the less it fits. A word
    // of engineers has its own order of the examples, also if it is not typed to its end.
    function distance(it, asked) {
        const name = plain(it.name);
        const whole = (WORDS.get(asked) || []).indexOf(it.name);
        const begun = [...WORDS].flatMap(([word, names]) => (word.startsWith(asked) ? names : [])).indexOf(it.name);
        const kind = [name === asked, whole >= 0, name.startsWith(asked), begun >= 0, name.includes(asked), true].indexOf(true);
        return [kind, [0, whole, 0, begun][kind] || 0];
    }

    // The examples of each word of the query: it stands in the name, or a word that is said of the example begins like it. The best
    // come first. With a number, only those of this number.
    Cnum.foundExamples = function (index, query, isOfNumber = () => true) {
        const asked = plain(query.trim());
        const hasAll = it => asked.split(' ').every(word => plain(it.name).includes(word) || hasWord(it.words, word));
        const found = index.filter(it => hasAll(it) && isOfNumber(it.path));
        const distances = new Map(found.map(it => [it, distance(it, asked)]));
        return found.sort((a, b) => {
            const [[kind, place], [otherKind, otherPlace]] = [distances.get(a), distances.get(b)];
            return kind - otherKind || place - otherPlace;
        });
    };

    // The texts of numbers, each of them once, in order.
    Cnum.kindsOf = function (numbers) {
        const ordered = [...numbers].sort((a, b) => Cnum.leastOf(a) - Cnum.leastOf(b));
        return [...new Set(ordered.map(Cnum.numberText))];
    };

    // Both numbers of an example, or the one if they are the same.
    Cnum.numbersText = function ({ read, unread }) {
        const [number, without] = [read, unread].map(Cnum.numberText);
        return number === without ? say('example_number', { number }) : say('example_numbers', { number, without });
    };

    class ExampleSearch {
        // The field, the list and the choice of a number. `choose` is called with the path of an example, and
        // `classify` gives the numbers of all examples, { read, unread } each.
        constructor({ field, list, number }, { choose, classify }) {
            Object.assign(this, { field, list, number, choose, classify, at: -1, numbers: null, reads: true });
            this.index = Cnum.exampleIndex();
            field.addEventListener('focus', () => field.select());
            field.addEventListener('click', () => this.open());
            field.addEventListener('input', () => this.open());
            field.addEventListener('keydown', event => this.key(event));
            field.addEventListener('blur', () => this.close());
            number.addEventListener('focus', () => this.begin());
            number.addEventListener('change', () => {
                field.value = '';
                field.focus();
                this.open();
            });
            list.addEventListener('mousedown', event => event.preventDefault());
            list.addEventListener('click', event => this.take(event.target.closest('[role=option]')));
        }

        // Shows which example the table is; none if it is one's own.
        show(path) {
            if (document.activeElement !== this.field) this.field.value = path ? nameOf(path) : '';
            this.name = path ? nameOf(path) : '';
        }

        // Asks for the numbers of all examples, once, and shows them when they are there.
        async begin() {
            if (this.numbers) return;
            this.numbers = new Map();
            const numbers = await this.classify(this.index.map(it => it.path));
            if (!numbers) return;
            this.index.forEach(({ path }, place) => this.numbers.set(path, numbers[place]));
            this.offerNumbers();
            if (!this.list.hidden) this.open();
        }

        // Searches by the numbers of objects that can be read, or by those without reads.
        searchBy(reads) {
            if (reads === this.reads) return;
            this.reads = reads;
            if (this.numbers) this.offerNumbers();
        }

        offerNumbers() {
            const [any] = this.number.children;
            const numbers = [...this.numbers.values()].map(it => this.chosen(it));
            this.number.replaceChildren(any, ...Cnum.kindsOf(numbers).map(it => element('option', { value: it }, it)));
        }

        chosen({ read, unread }) {
            return this.reads ? read : unread;
        }

        // Whether an example is of the number that is wanted.
        isOfNumber(path, wanted) {
            const numbers = this.numbers.get(path);
            return Boolean(numbers) && Cnum.numberText(this.chosen(numbers)) === wanted;
        }

        open() {
            this.begin();
            const wanted = this.number.value;
            const query = this.field.value === this.name ? '' : this.field.value;
            const found = Cnum.foundExamples(this.index, query, path => !wanted || this.isOfNumber(path, wanted));
            this.list.replaceChildren(...found.map((it, place) => this.option(it, place)));
            if (!found.length) this.list.append(element('li', { class: 'quiet' }, say('no_example')));
            this.list.hidden = false;
            this.field.setAttribute('aria-expanded', 'true');
            this.mark(query && found.length ? 0 : -1);
        }

        option({ path, name, group, example }, place) {
            const numbers = this.numbers && this.numbers.get(path);
            const parts = [
                element('strong', {}, name),
                ...(numbers ? [` ${Cnum.numbersText(numbers)}`] : []),
                element('span', { class: 'group' }, group.name),
                element('span', { class: 'about' }, example.about),
            ];
            return element('li', { role: 'option', id: `example-${place}`, 'data-path': path }, ...parts);
        }

        options() {
            return [...this.list.querySelectorAll('[role=option]')];
        }

        mark(place) {
            this.at = place;
            this.options().forEach((it, index) => it.setAttribute('aria-selected', String(index === place)));
            const marked = this.options()[place];
            if (marked) {
                this.field.setAttribute('aria-activedescendant', marked.id);
                marked.scrollIntoView({ block: 'nearest' });
            } else {
                this.field.removeAttribute('aria-activedescendant');
            }
        }

        key(event) {
            const steps = { ArrowDown: 1, ArrowUp: -1 };
            if (event.key in steps) {
                event.preventDefault();
                if (this.list.hidden) this.open();
                const count = this.options().length;
                if (count) this.mark((Math.max(this.at, event.key === 'ArrowUp' ? 0 : -1) + steps[event.key] + count) % count);
            } else if (event.key === 'Enter') {
                this.take(this.options()[this.at]);
            } else if (event.key === 'Escape') {
                this.close();
            }
        }

        take(option) {
            if (!option) return;
            this.name = nameOf(option.dataset.path);
            this.close();
            this.choose(option.dataset.path);
        }

        close() {
            this.list.hidden = true;
            this.field.value = this.name || '';
            this.field.setAttribute('aria-expanded', 'false');
            this.field.removeAttribute('aria-activedescendant');
        }
    }

    Cnum.ExampleSearch = ExampleSearch;
})();
