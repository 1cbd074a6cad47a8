// Both numbers of a type side by side, each with one sentence: without reads, and for objects that can be read. One
// of the two is chosen, and so is what the page shows of reasons, comparisons and links.
var Cnum = globalThis.Cnum || {};

(() => {
    'use strict';

    const NO_NUMBER = '–';
    const MOST_LARGE = 9; // a longer text is not written large

    const at = id => document.getElementById(id);

    class TwoNumbers {
        // Shows numbers in their places. `choose` is called when another one is chosen, and `openWhy` when the reasons of
        // one are asked for.
        constructor({ choose, openWhy }) {
            const sideOf = end => ({ count: at(`number${end}`), meaning: at(`meaning${end}`), choice: at(`reads${end}`), why: at(`open-why${end}`) });
            this.sides = new Map([[true, sideOf('')], [false, sideOf('-without')]]);
            for (const [reads, { choice, why }] of this.sides) {
                choice.addEventListener('change', () => choose(reads));
                why.addEventListener('click', () => openWhy(reads));
            }
            this.clear('');
        }

        // Marks the one that is chosen.
        choose(reads) {
            for (const [it, { choice }] of this.sides) {
                choice.checked = it === reads;
                choice.closest('.answer').classList.toggle('chosen', it === reads);
            }
        }

        // Takes both away, and says why there are none.
        clear(why) {
            this.numbers = new Map();
            for (const reads of this.sides.keys()) this.say(reads, why);
        }

        has(reads) {
            return this.numbers.has(reads);
        }

        of(reads) {
            return this.numbers.get(reads);
        }

        tell(reads, number) {
            this.numbers.set(reads, number);
            this.show(reads, Cnum.numberText(number), Cnum.sentenceOf(number, reads));
            const { why } = this.sides.get(reads);
            why.textContent = Cnum.questionOf(number);
            why.hidden = false;
        }

        // Says something in the place of a number that is not there.
        say(reads, text) {
            this.show(reads, NO_NUMBER, text);
        }

        show(reads, text, sentence) {
            const { count, meaning, why } = this.sides.get(reads);
            count.textContent = text;
            count.classList.toggle('long', text.length > MOST_LARGE);
            meaning.textContent = sentence;
            why.hidden = true;
        }
    }

    Cnum.TwoNumbers = TwoNumbers;
})();
