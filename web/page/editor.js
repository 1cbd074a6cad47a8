// The text of the table: a field to type in, with the places of its flaws marked, and the list of the flaws.
// Each flaw leads to its place.
var Cnum = globalThis.Cnum || {};

(() => {
    'use strict';

    const { button, element } = Cnum;

    class Editor {
        // `text` is the field, `marks` lies behind it, and `list` takes the flaws.
        constructor(text, marks, list) {
            Object.assign(this, { text, marks, list });
            text.addEventListener('scroll', () => this.follow());
        }

        follow() {
            this.marks.scrollTop = this.text.scrollTop;
            this.marks.scrollLeft = this.text.scrollLeft;
        }

        // Shows the flaws that `lint` tells.
        show(flaws) {
            const text = this.text.value;
            const places = Cnum.placesOf(flaws, text);
            this.text.setAttribute('aria-invalid', String(flaws.length > 0));
            this.list.replaceChildren(...Cnum.flawTexts(flaws, text).map((it, index) => element('li', {}, this.flaw(it, places[index]))));
            this.mark(text, places.filter(Boolean));
            if (flaws.length && document.activeElement === this.text) this.list.scrollIntoView({ block: 'nearest' });
        }

        flaw(text, place) {
            if (!place) return text;
            return button(text, () => {
                this.text.focus();
                this.text.setSelectionRange(place.from, place.to);
            });
        }

        // The marks have the same text, which is not seen, with these places marked in it.
        mark(text, places) {
            let at = 0;
            const parts = [];
            for (const { from, to } of [...places].sort((a, b) => a.from - b.from)) {
                if (from < at) continue;
                parts.push(text.slice(at, from), element('mark', {}, text.slice(from, to)));
                at = to;
            }
            this.marks.replaceChildren(...parts, `${text.slice(at)}\n`);
            this.follow();
        }
    }

    Cnum.Editor = Editor;
})();
