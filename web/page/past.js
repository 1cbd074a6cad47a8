// What the table was before, so that each change can be undone and done again: typing, the grid, an example, a
// file that is dropped, a link.
var Cnum = globalThis.Cnum || {};

(() => {
    'use strict';

    const PAUSE = 1000; // milliseconds without typing, after which a new change begins

    class Past {
        constructor() {
            this.texts = [];
            this.at = -1;
            this.typed = -Infinity; // when the present text was typed
        }

        // The table has this text now. Letters that are typed one after another are one change.
        put(text, { isTyped = false, now = 0 } = {}) {
            if (text === this.texts[this.at]) return;
            const goesOn = isTyped && now - this.typed < PAUSE && this.at > 0;
            if (!goesOn) this.at++;
            this.texts.splice(this.at, Infinity, text);
            this.typed = isTyped ? now : -Infinity;
        }

        // The table has a text again that it had before, or one that is new.
        goTo(text) {
            const by = [-1, 1].find(it => this.texts[this.at + it] === text);
            if (by && text !== this.texts[this.at]) this.move(by);
            else this.put(text);
        }

        canMove(by) {
            return this.at + by >= 0 && this.at + by < this.texts.length;
        }

        // The text before the last change, or after the one that was undone.
        move(by) {
            this.at += by;
            this.typed = -Infinity;
            return this.texts[this.at];
        }
    }

    // The part of a text that differs from another: its end, as the place for the cursor.
    Cnum.endOfChange = function (text, other) {
        const most = Math.min(text.length, other.length);
        let same = 0;
        while (same < most && text[text.length - 1 - same] === other[other.length - 1 - same]) same++;
        return text.length - same;
    };

    Cnum.Past = Past;
})();
