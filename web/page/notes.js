// What a reader of a table may not expect, as `lint --as json` tells it: states to which no operations lead, and operations
// that change nothing.
var Cnum = globalThis.Cnum || {};

(() => {
    'use strict';

    const { say } = Cnum;

    // The notes on the table of this text, a sentence each, by what `lint` tells of it.
    Cnum.notesOf = function (text, { idle, unreached }) {
        const [first] = new Cnum.TableText(text).items('states').map(it => it.text);
        return [
            ...unreached.map(state => say('note_state', { state, first })),
            ...idle.map(({ operation, answers }) => say(answers ? 'note_look' : 'note_operation', { operation })),
        ];
    };
})();
