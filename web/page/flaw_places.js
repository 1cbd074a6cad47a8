// The places of the flaws of `lint` in the text of a table. A flaw has the path to its value, or to its key, in the
// table; or the line and the column at which the text stops to be TOML.
var Cnum = globalThis.Cnum || {};

(() => {
    'use strict';

    // The letter at a line and a column, both from 1. A column counts characters.
    function letterAt(text, line, column) {
        const before = text.split('\n').slice(0, line - 1).reduce((sum, it) => sum + it.length + 1, 0);
        const letters = [...(text.slice(before).split('\n')[0] || '')];
        const from = before + letters.slice(0, column - 1).join('').length;
        return { from, to: Math.min(from + 1, text.length) };
    }

    // What a key or a number leads to in a value. An entry of a table has the place of its key, and its value.
    function within(value, step) {
        if (typeof step === 'number') return value.items && { value: value.items[step] };
        return value.entries && value.entries.get(step);
    }

    // The entry or the item at the end of a path, or nothing.
    function atPath(root, path) {
        return path.reduce((found, step) => found && found.value && within(found.value, step), { value: root });
    }

    function placeOf({ kind, path, line, column }, table) {
        if (line) return letterAt(table.text, line, column);
        const found = path.length > 0 && atPath(table.root, path);
        return (found && (kind === 'UnknownKey' ? found : found.value)) || null;
    }

    // For each flaw its place { from, to } in the text, or null: a key that is missing in the whole has none.
    Cnum.placesOf = function (flaws, text) {
        const table = new Cnum.TableText(text);
        return flaws.map(it => placeOf(it, table));
    };
})();
