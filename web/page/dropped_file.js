// Files that a reader drops or chooses: tables, and certificates.
var Cnum = globalThis.Cnum || {};

(() => {
    'use strict';

    // The marks at the beginning of a text that tell how it is encoded.
    const MARKS = [[[0xff, 0xfe], 'utf-16le'], [[0xfe, 0xff], 'utf-16be']];

    // Whether a file of this name is a table.
    Cnum.isTableName = name => /\.toml(\.txt)?$/i.test(name);

    // The text of a file, as its first bytes say.
    Cnum.textOf = function (bytes) {
        const found = MARKS.find(([mark]) => mark.every((byte, index) => bytes[index] === byte));
        return new TextDecoder(found ? found[1] : 'utf-8').decode(bytes);
    };
})();
