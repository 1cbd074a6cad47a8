// The places in the text of a table, so that the page can mark a flaw in it and change an entry of it. The
// program alone says what is right or wrong with a table: from a text that is no TOML, this code reads what
// it can, and refuses nothing.
var Cnum = globalThis.Cnum || {};

(() => {
    'use strict';

    const SPACE = /[ \t\r\n]*(?:#[^\n]*[ \t\r\n]*)*/y;
    const BLANK = /[ \t]*/y;
    const LINE = /[^\n]*\n?/y;
    const KEY = /[A-Za-z0-9_-]+|"(?:[^"\\\n]|\\.)*"|'[^'\n]*'/y;
    const TEXTS = [/"""[^]*?(?:[^\\]"""|$)/y, /'''[^]*?(?:'''|$)/y, /"(?:[^"\\\n]|\\.)*"?/y, /'[^'\n]*'?/y];
    const OTHER = /[^\s,\]}#]+/y;

    // Reads a text from a place on. A value is { kind, from, to } with its `text`, its `items` or its
    // `entries`. The kinds are text, array, table and other. An entry is { from, to, value }: the place of
    // its key, and its value.
    class Reader {
        constructor(text) {
            this.text = text;
            this.at = 0;
        }

        take(pattern) {
            pattern.lastIndex = this.at;
            const found = pattern.exec(this.text);
            if (found) this.at = pattern.lastIndex;
            return found ? found[0] : null;
        }

        takes(word) {
            const isThere = this.text.startsWith(word, this.at);
            if (isThere) this.at += word.length;
            return isThere;
        }

        // The whole document, as a table.
        document() {
            const root = { kind: 'table', from: 0, to: this.text.length, entries: new Map() };
            let table = root;
            for (this.take(SPACE); this.at < this.text.length; this.take(SPACE)) {
                if (this.text[this.at] === '[') table = this.header(root);
                else if (!this.entry(table)) this.take(LINE);
            }
            return root;
        }

        // The table that a header begins.
        header(root) {
            const table = { kind: 'table', from: this.at, entries: new Map() };
            const isOfArray = this.takes('[[');
            if (!isOfArray) this.takes('[');
            const key = this.key();
            this.take(/\]*/y);
            table.to = this.at;
            if (!key) {
                this.take(LINE);
            } else if (!isOfArray) {
                root.entries.set(key.text, { ...key, value: table });
            } else {
                const found = root.entries.get(key.text);
                const isList = found && found.value.kind === 'array';
                const list = isList ? found.value : { kind: 'array', from: table.from, items: [], isOfHeaders: true };
                list.items.push(table);
                list.to = this.at;
                root.entries.set(key.text, isList ? found : { ...key, value: list });
            }
            return table;
        }

        // A key, or the first part of a dotted one.
        key() {
            this.take(BLANK);
            const from = this.at;
            const text = this.take(KEY);
            if (text === null) return null;
            const key = { from, to: this.at, text: unquoted(text) };
            this.take(/[ \t]*(?:\.[^=\]\n]*)?/y);
            return key;
        }

        // Reads an entry of a table, and answers whether one stands here.
        entry(table) {
            const key = this.key();
            if (!key || !this.takes('=')) return false;
            this.take(BLANK);
            const value = this.value();
            table.entries.set(key.text, { ...key, value });
            table.end = this.at;
            return true;
        }

        value() {
            const from = this.at;
            if (this.takes('[')) return this.closed({ kind: 'array', from, items: [] }, ']', it => it.items.push(this.value()));
            if (this.takes('{')) return this.closed({ kind: 'table', from, entries: new Map() }, '}', it => this.entry(it));
            for (const pattern of TEXTS) {
                const text = this.take(pattern);
                if (text !== null) return { kind: 'text', from, to: this.at, text: unquoted(text) };
            }
            this.take(OTHER);
            return { kind: 'other', from, to: this.at };
        }

        // The items between brackets, with a comma between two.
        closed(value, end, takeOne) {
            for (this.take(SPACE); this.at < this.text.length && !this.takes(end); this.take(SPACE)) {
                const before = this.at;
                if (!this.takes(',')) takeOne(value);
                if (this.at === before) this.at++;
            }
            value.to = this.at;
            return value;
        }
    }

    // A text without its quotation marks. An escape stays as it is: no name has one.
    function unquoted(text) {
        const marks = /^("""|'''|["'])/.exec(text);
        if (!marks) return text;
        const inner = text.slice(marks[0].length);
        return inner.endsWith(marks[0]) ? inner.slice(0, -marks[0].length) : inner;
    }

    // The parts of a table in its text. A part that is missing, or of another kind, is left out.
    class TableText {
        constructor(text) {
            this.text = text;
            this.root = new Reader(text).document();
            this.operations = this.items('operation').map(table => new Operation(table));
        }

        entry(key) {
            return this.root.entries.get(key);
        }

        // The array of this key, if there is one.
        list(key) {
            return arrayOf(this.root, key);
        }

        items(key) {
            return itemsOf(this.root, key);
        }

        // Whether the page can show it as a grid: each of its operations has an entry for each state.
        isGrid() {
            const areTexts = items => items.length > 0 && items.every(it => it.kind === 'text');
            const [states, responses, name] = [this.items('states'), this.items('responses'), this.entry('name')];
            const isWhole = it => it.name && it.rows.every(row => areTexts(row) && row.length === states.length);
            const hasNames = Boolean(name) && name.value.kind === 'text' && areTexts(states) && areTexts(responses);
            return hasNames && this.operations.length > 0 && this.operations.every(isWhole);
        }
    }

    class Operation {
        constructor(table) {
            const name = table.kind === 'table' ? table.entries.get('name') : undefined;
            this.table = table;
            this.name = name && name.value.kind === 'text' ? name.value : null;
            this.response = itemsOf(table, 'response');
            this.next = itemsOf(table, 'next');
            this.rows = [this.response, this.next];
        }
    }

    function arrayOf(table, key) {
        const entry = table.kind === 'table' ? table.entries.get(key) : undefined;
        return entry && entry.value.kind === 'array' ? entry.value : null;
    }

    function itemsOf(table, key) {
        const list = arrayOf(table, key);
        return list ? list.items : [];
    }

    Cnum.TableText = TableText;
})();
