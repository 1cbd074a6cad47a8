// The flaws of `lint` in words, by their kinds and places, in the language of the page.
var Cnum = globalThis.Cnum || {};

(() => {
    'use strict';

    const { say } = Cnum;
    const KEYS = ['name', 'states', 'responses', 'operation'];
    const KEYS_OF_OPERATION = ['name', 'response', 'next'];
    const SINGULAR = { states: 'state', responses: 'response', operation: 'operation' };
    const KINDS = { name: 'text', states: 'texts', responses: 'texts', response: 'texts', next: 'texts', operation: 'tables' };
    const MOST = { states: 16, responses: 16, operation: 8 };
    const MOST_LISTED = 16;

    const isName = text => typeof text === 'string' && /^[a-z0-9_]{1,32}$/.test(text);

    // The value at a path of a table, or nothing.
    function valueAt(root, path) {
        const within = (value, step) => (typeof step === 'number' ? value.items && value.items[step] : (value.entries?.get(step) || {}).value);
        return path.reduce((value, step) => value && within(value, step), root);
    }

    const textAt = (table, path) => (valueAt(table.root, path) || {}).text;
    const kindIn = what => say(`kind_${what}`);

    function operationText(table, [, index]) {
        const name = textAt(table, ['operation', index, 'name']);
        return isName(name) ? say('flaw_operation', { name }) : say('flaw_entry', { list: 'operation', index });
    }

    // The keys that a table lacks, in order.
    function lacking(table, path) {
        const { entries } = valueAt(table.root, path) || {};
        return (path.length ? KEYS_OF_OPERATION : KEYS).filter(it => !(entries && entries.has(it)));
    }

    function listed(names) {
        return names.length <= MOST_LISTED && names.every(isName) ? ` (${names.join(', ')})` : '';
    }

    // What is called in a list, by the path to a name.
    const calledAt = path => (path.length === 1 ? 'name' : path.length === 3 ? 'operation' : SINGULAR[path[0]]);

    // Where things of one name stand.
    function repeated(table, path) {
        const isOperation = path[0] === 'operation';
        const name = textAt(table, path);
        const names = table.items(path[0]).map((it, index) => (isOperation ? textAt(table, ['operation', index, 'name']) : it.text));
        const places = names.flatMap((it, index) => (it === name ? [say('flaw_entry', { list: SINGULAR[path[0]], index })] : []));
        const words = { first: places.slice(0, -1).join(', '), last: places[places.length - 1], name };
        return say(places.length === 2 ? 'flaw_both' : 'flaw_all', words);
    }

    // The text of a flaw of each kind. `place` counts the missing keys of one table before it.
    const TEXTS = {
        NotToml: ({ line, column }) => say('flaw_toml', { line, column }),
        UnknownKey: ({ path }, table) =>
            path.length === 1
                ? say('flaw_root_key', { key: path[0], keys: KEYS.join(', ') })
                : say('flaw_operation_key', { operation: operationText(table, path), key: path[2], keys: KEYS_OF_OPERATION.join(', ') }),
        MissingKey: ({ path }, table, place) => {
            const key = lacking(table, path)[place];
            return path.length ? say('flaw_operation_lacks', { operation: operationText(table, path), key }) : say('flaw_root_lacks', { key });
        },
        WrongKind: ({ path }, table) => {
            if (path.length === 2) return say('flaw_no_table', { index: path[1] });
            const words = { key: path[path.length - 1], kind: say(`flaw_kind_${KINDS[path[path.length - 1]]}`) };
            return path.length === 1 ? say('flaw_kind', words) : say('flaw_operation_kind', { ...words, operation: operationText(table, path) });
        },
        BadName: ({ path }, table) => say('flaw_name', { kind: kindIn(calledAt(path)), name: textAt(table, path) }),
        Count: ({ path: [list] }, table) => {
            const count = table.items(list).length;
            return say(count ? 'flaw_too_many' : 'flaw_too_few', { count, kind: say(`kinds_${list}`), most: MOST[list] });
        },
        Repeated: ({ path }, table) => repeated(table, path),
        RowLength: ({ path }, table) => {
            const [count, states] = [valueAt(table.root, path).items.length, table.items('states').length];
            const words = { operation: operationText(table, path), row: path[2] };
            return say('flaw_row', { ...words, entries: say(count === 1 ? 'flaw_one_entry' : 'flaw_entries', { count }), states: say(states === 1 ? 'flaw_one_state' : 'flaw_states', { states }) });
        },
        UnknownName: ({ path }, table) => {
            const [, , row, index] = path;
            const list = row === 'next' ? 'states' : 'responses';
            const words = { operation: operationText(table, path), row, index, what: say(`flaw_no_${list}`), name: textAt(table, path) };
            return say('flaw_unknown', { ...words, names: listed(table.items(list).map(it => it.text)) });
        },
    };

    // The texts of these flaws of a table. In English the program tells them itself; it does so too where the page has no words.
    Cnum.flawTexts = function (flaws, text) {
        const table = new Cnum.TableText(text);
        const before = new Map();
        return flaws.map(flaw => {
            const key = JSON.stringify([flaw.kind, flaw.path]);
            const place = before.get(key) || 0;
            before.set(key, place + 1);
            if (Cnum.language === Cnum.FIRST_LANGUAGE) return flaw.text;
            try {
                return TEXTS[flaw.kind](flaw, table, place);
            } catch {
                return flaw.text;
            }
        });
    };
})();
