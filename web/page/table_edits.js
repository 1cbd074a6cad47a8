// Changes of a table as a grid, done in its text. Each change gives the text with the change, and leaves all
// else, such as comments and the order of the keys, as it was. It needs a table that can be shown as a grid.
var Cnum = globalThis.Cnum || {};

(() => {
    'use strict';

    const quoted = name => `"${name}"`;
    const replaced = (place, text) => ({ from: place.from, to: place.to, text });
    const behind = (place, text) => ({ from: place.to, to: place.to, text });
    const added = (items, name) => behind(items[items.length - 1], `, ${quoted(name)}`);

    // Takes an item of an array away, with the comma that is left over.
    function removed(items, index) {
        const [from, to] = index + 1 < items.length
            ? [items[index].from, items[index + 1].from]
            : [index > 0 ? items[index - 1].to : items[index].from, items[index].to];
        return { from, to, text: '' };
    }

    // The text after changes of places that do not overlap.
    function edited(text, changes) {
        const last = [...changes].sort((a, b) => b.from - a.from);
        return last.reduce((all, { from, to, text: by }) => all.slice(0, from) + by + all.slice(to), text);
    }

    // All entries of rows that name a state or a response.
    function uses(table, list, name) {
        const rows = table.operations.map(it => (list === 'states' ? it.next : it.response));
        return rows.flat().filter(it => it.text === name);
    }

    // The first name of this kind with a number that is not taken yet.
    function freshName(items, stem) {
        const taken = items.map(it => it.text);
        let number = items.length;
        while (taken.includes(stem + number)) number++;
        return stem + number;
    }

    // A table to begin with.
    Cnum.FIRST_TABLE = `name = "my_type"
states = ["s0", "s1"]
responses = ["ok"]
[[operation]]
name = "op0"
response = ["ok", "ok"]
next = ["s1", "s1"]
`;

    Cnum.edits = {
        // The entry of an operation in a state: its response, or the next state.
        entry(table, operation, row, state, name) {
            return edited(table.text, [replaced(table.operations[operation][row][state], quoted(name))]);
        },

        // Another name for a state or a response, everywhere in the table.
        rename(table, list, index, name) {
            const item = table.items(list)[index];
            return edited(table.text, [item, ...uses(table, list, item.text)].map(it => replaced(it, quoted(name))));
        },

        renameOperation: (table, operation, name) => edited(table.text, [replaced(table.operations[operation].name, quoted(name))]),

        renameType: (table, name) => edited(table.text, [replaced(table.entry('name').value, quoted(name))]),

        // One more state. There each operation gives the first response and changes nothing.
        addState(table) {
            const states = table.items('states');
            const name = freshName(states, 's');
            const response = table.items('responses')[0].text;
            const rows = table.operations.flatMap(it => [added(it.response, response), added(it.next, name)]);
            return edited(table.text, [added(states, name), ...rows]);
        },

        // One state less. What led to it still names it, so that the reader chooses anew where it leads.
        removeState(table, index) {
            const rows = table.operations.flatMap(it => [removed(it.response, index), removed(it.next, index)]);
            return edited(table.text, [removed(table.items('states'), index), ...rows]);
        },

        addResponse(table) {
            const responses = table.items('responses');
            return edited(table.text, [added(responses, freshName(responses, 'r'))]);
        },

        // One response less. The entries that name it stay, as with a state.
        removeResponse: (table, index) => edited(table.text, [removed(table.items('responses'), index)]),

        // One operation more, which gives the first response and changes nothing.
        addOperation(table) {
            const name = freshName(table.operations.map(it => it.name), 'op');
            const states = table.items('states').map(it => quoted(it.text));
            const responses = states.map(() => quoted(table.items('responses')[0].text));
            const parts = [`name = ${quoted(name)}`, `response = [${responses.join(', ')}]`, `next = [${states.join(', ')}]`];
            const list = table.list('operation');
            if (!list.isOfHeaders) return edited(table.text, [behind(list.items[list.items.length - 1], `, { ${parts.join(', ')} }`)]);
            const line = table.text.endsWith('\n') ? '' : '\n';
            return `${table.text}${line}[[operation]]\n${parts.join('\n')}\n`;
        },

        removeOperation(table, index) {
            const list = table.list('operation');
            if (!list.isOfHeaders) return edited(table.text, [removed(list.items, index)]);
            const { from, end } = list.items[index];
            const rest = /^[^\n]*\n?/.exec(table.text.slice(end))[0];
            return table.text.slice(0, from) + table.text.slice(end + rest.length);
        },
    };
})();
