// The table of two operations that last, from which the program takes its example: the start state and the operation of one
// process stand first, so that the example keeps the roles of the reason.
var Cnum = globalThis.Cnum || {};

(() => {
    'use strict';

    const listOf = names => `[${names.map(it => `"${it}"`).join(', ')}]`;

    // The same type with this state first, and these operations alone, the single one first.
    Cnum.tableOfLasting = function (text, { start, single, many }) {
        const table = new Cnum.TableText(text);
        const texts = items => items.map(it => it.text);
        const states = texts(table.items('states'));
        const order = [start, ...states.filter(it => it !== start)];
        const row = entries => listOf(order.map(it => texts(entries)[states.indexOf(it)]));
        const operationOf = name => table.operations.find(it => it.name.text === name);
        const operations = [...new Set([single, many])].map(operationOf);
        const parts = operations.map(it => `[[operation]]\nname = "${it.name.text}"\nresponse = ${row(it.response)}\nnext = ${row(it.next)}\n`);
        const head = `name = "${table.entry('name').value.text}"\nstates = ${listOf(order)}\nresponses = ${listOf(texts(table.items('responses')))}\n`;
        return head + parts.join('');
    };
})();
