// Why the bounds of a certificate by stocks are what they are: shows the value of one that `check --stocks` accepts, with the names
// of the table, in the words of the page.
var Cnum = globalThis.Cnum || {};

(() => {
    'use strict';

    const { element, say } = Cnum;
    const { paragraph, head, tasks, asPrinted } = Cnum.reasonParts;

    const textsOf = items => items.map(it => it.text);
    const listOf = lines => element('ul', {}, ...lines.map(it => element('li', {}, it)));

    // The number that the bounds leave, or what is known of it.
    function numberOf({ at_least: least, at_most: most }) {
        if (least === null) return 'infinite';
        if (least === most) return least;
        return { at_least: least, ...(most === null ? {} : { at_most: most }) };
    }

    // The names of a table.
    function namesOf(text) {
        const table = new Cnum.TableText(text);
        return { states: textsOf(table.items('states')), operations: table.operations.map(it => it.name.text) };
    }

    // Two operations that last: the states of each case.
    function lasting([start, many, single, alone, behind, first], { states, operations }) {
        const words = { start: states[start], many: operations[many], single: operations[single] };
        const line = (key, set) => say(key, { ...words, states: states.filter((_, place) => set.includes(place)).join(', ') });
        const lines = [line('stock_first', first), line('stock_not_yet', alone), line('stock_behind', behind)];
        return [head('why_lasting', words), listOf(lines), paragraph('stock_lasting_end')];
    }

    function witness(choice, text) {
        const { start, roles } = Cnum.plans.ofWitness(choice, text);
        return [head('why_witness', { count: roles.length, start, tasks: tasks(roles) }), paragraph('stock_witness_end')];
    }

    function reasonsForLeast(least, text, names) {
        if (least === null) return [paragraph('why_one')];
        return least.witness ? witness(least.witness, text) : lasting(least.lasting, names);
    }

    // A run of a join: its operations, with a star at that of the process that gets the same in both runs.
    const runOf = (word, place, { operations }) => word.map((number, index) => operations[number] + (index === place ? '*' : '')).join(' ');

    // A join in words.
    function joinLine([start, first, place, second, other], names) {
        const [one, two] = [first, second].map(([it]) => names.operations[it]);
        return say('stock_join', { start: names.states[start], first: runOf(first, place, names), second: runOf(second, other, names), one, two });
    }

    // Why no more can, by joins, a line each; or that nothing is shown of more.
    function reasonsForMost({ at_least: least, at_most: most, most: joins }, names) {
        if (least === null) return [paragraph('why_each')];
        if (joins === null) return [paragraph('stock_no_most')];
        const [count, joined] = [most + 1, joins.length];
        const title = head(['stock_no_join', 'stock_one_join'][joined] || 'stock_joins', { count, joins: joined });
        const ends = [say(count === 2 ? 'stock_two_alike' : 'stock_alike'), ...(joined ? [say('stock_one_team', { count })] : [])];
        const quiet = element('p', { class: 'quiet' }, [...ends, say('why_proved', { count })].join(' '));
        return [title, ...(joined ? [listOf(joins.map(it => joinLine(it, names)))] : []), quiet];
    }

    // Shows the reasons of this certificate for this table in this place. On demand, `printed` gives the text of the program.
    Cnum.showStockExplanation = function (place, certificate, text, printed) {
        const names = namesOf(text);
        place.replaceChildren(
            element('p', {}, Cnum.sentenceOf(numberOf(certificate), true)),
            ...reasonsForLeast(certificate.least, text, names),
            ...reasonsForMost(certificate, names),
            asPrinted(printed),
        );
    };
})();
