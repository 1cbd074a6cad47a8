// The changes of the entries of a table, as `changes` tells them: on which entries its number rests, which changes raise
// it, and the table with such a change.
var Cnum = globalThis.Cnum || {};

(() => {
    'use strict';

    const { edits, say } = Cnum;
    const GREATEST = 256; // the place of an infinite number among all
    const MOST_PAIRS = 50000; // of changes, that the program tries

    const rankOf = number => Math.min(Cnum.leastOf(number), GREATEST);

    // Whether each number that the first can be is less than each that the second can be.
    Cnum.isLess = (first, second) => Cnum.mostOf(first) < Cnum.leastOf(second);

    // The entries of a table, row by row, each as { operation, state, response, next, rests, changes }. A change is { operation,
    // state, next, response, number }; with no response, it has this number with each one. `isSame` tells that it leads where
    // the entry does, so that the response has to be another one.
    Cnum.entriesOf = function (text, { changes, number }) {
        const table = new Cnum.TableText(text);
        const responses = table.items('responses').map(it => it.text);
        return table.operations.map(({ name, response: answers, next: nexts }) => table.items('states').map((item, index) => {
            const [operation, state, response, next] = [name.text, item.text, answers[index].text, nexts[index].text];
            const others = responses.filter(it => it !== response);
            const ofNext = told => {
                const isSame = told.next === next;
                const only = isSame && others.length === 1 ? others[0] : null;
                const numbers = told.number === null ? told.responses : [{ number: told.number, response: only }];
                return numbers.map(it => ({ operation, state, next: told.next, isSame, ...it }));
            };
            const its = changes.filter(it => it.operation === operation && it.state === state).flatMap(ofNext);
            return { operation, state, response, next, rests: its.some(it => Cnum.isLess(it.number, number)), changes: its };
        }));
    };

    // How many changed tables the program tries, with one entry changed or with two.
    Cnum.countChanges = function (text, ofTwo) {
        const table = new Cnum.TableText(text);
        const [states, responses] = [table.items('states').length, table.items('responses').length];
        const [entries, each] = [table.operations.length * states, states * responses - 1];
        return ofTwo ? Math.min(MOST_PAIRS, (entries * (entries - 1) * each ** 2) / 2) : entries * each;
    };

    // The changes that raise the number, the greatest number first.
    Cnum.raisingOf = function (entries, number) {
        const raising = entries.flat().flatMap(it => it.changes).filter(it => Cnum.isLess(number, it.number));
        return raising.sort((a, b) => rankOf(b.number) - rankOf(a.number));
    };

    // What a change does, with its number, in words; and two changes at once.
    Cnum.changeInWords = function (change) {
        const key = change.response !== null ? 'change_answers' : change.isSame ? 'change_otherwise' : 'change_leads';
        return say(key, { ...change, number: Cnum.numberText(change.number) });
    };
    Cnum.pairInWords = function ({ first, second, number }) {
        return say('change_two', { first: say('change_part', first), second: say('change_part', second), number: Cnum.numberText(number) });
    };

    // The table with a change. If the change has no response, the entry keeps its own one where it can.
    function withChange(text, { operation, state, next, response }) {
        const table = new Cnum.TableText(text);
        const [row, column] = [table.operations.findIndex(it => it.name.text === operation), table.items('states').findIndex(it => it.text === state)];
        const { response: answers, next: nexts } = table.operations[row];
        const [answer, target] = [answers[column].text, nexts[column].text];
        const other = table.items('responses').find(it => it.text !== answer);
        const wanted = response !== null ? response : target === next ? other.text : answer;
        const led = target === next ? text : edits.entry(table, row, 'next', column, next);
        return answer === wanted ? led : edits.entry(new Cnum.TableText(led), row, 'response', column, wanted);
    }
    Cnum.withChanges = (text, changes) => changes.reduce(withChange, text);
})();
