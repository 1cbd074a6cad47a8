// Why the number is what it is: shows what `why --as json` tells, as a table of pairs and as rows of states and
// arrows, in the words of the page.
var Cnum = globalThis.Cnum || {};

(() => {
    'use strict';

    const { button, element, say, tableOf, wide } = Cnum;
    const { process, paragraph, head, tasks, witnessTable, run, asPrinted } = Cnum.reasonParts;
    const AT_FIRST = 2; // how many collisions are shown
    const AT_ONCE = 100; // how many more each demand shows
    const MOST_APART = 3; // more pairs of operations are no reason to remember

    // Two operations by which each process knows which of them came first.
    function lasting(told) {
        if (!told) return [];
        const { single, single_states: afterSingle, many, many_states: afterMany } = told;
        const rows = [
            [say('lasting_single', { operation: single }), afterSingle.join(', ')],
            [say('lasting_many', { operation: many }), afterMany.join(', ')],
        ];
        const table = tableOf([say('lasting_first'), say('lasting_states')], rows, { class: 'pairs' });
        return [head('why_lasting', told), wide(say('lasting_states'), table), paragraph('why_lasting_end')];
    }

    function witness(told) {
        if (!told) return [paragraph('why_one')];
        const words = { count: told.processes.length, start: told.start, tasks: tasks(told.processes) };
        return [head('why_witness', words), witnessTable(told.processes, it => say('got', it)), paragraph('why_witness_end')];
    }

    // What two operations at a time tell of the number.
    function ofOperations({ rule, apart, number }) {
        if (rule) return [paragraph(`rule_${rule}`)];
        if (Cnum.leastOf(number) <= 2 || apart.length > MOST_APART) return [];
        const pairs = apart.map(([first, second]) => say('pair', { first, second })).join(', ');
        return apart.length ? [paragraph('why_apart', { pairs })] : [];
    }

    function collision(it, number) {
        const choice = say('collision_of', { start: it.start, tasks: tasks(it.processes) });
        const title = element('p', {}, `${choice} `, element('strong', {}, say('cannot_tell', { process: process(it.process) })));
        const runOf = ({ steps, pair }, team) => {
            const end = element('span', { class: 'end' }, say('got_at_end', { process: process(it.process), ...pair }));
            return run(steps, team, it.start, it.process, end);
        };
        return element('li', { value: number }, title, runOf(it.a_first, 'A'), runOf(it.b_first, 'B'));
    }

    // The heading of the collisions of a choice for so many processes. It may be that no choice is left.
    function titleOf({ collisions, more }, count) {
        const ways = collisions.length + more;
        const key = ways > 1 ? 'why_not' : ways ? 'why_not_one_way' : 'why_no_way';
        return head(key, { count, ways });
    }

    // What is said of more processes than those of the witness: a heading if there are collisions, and sentences.
    function beyond(told, count) {
        if (told.number === 'infinite') return { end: [say('why_each')] };
        const most = Cnum.mostOf(told.number);
        const end = say('why_proved', { count: most + 1 });
        if (count === told.limit) return { end: [say('why_not_listed', { count: most + 1 }), end] };
        const about = [say('why_same_ways'), ...(told.version > 1 ? [say('why_left_out')] : [])];
        return { title: titleOf(told, count + 1), end: [...about, end] };
    }

    // Collisions, and a button for more of them on demand. `all` gives the explanation with all of them.
    function collisions(told, all) {
        const whole = told.collisions.length + told.more;
        const list = element('ol', { class: 'collisions' });
        const more = button('', open);
        let left = [];

        function shown(its) {
            its.forEach(it => list.append(collision(it, list.children.length + 1)));
        }

        // Those that wait in the list, or else the next ones of all.
        function open() {
            const waiting = [...list.children].filter(it => it.hidden);
            if (!waiting.length) return demand();
            for (const it of waiting) it.hidden = false;
            label(told.more);
            waiting[0].tabIndex = -1;
            return waiting[0].focus();
        }

        function label(count) {
            more.hidden = !count;
            more.textContent = say('more', { count: Math.min(AT_ONCE, count), whole });
        }

        async function demand() {
            if (!left.length) {
                const found = await all();
                if (found === null) return;
                left = found.collisions.slice(list.children.length);
            }
            const before = list.children.length;
            shown(left.splice(0, AT_ONCE));
            label(left.length);
            list.children[before].tabIndex = -1;
            list.children[before].focus();
        }

        shown(told.collisions);
        [...list.children].slice(AT_FIRST).forEach(it => (it.hidden = true));
        label(Math.max(0, told.collisions.length - AT_FIRST) || told.more);
        return [list, more];
    }

    // Shows an explanation in this place. On demand, `all` gives it with all collisions, and `printed` gives the text
    // of the program. Either is null if another table has come since. `tryAnyway` shows the run that fails, by a button with the
    // text `anyway`, if there is one.
    Cnum.showExplanation = function (place, told, { all, printed, tryAnyway, anyway }) {
        const count = told.witness ? told.witness.processes.length : 1;
        const { title, end } = beyond(told, count);
        // Where operations last, the witness is an example.
        const byWitness = told.lasting && told.witness ? [Cnum.disclosure(say('why_so_many', { count }), ...witness(told.witness))] : witness(told.witness);
        place.replaceChildren(
            ...lasting(told.lasting),
            ...byWitness,
            ...ofOperations(told),
            ...(title ? [title, ...(anyway ? [element('p', {}, button(anyway, tryAnyway))] : []), ...collisions(told, all)] : []),
            element('p', { class: 'quiet' }, end.join(' ')),
            asPrinted(printed),
        );
    };
})();
