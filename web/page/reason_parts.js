// What reasons of a number are made of: who does what, what each process gets, and runs as rows of states and arrows.
var Cnum = globalThis.Cnum || {};

(() => {
    'use strict';

    const { element, marked, say, tableOf, wide } = Cnum;

    const process = place => `p${place}`;
    const paragraph = (...words) => element('p', {}, ...marked(...words));
    const head = (...words) => element('h3', {}, ...marked(...words));

    // Processes that do the same, as far as they follow one another: { first, last } with what they do.
    function grouped(processes, isSame) {
        const groups = [];
        processes.forEach((it, place) => {
            const group = groups[groups.length - 1];
            if (group && isSame(group, it)) group.last = place;
            else groups.push({ ...it, first: place, last: place });
        });
        return groups;
    }

    function namesOf({ first, last }) {
        if (first === last) return process(first);
        return say(first + 1 === last ? 'two_processes' : 'more_processes', { first: process(first), last: process(last) });
    }

    const doing = it => say(it.first === it.last ? 'does' : 'do', { processes: namesOf(it), operation: it.operation });
    const isSameTask = (a, b) => a.team === b.team && a.operation === b.operation;

    // Who does what in a choice, team by team.
    function tasks(processes) {
        const groups = grouped(processes, isSameTask);
        const ofTeam = team => groups.filter(it => it.team === team).map(doing).join(', ');
        return ['A', 'B'].map(team => say('tasks_of_team', { team, tasks: ofTeam(team) })).join('; ');
    }

    // The table of a witness: what each process gets if team A is first, and if team B is. `textOf` says it in words.
    function witnessTable(processes, textOf) {
        const isSame = (a, b) => isSameTask(a, b) && ['a_first', 'b_first'].every(it => JSON.stringify(a[it]) === JSON.stringify(b[it]));
        const list = its => element('ul', {}, ...its.map(it => element('li', {}, textOf(it))));
        const rows = grouped(processes, isSame).map(it => [namesOf(it), it.operation, list(it.a_first), list(it.b_first)]);
        const table = tableOf(['why_process', 'why_operation', 'why_A', 'why_B'].map(it => say(it)), rows, { class: 'pairs' });
        return wide(say('why_pairs'), table);
    }

    // A run that a team begins: the states in a row, with an arrow between two of them for the operation. The steps of one
    // process stand out.
    function run(steps, team, start, doubting, ...end) {
        const part = (kind, ...content) => element('span', { class: kind }, ...content);
        const parts = steps.flatMap(it => {
            const kind = it.process === doubting ? 'step doubting' : 'step';
            const answer = [part('hidden', say('answers')), part('response', it.response)];
            return [part(kind, `${process(it.process)} ${it.operation}`, ...answer), part('state', it.state)];
        });
        const first = part(`first team-${team}`, say('team_first', { team }));
        return element('div', { class: 'run' }, first, part('state', start), ...parts, ...end);
    }

    // The text that the program prints, once somebody asks for it.
    function asPrinted(printed) {
        const text = element('pre', { tabindex: 0 });
        const whole = element('details', {}, element('summary', {}, say('as_printed')), text);
        whole.addEventListener('toggle', async () => {
            if (whole.open && !text.textContent) text.textContent = (await printed()) || '';
        });
        return whole;
    }

    Cnum.reasonParts = { process, paragraph, head, tasks, witnessTable, run, asPrinted };
})();
