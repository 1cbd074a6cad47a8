// Why the number without reads is what it is: shows what `why --without-read --as json` tells, in the words of the page.
var Cnum = globalThis.Cnum || {};

(() => {
    'use strict';

    const { button, element, say } = Cnum;
    const { paragraph, head, tasks, witnessTable, asPrinted } = Cnum.reasonParts;

    const answerOf = it => say('answer_of', it);

    // What a process gets: the response to its operation, and to those that it does next.
    function sightText({ response, answers }) {
        return answers.length ? say('got_then', { response, answers: answers.map(answerOf).join(', ') }) : say('got_response', { response });
    }

    // How each process tells which team was first, by what it gets. They may be fewer than can agree.
    function witness({ start, processes, looks, follow_ups: followUps }, least) {
        const count = processes.length;
        const words = { count, start, tasks: tasks(processes) };
        const many = count < least ? [paragraph('why_so_many', { count })] : [];
        const further = followUps.map(it => paragraph('follow_up', it));
        if (looks.length) further.push(paragraph('looks', { looks: looks.join(', ') }));
        return [...many, head('why_unread', words), ...further, witnessTable(processes, sightText), paragraph('why_unread_end')];
    }

    // How any number of processes tell it, by the signs of one team.
    function signs({ start, single, many, side, further, signs: told }) {
        const words = { side, further: further.join(', '), signs: told.map(answerOf).join('; ') };
        return [head('why_signs', { start, single, many }), paragraph('signs_of_team', words)];
    }

    function reasonsForLeast(told) {
        if (told.signs) return signs(told.signs);
        const least = Cnum.leastOf(told.without_read);
        if (told.witness) return witness(told.witness, least);
        return least === 1 ? [paragraph('why_one')] : [];
    }

    // A choice with its two runs, to step through. There may be none that end.
    function way(choice, picture) {
        const about = paragraph('collision_of', { start: choice.start, tasks: tasks(choice.processes) });
        return [about, ...(choice.process === null ? [paragraph('runs_endless')] : Cnum.twoRuns(choice, picture(choice)))];
    }

    // Why no protocol does it for so many: of each way to choose a start state, operations and teams two runs. Those that are
    // told can be chosen. `leading` is what leads to the run that fails, if there is one.
    function refutation({ processes: count, count: ways, positions, choices }, picture, leading) {
        const shown = element('div');
        const show = choice => shown.replaceChildren(...way(choice, picture));
        const numbers = choices.map((_, index) => element('option', { value: index }, say('way_of', { number: index + 1, ways })));
        const select = element('select', { id: 'way' }, ...numbers);
        select.addEventListener('change', () => show(choices[select.value]));
        const selection = element('p', {}, element('label', { for: 'way' }, say('way')), ' ', select);
        if (choices.length) show(choices[0]);
        return [
            head(ways === 1 ? 'why_not_unread_one' : 'why_not_unread', { count, ways }),
            ...leading,
            ...(choices.length > 1 ? [selection] : []),
            shown,
            paragraph('runs_positions', { positions }),
        ];
    }

    // Why no more can: by two runs, since not even more can that read, or since there is no upper bound.
    function reasonsForMost(told, picture, leading) {
        const number = told.without_read;
        if (number === 'infinite') return { end: say('why_each') };
        const count = Cnum.mostOf(number) + 1;
        if (count === Infinity) return { end: say('no_bound_found') };
        const end = say('why_proved_unread', { count });
        if (told.refuted) return { parts: refutation(told.refuted, picture, leading), end: [say('why_same_ways'), say('why_left_out'), end].join(' ') };
        return { parts: [head('why_not_read', { count }), ...leading, ...(told.rule ? [paragraph(`rule_${told.rule}`)] : [])], end };
    }

    // The sentences at the end: what is proved of more processes, and that the number is not decided, if it is not.
    function endOf(number, end) {
        return [end, ...(typeof number === 'object' ? [say('number_open', { number: Cnum.numberText(number) })] : [])].join(' ');
    }

    // Shows such an explanation in this place, or says that there is none. `picture` gives the picture of the states with a
    // choice in it, and `printed` the text of the program. `tryAnyway` shows the run that fails, by a button with the text `anyway`,
    // if there is one.
    Cnum.showUnreadExplanation = function (place, told, { picture, printed, tryAnyway, anyway }) {
        if (!told) {
            place.replaceChildren(element('p', { class: 'quiet' }, say('no_reasons')));
            return;
        }
        const leading = anyway ? [element('p', {}, button(anyway, tryAnyway))] : [];
        const { parts = [], end } = reasonsForMost(told, picture, leading);
        place.replaceChildren(
            ...told.merged.filter(it => it.state !== it.class).map(it => paragraph('merged_states', it)),
            ...(told.telling ? [paragraph(`telling_${told.telling}`)] : []),
            ...reasonsForLeast(told),
            ...parts,
            element('p', { class: 'quiet' }, endOf(told.without_read, end)),
            asPrinted(printed),
        );
    };
})();
