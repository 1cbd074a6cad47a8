// Sheets for a course, one page each: an exercise with gaps, and its solution. They are made of what `why` tells of a table.
var Cnum = globalThis.Cnum || {};

(() => {
    'use strict';

    const { button, element, say, tableOf } = Cnum;
    const { tasks } = Cnum.reasonParts;
    const KINDS = ['exercise', 'solution'];
    const [LARGEST, LEAST, STEP] = [11, 6, 0.25]; // points of a letter
    const PAGE = 1.45; // the height of a page for its width, without its margins
    const MOST_PAIRS = 4; // gaps of a cell

    const gap = kind => element('span', { class: kind }, '\u00a0');

    // A name in the letters of a table.
    const code = text => element('code', {}, text);

    // The text of a sheet with elements put in.
    function filled(key, words) {
        const marks = Object.fromEntries(Object.keys(words).map((name, place) => [name, `\u0001${place}\u0001`]));
        const values = Object.values(words);
        return say(key, marks).split('\u0001').map((it, place) => (place % 2 ? values[Number(it)] : it));
    }

    // What the solution tells, and the exercise leaves open.
    const answerIn = isSolved => (text, kind = 'gap') => (isSolved ? element('b', {}, text) : gap(kind));

    // 1. The table, whose last row is to fill in.
    function tableQuestion(table, answer) {
        const states = table.items('states').map(it => it.text);
        const last = table.operations.length - 1;
        const cell = (one, two) => element('span', {}, one, ' → ', two);
        const rows = table.operations.map((it, index) => {
            const part = text => (index === last ? answer(text) : text);
            return [it.name.text, ...states.map((_, state) => cell(part(it.response[state].text), part(it.next[state].text)))];
        });
        return [element('p', {}, say('sheet_table', { operation: table.operations[last].name.text })), tableOf(['', ...states], rows)];
    }

    // What a process can get, or as many gaps, up to some.
    function pairsCell(pairs, isSolved, answer) {
        const shown = isSolved ? pairs : pairs.slice(0, MOST_PAIRS);
        const pair = it => element('span', { class: 'pair' }, answer(it.response), '/', answer(it.state));
        const parts = shown.flatMap((it, index) => [...(index ? [', '] : []), pair(it)]);
        return element('span', {}, ...parts, ...(shown.length < pairs.length ? [' …'] : []));
    }

    // 2. to 4. What each process can get of the witness, whether it can tell, and the number.
    function witnessQuestions({ witness, number }, isSolved, answer) {
        const { processes, start } = witness;
        const rows = processes.map((it, process) => [
            `p${process}: ${it.operation}`,
            pairsCell(it.a_first, isSolved, answer),
            pairsCell(it.b_first, isSolved, answer),
        ]);
        const heads = ['', say('why_A'), say('why_B')];
        const least = number === 'infinite' ? processes.length : Cnum.leastOf(number);
        return [
            element('p', {}, ...filled('sheet_witness', { start: code(start), tasks: tasks(processes) })),
            tableOf(heads, rows),
            element('p', {}, ...filled('sheet_tell', { answer: answer(say('sheet_can_tell')) })),
            element('p', {}, ...filled('sheet_least', { answer: answer(String(least), 'gap short') })),
        ];
    }

    const runText = ({ steps }) => steps.map(it => `p${it.process} ${it.operation}`).join(', ');

    // Why not one more: two runs that one process cannot tell apart.
    function collisionQuestion(told, isSolved, answer) {
        const choice = Cnum.collisionToShow(told);
        if (!choice) return [];
        const { processes, start, process } = choice;
        const count = processes.length;
        const open = text => answer(text, 'gap long');
        const ways = told.collisions.length + told.more;
        const reasons = [say('sheet_doubts', { process: `p${process}`, ...choice.a_first.pair })];
        if (told.rule) reasons.push(say(`rule_${told.rule}`));
        else if (ways > 1) reasons.push(say('sheet_each_way', { ways }));
        const words = { count, start: code(start), tasks: tasks(processes) };
        return [
            element('p', {}, element('strong', {}, say('sheet_why_not', { count })), ' ', ...filled('sheet_find', words)),
            element('p', {}, ...filled('sheet_runs', { one: open(runText(choice.a_first)), two: open(runText(choice.b_first)) })),
            isSolved ? element('p', {}, ...reasons.join(' ')) : element('p', {}, ...filled('sheet_who', { answer: gap('gap short'), why: gap('gap long') })),
        ];
    }

    // Why any number: which states come of whom that was first.
    function lastingQuestion({ lasting }, isSolved, answer) {
        if (!lasting) return [];
        const { start, single, many, single_states: one, many_states: others } = lasting;
        const open = its => answer(its.join(', '), 'gap long');
        return [
            element('p', {}, element('strong', {}, say('why_any_number')), ' ', ...filled('sheet_lasting', { start: code(start), single: code(single), many: code(many) })),
            element('p', {}, ...filled('sheet_states', { single: code(single), many: code(many), one: open(one), others: open(others) })),
            ...(isSolved ? [element('p', {}, say('why_lasting_end'))] : []),
        ];
    }

    // A sheet as an element. `foot` are the lines at its end.
    Cnum.sheetOf = function (told, text, kind, foot) {
        const isSolved = kind === 'solution';
        const answer = answerIn(isSolved);
        const table = new Cnum.TableText(text);
        const questions = [
            tableQuestion(table, answer),
            ...(told.witness ? [witnessQuestions(told, isSolved, answer)] : []),
            lastingQuestion(told, isSolved, answer),
            collisionQuestion(told, isSolved, answer),
        ].filter(it => it.length);
        const title = filled(isSolved ? 'sheet_solution_title' : 'sheet_title', { name: code(told.name) });
        const items = questions.map(it => element('li', {}, ...it));
        return element('article', { class: 'sheet' }, element('h1', {}, ...title), element('ol', {}, ...items), ...foot.map(it => element('p', { class: 'foot' }, it)));
    };

    class Sheet {
        // `version` gives the name of the program, and `address` a link to the solution, if there is one for everybody.
        constructor({ place, choice }, { version, address }) {
            Object.assign(this, { place, version, address, kind: KINDS[0], told: null, text: '' });
            this.buttons = KINDS.map(kind => button(say(`sheet_${kind}`), () => this.show({ kind }), { 'data-kind': kind }));
            choice.append(...this.buttons, button(say('sheet_print'), () => window.print()));
            window.addEventListener('resize', () => this.fit());
        }

        // Takes another kind of sheet, or what is told of another table, and shows it.
        show(given) {
            Object.assign(this, given);
            for (const it of this.buttons) it.setAttribute('aria-pressed', String(it.dataset.kind === this.kind));
            const { told, text, kind } = this;
            const address = kind === 'exercise' && told ? this.address() : '';
            const foot = [this.version(), ...(address ? [say('sheet_address', { address })] : [])].filter(Boolean).join(' · ');
            this.place.replaceChildren(...(told ? [Cnum.sheetOf(told, text, kind, [foot])] : [element('p', { class: 'quiet' }, say('sheet_none'))]));
            this.fit();
        }

        // Letters so large that the sheet is one page.
        fit() {
            const sheet = this.place.firstElementChild;
            if (!this.told || !sheet.clientWidth) return;
            for (let size = LARGEST; size >= LEAST; size -= STEP) {
                sheet.style.fontSize = `${size}pt`;
                if (sheet.scrollHeight <= PAGE * sheet.clientWidth && sheet.scrollWidth <= sheet.clientWidth + 1) break;
            }
        }
    }

    Cnum.Sheet = Sheet;
})();
