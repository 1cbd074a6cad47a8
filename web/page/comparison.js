// Compares tables: the present one with one that was kept, with those in which one operation is left out, with
// those of each pair of operations, and with those in which one entry is another.
var Cnum = globalThis.Cnum || {};

(() => {
    'use strict';

    const { button, element, say, tableOf, wide } = Cnum;
    const BEFORE_WAITING = 400;
    const TICK = 100;

    // The cells of a table, 'response → state' each, by operation and state.
    function cellsOf(text) {
        const table = new Cnum.TableText(text);
        const states = table.items('states').map(it => it.text);
        const cellOf = (operation, index) => `${operation.response[index].text} → ${operation.next[index].text}`;
        return new Map(table.operations.flatMap(it => states.map((state, index) => [`${it.name.text} ${state}`, cellOf(it, index)])));
    }

    // The cells in which two tables differ, each as { operation, state, first, second }. A cell that one of
    // them lacks is null there.
    Cnum.differences = function (first, second) {
        const [a, b] = [cellsOf(first), cellsOf(second)];
        const keys = [...new Set([...a.keys(), ...b.keys()])].filter(it => a.get(it) !== b.get(it));
        return keys.map(key => {
            const [operation, state] = key.split(' ');
            return { operation, state, first: a.get(key) || null, second: b.get(key) || null };
        });
    };

    // The table without each of its operations in turn, as { operation, text }. The last one is not left out.
    Cnum.withoutEach = function (text) {
        const table = new Cnum.TableText(text);
        if (table.operations.length < 2) return [];
        return table.operations.map((it, index) => ({ operation: it.name.text, text: Cnum.edits.removeOperation(table, index) }));
    };

    // The table with these operations alone, by their places.
    function only(text, places) {
        const count = new Cnum.TableText(text).operations.length;
        const others = Array.from({ length: count }, (_, index) => count - 1 - index).filter(it => !places.includes(it));
        return others.reduce((left, index) => Cnum.edits.removeOperation(new Cnum.TableText(left), index), text);
    }

    // The table with each operation alone and with each pair of them, as { operations, text }.
    Cnum.setsUpToTwo = function (text) {
        const names = new Cnum.TableText(text).operations.map(it => it.name.text);
        const places = names.flatMap((_, first) => [[first], ...names.map((_, second) => [first, second]).slice(first + 1)]);
        return places.map(its => ({ operations: its.map(it => names[it]), text: only(text, its) }));
    };

    // What `pairs` tells, by the number of a table and those of these sets of its operations. The smallest sets of the number are
    // null if each has more than two operations, or if the number is not decided.
    Cnum.pairsToldBy = function (sets, [number, ...numbers]) {
        const told = sets.map(({ operations }, index) => ({ number: numbers[index], operations }));
        const ofSize = size => told.filter(it => it.operations.length === size);
        const found = [1, 2].map(size => ofSize(size).filter(it => it.number === number)).find(it => it.length);
        return { number, alone: ofSize(1), pairs: ofSize(2), smallest: found ? found.map(it => it.operations) : null };
    };

    // The table with each operation alone and with each pair of them, as { row, column, number, text }, by what `pairs`
    // tells of the table.
    Cnum.pairsOf = function (text, { alone, pairs }) {
        const names = new Cnum.TableText(text).operations.map(it => it.name.text);
        return [...alone, ...pairs].map(({ number, operations }) => {
            const places = operations.map(it => names.indexOf(it));
            return { row: Math.max(...places), column: Math.min(...places), number: Cnum.numberText(number), text: only(text, places) };
        });
    };

    // The smallest sets of operations with the number of the type, as `pairs` tells them.
    function smallest({ number, smallest: sets }) {
        if (!sets) return typeof number === 'object' ? [] : [element('p', {}, say('no_small_set', { number: Cnum.numberText(number) }))];
        if (!sets.length) return [];
        const listed = element('ul', {}, ...sets.map(it => element('li', {}, it.join(', '))));
        return [element('p', {}, say('smallest_sets', { number: Cnum.numberText(number) })), listed];
    }

    class Comparison {
        // Shows comparisons in this place. `kind` tells which number is chosen. `numbers` gives the numbers of tables, `two` those
        // of two side by side, `pairs` what `pairs` tells of a table, and `changes` what `changes` does; each is null if the
        // program ends with a fault or is broken off. `breakOff` does that, and `breakOffAnswer` for all but `two`. `take` makes
        // a table the present one, and `openWhy` also shows why it has its number.
        constructor(place, asks) {
            Object.assign(this, asks, { text: '', first: null, round: 0, turn: 0, running: 0, repeat: null, map: null, opening: null });
            this.withoutButton = button(say('without_each'), () => this.leaveOut());
            this.pairsButton = button(say('each_pair'), () => this.pair());
            this.changesButton = button(say('each_entry'), () => this.changeEntries());
            this.keepButton = button(say('keep_table'), () => this.keep());
            this.answer = element('div', { 'aria-live': 'polite' });
            this.beside = element('div', { 'aria-live': 'polite' });
            this.waited = element('span');
            this.waiting = element('div', { hidden: '' }, this.waited, ' ', button(say('break_off'), () => this.breakOff()));
            const buttons = element('div', { class: 'buttons' }, this.pairsButton, this.withoutButton, this.changesButton, this.keepButton);
            place.replaceChildren(buttons, this.waiting, this.answer, this.beside);
        }

        // The present table, or an empty text if it has flaws. If it is the one of the last map of changes, as behind an undo, the map
        // is shown again.
        show(text) {
            const compared = this.begin(text);
            if (text && this.isMapped()) this.showMap();
            return compared;
        }

        // Takes this table, and shows nothing of it but the one that was kept beside it.
        begin(text) {
            this.text = text;
            this.repeat = null;
            this.round++;
            this.withoutButton.disabled = this.pairsButton.disabled = Cnum.withoutEach(text).length === 0;
            this.keepButton.disabled = this.changesButton.disabled = !text;
            this.answer.replaceChildren();
            return this.compare();
        }

        // Shows the same comparison for the other choice of numbers.
        again() {
            const { repeat, text } = this;
            this.breakOff();
            this.begin(text);
            if (repeat) repeat();
        }

        // What is asked for, or null if another table has come since. If it takes long, that is shown, and for how long.
        async told(asked, running = 'running', words = {}) {
            const { round } = this;
            const began = performance.now();
            this.running++;
            const tick = setInterval(() => {
                const passed = performance.now() - began;
                if (passed < BEFORE_WAITING) return;
                this.waited.textContent = say(running, { ...words, seconds: (passed / 1000).toFixed(1) });
                this.waiting.hidden = false;
            }, TICK);
            const answer = await asked;
            clearInterval(tick);
            this.running--;
            if (!this.running) this.waiting.hidden = true;
            return round === this.round ? answer : null;
        }

        // Ends what was asked for in the place of answers, as something else comes there. The number of that.
        nextTurn() {
            this.breakOffAnswer();
            return ++this.turn;
        }

        // What is asked for in the place of answers, or null if another table or something else has come since.
        async answerOf(ask, ...running) {
            const turn = this.nextTurn();
            const told = await this.told(ask(), ...running);
            return turn === this.turn ? told : null;
        }

        // The number of the table without each of its operations.
        async leaveOut() {
            this.repeat = () => this.leaveOut();
            const tables = Cnum.withoutEach(this.text);
            const told = await this.answerOf(() => this.numbers([this.text, ...tables.map(it => it.text)]));
            if (!told) return;
            const [whole, ...numbers] = told.map(Cnum.numberText);
            const showing = text => button(say('show_table'), () => this.take(text));
            const rows = tables.map((it, index) => [it.operation, numbers[index], showing(it.text)]);
            const heads = ['operation_left', 'number_column', 'show_head'].map(it => say(it));
            const table = tableOf(heads, [[say('no_operation'), whole, ''], ...rows], { class: 'pairs' });
            this.answer.replaceChildren(element('h3', {}, say('without_head')), wide(say('without_head'), table));
        }

        // The number of each operation alone and of each pair, in a triangle. A cell leads to the table. Below it, the
        // smallest sets with the number of the whole.
        async pair() {
            const { text } = this;
            this.repeat = () => this.pair();
            const told = await this.answerOf(() => this.pairs(text));
            if (!told) return;
            const names = told.alone.map(it => it.operations[0]);
            const rows = names.map(name => [name, ...Array(names.length).fill('')]);
            for (const { row, column, number, text: pair } of Cnum.pairsOf(text, told)) {
                const about = say('pair_label', { first: names[row], second: names[column], number });
                rows[row][column + 1] = button(number, () => this.openWhy(pair), { 'aria-label': about, title: about });
            }
            const table = tableOf([say('operation_head'), ...names], rows, { class: 'pairs' });
            this.answer.replaceChildren(element('h3', {}, say('pairs_head')), wide(say('pairs_head'), table), ...smallest(told));
        }

        // The number with each other entry, as a map. If the last map is of this table, it is not asked for again.
        async changeEntries() {
            const { text } = this;
            const kind = this.kind();
            const ask = ofTwo => this.answerOf(() => this.changes(text, ofTwo), 'running_changes', { count: Cnum.countChanges(text, ofTwo) });
            this.repeat = () => this.changeEntries();
            if (this.isMapped()) {
                this.nextTurn();
            } else {
                const told = await ask(false);
                if (!told) return;
                this.map = { text, kind, shown: new Cnum.ChangeMap(text, told, { make: changed => this.open(changed), two: () => ask(true) }) };
            }
            this.showMap();
        }

        // Whether the last map is of the present table and of the number that is chosen.
        isMapped() {
            return Boolean(this.map) && this.map.text === this.text && this.map.kind === this.kind();
        }

        showMap() {
            this.repeat = () => this.changeEntries();
            this.answer.replaceChildren(this.map.shown.place);
            this.map.shown.focus();
        }

        // Takes a table, and shows it beside the present one.
        open(text) {
            this.first = this.text;
            this.opening = text;
            return this.take(text);
        }

        keep() {
            this.first = this.text;
            return this.compare();
        }

        // The table that was kept beside the present one, if they are two.
        async compare() {
            const { text, first } = this;
            if (!first || !text || first === text) {
                this.beside.replaceChildren(...(first && text ? [element('p', { class: 'quiet' }, say('table_kept'))] : []));
                return;
            }
            const told = await this.told(this.two([first, text]));
            if (!told) return;
            const numbers = told.map(Cnum.numberText);
            const found = Cnum.differences(first, text);
            const heads = ['operation_head', 'state_head', 'table_kept_head', 'table_now_head'].map(it => say(it));
            const rows = found.map(it => [it.operation, it.state, it.first || say('no_cell'), it.second || say('no_cell')]);
            const sentence = element('p', {}, say(found.length === 1 ? 'two_numbers_one' : 'two_numbers', { first: numbers[0], second: numbers[1], count: found.length }));
            const back = button(say('show_kept'), () => this.take(first));
            const table = wide(say('beside_head'), tableOf(heads, rows, { class: 'pairs' }));
            const head = element('h3', { tabindex: -1 }, say('beside_head'));
            this.beside.replaceChildren(head, sentence, ...(found.length ? [table] : []), back);
            if (this.opening === text) head.focus();
            this.opening = null;
        }
    }

    Cnum.Comparison = Comparison;
})();
