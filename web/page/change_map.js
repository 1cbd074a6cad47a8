// The map of changes: the table, tinted where the number rests on an entry, the numbers with another entry there, and the
// changes that raise the number. A change leads to the table with it.
var Cnum = globalThis.Cnum || {};

(() => {
    'use strict';

    const { button, element, say, tableOf, wide } = Cnum;
    const MOST_AT_ONCE = 40; // changes in a list, before the reader asks for more

    const quiet = text => element('p', { class: 'quiet' }, text);
    const onPaper = text => element('span', { class: 'on-paper' }, text);

    class ChangeMap {
        // Shows what `changes` tells of a table, in an element of its own. `make` takes the table with a change, and `two` asks
        // what `changes --pairs` tells, or for null.
        constructor(text, told, { make, two }) {
            Object.assign(this, { text, told, make, two, pressed: null });
            this.entries = Cnum.entriesOf(text, told);
            this.opened = element('div', { class: 'opened' });
            this.ofTwo = element('div');
            this.place = element('div', {}, element('h3', {}, say('entries_head')), ...this.summary(), this.grid(), this.opened, ...this.raising(), this.ofTwo);
        }

        // Where the focus was, when the map comes back.
        focus() {
            if (this.pressed && document.activeElement === document.body) this.pressed.focus();
        }

        // On how many entries the number rests, and of which operations on none.
        summary() {
            const all = this.entries.flat();
            const count = all.filter(it => it.rests).length;
            const key = ['rests_on_none', 'rests_on_one'][count] || 'rests_on';
            const free = this.entries.filter(row => !row.some(it => it.rests)).map(row => row[0].operation);
            const sentences = [say(key, { number: Cnum.numberText(this.told.number), count, whole: all.length })];
            if (count && free.length) sentences.push(say('rests_without', { operations: free.join(', ') }));
            return [element('p', {}, sentences.join(' ')), element('p', { class: 'quiet hint' }, say('entry_hint'))];
        }

        grid() {
            const states = this.entries[0].map(it => it.state);
            const rows = this.entries.map(row => [row[0].operation, ...row.map(it => this.cell(it))]);
            const table = tableOf([say('operation_head'), ...states], rows, { class: 'pairs entries' });
            table.addEventListener('keydown', event => Cnum.stepAmongCells(table, event, 'button'));
            return wide(say('entries_head'), table);
        }

        cell(entry) {
            const text = say('entry_text', { response: entry.response, next: `${entry.next}${entry.rests ? '*' : ''}` });
            const about = say(entry.rests ? 'entry_rests' : 'entry_of', entry);
            const made = button(text, () => this.open(entry, made), { 'aria-pressed': 'false', 'aria-label': about, title: about });
            return element('div', { class: entry.rests ? 'rests' : '' }, made, onPaper(text));
        }

        // The numbers with another entry in this place; the same button takes them away.
        open(entry, pressed) {
            const isOpen = pressed.getAttribute('aria-pressed') === 'true';
            for (const it of this.place.querySelectorAll('.entries button')) it.setAttribute('aria-pressed', String(it === pressed && !isOpen));
            this.opened.replaceChildren(...(isOpen ? [] : this.numbersOf(entry)));
        }

        // For each next state the numbers with the responses there.
        numbersOf(entry) {
            const rows = this.entries[0].map(({ state: next }) => {
                const its = entry.changes.filter(it => it.next === next);
                const chips = its.map(it => this.chip(it, this.numberOf(it)));
                const cell = its.length ? element('span', { class: 'chips' }, ...chips, ...this.anyResponse(its)) : say('no_cell');
                return [next === entry.next ? say('entry_present', { next }) : next, cell];
            });
            const head = say('entry_head', entry);
            const table = tableOf([say('leads_head'), say('number_column')], rows, { class: 'pairs' });
            return [element('h4', {}, head), wide(head, table)];
        }

        // The number of a change, with a sign if it is greater or less, behind its response if it has one.
        numberOf({ number, response }) {
            const { number: whole } = this.told;
            const sign = Cnum.isLess(whole, number) ? ' ↑' : Cnum.isLess(number, whole) ? ' ↓' : '';
            const text = Cnum.numberText(number) + sign;
            return response === null ? text : say('answer_number', { response, number: text });
        }

        // What is said beside a number that holds with several responses.
        anyResponse([change]) {
            const holds = change && change.response === null && new Cnum.TableText(this.text).items('responses').length > 1;
            return holds ? [element('span', { class: 'quiet' }, say(change.isSame ? 'other_response' : 'any_response'))] : [];
        }

        // A button that takes the table with this change.
        chip(change, text, about = Cnum.changeInWords(change), changes = [change]) {
            const { number: whole } = this.told;
            const kind = Cnum.isLess(whole, change.number) ? 'raises' : Cnum.isLess(change.number, whole) ? 'lowers' : '';
            const made = button(text, () => {
                this.pressed = made;
                this.make(Cnum.withChanges(this.text, changes));
            }, { class: `chip ${kind}`, ...(about === text ? {} : { 'aria-label': about, title: about }) });
            return element('span', {}, made, onPaper(text));
        }

        // The changes that raise the number. Where there are none, two changes at once can be asked for, if any number is greater.
        raising() {
            const { number } = this.told;
            const raising = Cnum.raisingOf(this.entries, number);
            if (raising.length) return [element('p', {}, say('raising_head')), ...this.list(raising, it => this.chip(it, Cnum.changeInWords(it)))];
            const two = element('div', { class: 'buttons' }, button(say('two_changes'), () => this.tryTwo()));
            return [element('p', {}, say('raising_none')), ...(Cnum.isLess(number, 'infinite') ? [two] : [])];
        }

        async tryTwo() {
            const told = await this.two();
            if (!told || !told.pairs) return;
            const { raising, cut } = told.pairs;
            const chipOf = it => this.chip(it, Cnum.pairInWords(it), Cnum.pairInWords(it), [it.first, it.second]);
            const found = raising.length ? [element('p', {}, say('raising_two_head')), ...this.list(raising, chipOf)] : [element('p', {}, say('raising_two_none'))];
            this.ofTwo.replaceChildren(...found, ...(cut ? [quiet(say('pairs_cut'))] : []));
        }

        // A list of changes: the first ones, and a button for more.
        list(changes, chipOf) {
            const items = element('ul', { class: 'chips' });
            const more = button('', () => add());
            let count = 0;
            function add() {
                const first = changes.slice(count, count + MOST_AT_ONCE).map(it => element('li', {}, chipOf(it)));
                items.append(...first);
                if (count && first[0]) first[0].querySelector('button').focus();
                count += first.length;
                more.hidden = count === changes.length;
                more.textContent = say('more_changes', { count: Math.min(MOST_AT_ONCE, changes.length - count), left: changes.length - count });
            }
            add();
            return [items, element('div', { class: 'buttons' }, more)];
        }
    }

    Cnum.ChangeMap = ChangeMap;
})();
