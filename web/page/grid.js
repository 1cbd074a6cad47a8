// The table as a grid: a row for each operation, a column for each state, and in each cell the response and
// the next state, which the reader can choose there. A change goes into the text.
var Cnum = globalThis.Cnum || {};

(() => {
    'use strict';

    const { button, edits, element, say } = Cnum;
    const MOST_ON_PAPER = 6; // states of a grid for which half of a sheet is enough
    const [MOST_STATES, MOST_RESPONSES, MOST_OPERATIONS] = [16, 16, 8];
    const MOST = { states: MOST_STATES, responses: MOST_RESPONSES, operation: MOST_OPERATIONS };
    const STEPS = { ArrowUp: [-1, 0], ArrowDown: [1, 0], ArrowLeft: [0, -1], ArrowRight: [0, 1] };

    // A field, and its value for paper, where there are no fields.
    const onPaper = (field, value) => [field, element('span', { class: 'on-paper' }, value)];

    // A choice among names, as a cell has two. It also shows a name that is none of them.
    function choice(label, names, chosen, choose) {
        const isKnown = names.includes(chosen);
        const options = (isKnown ? names : [...names, chosen]).map(it => element('option', { value: it }, it));
        const select = element('select', { 'aria-label': label, title: label }, ...options);
        select.value = chosen;
        if (!isKnown) select.setAttribute('aria-invalid', 'true');
        select.addEventListener('change', () => choose(select.value));
        return onPaper(select, chosen);
    }

    // A name that can be changed. Its field is as wide as the name.
    function nameField(label, name, change) {
        const size = Math.max(2, name.length);
        const field = element('input', { 'aria-label': label, title: label, value: name, size, spellcheck: 'false', autocomplete: 'off' });
        field.addEventListener('change', () => change(field.value));
        return onPaper(field, name);
    }

    // A button that takes away what has a name. The last one of its kind stays.
    function removal(label, isPossible, remove) {
        const made = button('×', remove, { class: 'small', 'aria-label': label, title: label });
        made.disabled = !isPossible;
        return made;
    }

    class Grid {
        // Shows a grid in this place, and hands on each changed text.
        constructor(place, change) {
            this.place = place;
            this.change = change;
            place.addEventListener('keydown', event => Cnum.stepAmongCells(place, event, 'input, select'));
        }

        show(text) {
            const focused = this.focusedPlace();
            this.table = new Cnum.TableText(text);
            if (this.table.isGrid()) {
                this.place.replaceChildren(this.cells(), ...this.left(), this.responses(), this.additions());
                if (focused) this.focus(focused);
            } else {
                this.place.replaceChildren(element('p', { class: 'quiet' }, say('no_grid')));
            }
        }

        // The names of a list of the table.
        names(list) {
            return this.table.items(list).map(it => it.text);
        }

        cells() {
            const table = this.table;
            const type = nameField(say('type_label'), table.entry('name').value.text, name => this.change(edits.renameType(table, name)));
            const corner = element('th', { scope: 'col' }, element('span', { class: 'hidden' }, say('operation_head')));
            const heads = this.listed('state', 'states', edits.removeState).map(its => element('th', { scope: 'col' }, ...its));
            return element(
                'table',
                { class: table.items('states').length > MOST_ON_PAPER ? 'broad' : '' },
                element('caption', {}, say('name_of_type'), ...type),
                element('thead', {}, element('tr', {}, corner, ...heads)),
                element('tbody', {}, ...table.operations.map((operation, index) => this.row(operation, index))),
            );
        }

        // What is said if entries name a state or a response that is not there.
        left() {
            const unknown = (items, list) => items.filter(it => !this.names(list).includes(it.text)).length;
            const count = this.table.operations.reduce((sum, it) => sum + unknown(it.next, 'states') + unknown(it.response, 'responses'), 0);
            const text = say(count === 1 ? 'entry_left' : 'entries_left', { count });
            return count ? [element('p', { class: 'trouble', role: 'status' }, text)] : [];
        }

        row(operation, index) {
            const table = this.table;
            const name = operation.name.text;
            const rename = text => edits.renameOperation(table, index, text);
            const remove = () => edits.removeOperation(table, index);
            const head = this.named('operation', name, table.operations.length > 1, rename, remove);
            const cells = this.names('states').map((_, state) => this.cell(index, state));
            return element('tr', {}, element('th', { scope: 'row' }, ...head), ...cells);
        }

        cell(index, state) {
            const table = this.table;
            const operation = table.operations[index];
            const about = { operation: operation.name.text, state: this.names('states')[state] };
            const put = row => name => this.change(edits.entry(table, index, row, state, name));
            return element(
                'td',
                {},
                ...choice(say('response_of', about), this.names('responses'), operation.response[state].text, put('response')),
                element('span', { 'aria-hidden': 'true' }, '→'),
                ...choice(say('state_after', about), this.names('states'), operation.next[state].text, put('next')),
            );
        }

        // The field and the button of each name of a list.
        listed(kind, list, remove) {
            const table = this.table;
            const names = this.names(list);
            return names.map((name, index) => {
                const rename = text => edits.rename(table, list, index, text);
                return this.named(kind, name, names.length > 1, rename, () => remove(table, index));
            });
        }

        named(kind, name, canRemove, rename, remove) {
            const about = { kind: say(`kind_${kind}`), name };
            const field = nameField(say('name_of', about), name, text => this.change(rename(text)));
            return [...field, removal(say('remove', about), canRemove, () => this.change(remove()))];
        }

        responses() {
            const items = this.listed('response', 'responses', edits.removeResponse).map(its => element('li', {}, ...its));
            const label = element('span', { id: 'responses-label' }, say('responses_label'));
            return element('div', { class: 'responses' }, label, element('ul', { 'aria-labelledby': 'responses-label' }, ...items));
        }

        additions() {
            const kinds = [
                ['add_state', 'states', edits.addState],
                ['add_operation', 'operation', edits.addOperation],
                ['add_response', 'responses', edits.addResponse],
            ];
            const buttons = kinds.map(([label, list, add]) => {
                const isFull = this.table.items(list).length >= MOST[list];
                const made = button(say(label), () => isFull || this.change(add(this.table)), { 'aria-label': say(label) });
                if (isFull) Cnum.setAll(made, { 'aria-disabled': 'true', title: say('most', { most: MOST[list] }) });
                return made;
            });
            return element('div', { class: 'buttons' }, ...buttons);
        }

        // The fields of the grid, row by row. A table that is shown anew has the focus where it was before.
        fields() {
            return [...this.place.querySelectorAll('input, select, button')];
        }

        focusedPlace() {
            const at = this.fields().indexOf(document.activeElement);
            return at < 0 ? null : { at, label: document.activeElement.getAttribute('aria-label') };
        }

        focus({ at, label }) {
            const fields = this.fields();
            const same = label && fields.find(it => it.getAttribute('aria-label') === label);
            (same || fields[Math.min(at, fields.length - 1)]).focus();
        }

    }

    // With the key Alt, the arrow keys go from cell to cell of a table, to the first of these fields in it.
    Cnum.stepAmongCells = function (place, event, fields) {
        const cell = event.target.closest('th, td');
        if (!event.altKey || !STEPS[event.key] || !cell) return;
        event.preventDefault();
        const [down, right] = STEPS[event.key];
        const row = place.querySelectorAll('tr')[cell.parentNode.rowIndex + down];
        const next = row && row.cells[cell.cellIndex + right];
        const field = next && next.querySelector(fields);
        if (field) field.focus();
    };

    Cnum.Grid = Grid;
})();
