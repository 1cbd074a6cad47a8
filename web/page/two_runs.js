// Two runs of an adversary side by side, stepped together: different teams begin them, and in the end some process has
// got the same in both.
var Cnum = globalThis.Cnum || {};

(() => {
    'use strict';

    const { button, element, marked, say, tableOf, wide } = Cnum;
    const { process, run } = Cnum.reasonParts;
    const KEYS = { ArrowLeft: -1, ArrowRight: 1 };

    // A step of a run with the state before and after it.
    const moveOf = ({ operation, state }, before) => ({ operation, before, after: state });

    class TwoRuns {
        // Shows the runs of a choice, as `why --without-read` tells it, in a picture of the states.
        constructor(choice, picture) {
            const columns = [[choice.a_first, 'A'], [choice.b_first, 'B']];
            const pictures = [picture, picture.cloneNode(true)];
            this.choice = choice;
            this.length = Math.max(...columns.map(([steps]) => steps.length));
            this.parts = []; // what is seen from a step on, as { place, it }
            this.runs = columns.map(([steps, team], index) => ({ steps, team, picture: pictures[index] }));
            this.end = element('p', { class: 'end-of-runs' }, this.ending());
            this.said = element('p', { class: 'hidden', 'aria-live': 'polite' });
            this.whole = element(
                'div',
                { class: 'two-runs' },
                this.controls(),
                element('div', { class: 'columns' }, ...this.runs.map((it, index) => this.column(it, index))),
                this.gotten(),
                this.end,
                this.said,
            );
            this.moveTo(this.length);
            this.said.textContent = '';
            queueMicrotask(() => this.reveal()); // once it is on the page
        }

        controls() {
            this.slider = element('input', { type: 'range', min: 0, max: this.length, id: 'runs-place' });
            this.slider.addEventListener('input', () => this.moveTo(Number(this.slider.value)));
            this.count = element('output', { for: 'runs-place' });
            this.backButton = button(say('step_back'), () => this.moveTo(this.position - 1));
            this.nextButton = button(say('step_on'), () => this.moveTo(this.position + 1));
            const buttons = element('div', { class: 'buttons' }, button(say('run_anew'), () => this.moveTo(0)), this.backButton, this.nextButton);
            buttons.addEventListener('keydown', event => this.key(event));
            const label = element('label', { for: 'runs-place' }, say('run_place'));
            return element('div', { class: 'controls' }, buttons, element('p', { class: 'run-place' }, label, this.slider, this.count));
        }

        column({ steps, team, picture }, index) {
            const { start, process: doubting } = this.choice;
            const row = run(steps, team, start, doubting);
            const ofSteps = [...row.children].slice(2); // behind the team and the start state: of each step its arrow and its state
            ofSteps.forEach((it, at) => this.seenFrom(Math.floor(at / 2), it));
            return element('section', {}, element('h4', {}, say('run_of_two', { number: index + 1 })), row, wide(say('states_of_run'), picture));
        }

        // What each process got in both runs. The row of the one that got the same stands out.
        gotten() {
            const { processes, process: doubting } = this.choice;
            const rows = processes.map(({ team }, place) => {
                const cells = this.runs.map(({ steps }) => this.gottenBy(steps, place));
                return [say('process_of_team', { process: process(place), team }), ...cells];
            });
            const heads = [say('why_process'), ...[1, 2].map(number => say('run_of_two', { number }))];
            this.table = tableOf(heads, rows, { class: 'pairs' });
            this.table.children[1].children[doubting].classList.add('same');
            return wide(say('got_in_both'), this.table);
        }

        gottenBy(steps, place) {
            const shown = steps.map(({ process: by, operation, response }, at) => {
                if (by !== place) return null;
                const it = element('li', {}, say('answer_of', { operation, response }));
                this.seenFrom(at, it);
                return it;
            });
            return element('ul', {}, ...shown.filter(Boolean));
        }

        seenFrom(place, it) {
            this.parts.push({ place, it });
        }

        ending() {
            const { process: doubting, a_first: steps, start } = this.choice;
            const { state } = steps[steps.length - 1] || { state: start };
            const hasMoved = steps.some(it => it.process === doubting);
            return say(hasMoved ? 'runs_same' : 'runs_nothing', { process: process(doubting), state });
        }

        // Shows so many steps of each run. A run that is shorter stays at its end.
        moveTo(count) {
            this.position = Math.max(0, Math.min(count, this.length));
            const isAtEnd = this.position === this.length;
            for (const { place, it } of this.parts) it.classList.toggle('later', place >= this.position);
            this.end.classList.toggle('later', !isAtEnd);
            this.table.classList.toggle('ended', isAtEnd);
            this.runs.forEach(it => this.light(it));
            this.reveal();
            this.slider.value = this.position;
            this.count.textContent = say('run_count', { count: this.position, whole: this.length });
            this.allow(this.position > 0, !isAtEnd);
            this.said.textContent = this.lastSteps();
        }

        // Which of the two buttons can be pressed. A focus on the other one goes to it.
        allow(back, next) {
            const { backButton, nextButton } = this;
            const focused = document.activeElement;
            [backButton.disabled, nextButton.disabled] = [!back, !next];
            if (!next && focused === nextButton) backButton.focus();
            if (!back && focused === backButton) nextButton.focus();
        }

        // Lights up the state of the object after the steps that are shown.
        light({ steps, picture }) {
            const { start } = this.choice;
            const taken = steps.slice(0, this.position);
            const states = [start, ...taken.map(it => it.state)];
            const last = taken[taken.length - 1];
            Cnum.lightUp(picture, states[states.length - 1], last && moveOf(last, states[states.length - 2]));
        }

        // Scrolls the pictures to the states that are lit.
        reveal() {
            for (const { picture } of this.runs) Cnum.reveal(picture.parentElement, '.node.lit');
        }

        // The steps that came last, in words.
        lastSteps() {
            const told = this.runs.map(({ steps }, index) => {
                const step = steps[this.position - 1];
                return step ? say('step_of_two', { number: index + 1, ...step, process: process(step.process) }) : '';
            });
            const isAtEnd = this.position === this.length;
            return [...told, isAtEnd ? this.ending() : ''].filter(Boolean).join(' ');
        }

        key(event) {
            if (!(event.key in KEYS) || event.ctrlKey || event.altKey || event.metaKey) return;
            event.preventDefault();
            this.moveTo(this.position + KEYS[event.key]);
        }
    }

    // Both runs of a choice, as an element, with what they are for.
    Cnum.twoRuns = function (choice, picture) {
        const intro = element('p', {}, ...marked('runs_begin'));
        return [intro, new TwoRuns(choice, picture).whole];
    };
})();
