// "Let 3 try it anyway": two runs of a protocol that cannot be, one below the other, stepped together. In the end one process
// cannot tell them apart, and the reader lets it decide.
var Cnum = globalThis.Cnum || {};

(() => {
    'use strict';

    const { button, element, say, wide } = Cnum;
    const { tasks } = Cnum.reasonParts;
    const KEYS = { ArrowLeft: -1, ArrowRight: 1 };

    class FailingView {
        // Shows them in this place. `picture` gives the picture of the states with a choice in it, and `close` leads back.
        constructor(place, page) {
            Object.assign(this, { place, page });
            this.clear();
            document.addEventListener('keydown', event => this.key(event));
            window.addEventListener('resize', () => this.fit());
            Cnum.beforePrint(() => this.position === 0 && this.moveTo(Infinity));
        }

        clear() {
            this.failing = null;
            this.place.replaceChildren();
        }

        isThere() {
            return Boolean(this.failing);
        }

        // Takes runs that fail, if there are any.
        show(failing) {
            this.clear();
            this.failing = failing;
            this.isDrawn = false;
        }

        // What the button says that leads here.
        title() {
            return this.failing ? say(this.failing.reads ? 'try_anyway' : 'try_unread', { count: this.failing.processes.length }) : '';
        }

        // Draws all, once it is wanted.
        draw() {
            const { failing } = this;
            const picture = this.page.picture({ start: failing.start, roles: failing.processes }, failing.merged);
            this.decision = null;
            this.columns = failing.runs.map((it, index) => this.column(it, index, index ? picture.cloneNode(true) : picture));
            this.verdict = element('p', { class: 'verdict', 'aria-live': 'polite' });
            this.choices = element('div', { class: 'buttons' }, ...failing.runs.map(it => this.choiceOf(it)));
            this.said = element('p', { class: 'step-of-runs', 'aria-live': 'polite' });
            this.place.replaceChildren(
                element('h3', { class: 'last-step' }, `${this.page.name()} – ${this.title()}`),
                element('p', { class: 'quiet' }, this.intro()),
                this.controls(),
                this.said,
                ...this.columns.map(it => it.whole),
                element('div', { class: 'end' }, this.verdict, this.choices),
            );
            this.isDrawn = true;
            this.moveTo(0);
        }

        intro() {
            const { processes, start, ways, reads } = this.failing;
            const words = { count: processes.length, start, tasks: tasks(processes), ways };
            if (!reads) return say(ways === 1 ? 'fail_intro_unread_one' : 'fail_intro_unread', words);
            return say(ways === 1 ? 'fail_intro_one' : 'fail_intro', words);
        }

        controls() {
            this.slider = element('input', { type: 'range', min: 0, value: 0, id: 'failing-place' });
            this.slider.addEventListener('input', () => this.moveTo(Number(this.slider.value)));
            this.count = element('output', { for: 'failing-place' });
            const buttons = [
                button(say('fail_close'), () => this.page.close()),
                button(say('run_anew'), () => this.moveTo(0)),
                (this.backButton = button(say('step_back'), () => this.moveTo(this.position - 1))),
                (this.nextButton = button(say('step_on'), () => this.moveTo(this.position + 1))),
                button(say('to_the_end'), () => this.moveTo(Infinity)),
            ];
            const label = element('label', { for: 'failing-place' }, say('run_place'));
            const place = element('p', { class: 'run-place' }, label, this.slider, this.count);
            return element('div', { class: 'controls' }, element('div', { class: 'buttons' }, ...buttons), place);
        }

        column({ team, value }, index, picture) {
            const diagram = wide(say('run_of_two', { number: index + 1 }), '');
            const states = wide(say('states_of_run'), picture);
            const outcome = element('p', { class: 'outcome' });
            const head = element('div', { class: 'head-row' }, element('h3', {}, say('fail_run', { number: index + 1, team, value })), outcome);
            diagram.classList.add('diagram');
            diagram.addEventListener('scroll', () => Cnum.holdHeads(diagram));
            states.classList.add('states-of-run');
            const whole = element('section', { class: 'failing-run' }, head, diagram, states);
            return { whole, diagram, states, picture, outcome };
        }

        choiceOf({ value }) {
            const label = say('fail_decide', { process: this.failing.doubting, value });
            return button(label, () => this.decide(value), { 'aria-pressed': 'false', 'data-value': value });
        }

        // The process that cannot tell decides this; the same in both runs.
        decide(value) {
            this.decision = this.decision === value ? null : value;
            this.moveTo(this.length());
        }

        ends() {
            const { runs, doubting } = this.failing;
            return this.decision ? runs.map(it => Cnum.failingEnd(it, doubting, this.decision)) : runs.map(it => ({ ...it, wrong: null }));
        }

        length() {
            return Math.max(...this.ends().map(it => it.events.length));
        }

        // Shows so many steps of each run. One that is shorter stays at its end.
        moveTo(count) {
            if (!this.isDrawn) return;
            const whole = Math.max(...this.failing.runs.map(it => it.events.length));
            if (count < whole) this.decision = null;
            this.position = Math.max(0, Math.min(count, this.length()));
            const isAtEnd = this.position >= whole;
            this.columns.forEach((column, index) => this.showRun(column, this.ends()[index], isAtEnd));
            this.slider.max = this.length();
            this.slider.value = this.position;
            this.count.textContent = say('run_count', { count: this.position, whole: this.length() });
            this.allow(this.position > 0, this.position < this.length());
            this.verdict.textContent = isAtEnd ? this.verdictText() : '';
            this.choices.classList.toggle('later', !isAtEnd);
            for (const it of this.choices.children) it.setAttribute('aria-pressed', String(it.dataset.value === this.decision));
            this.said.textContent = this.lastSteps();
            this.fit();
        }

        focus() {
            this.nextButton.focus();
        }

        // Which of the two buttons can be pressed. A focus on the other one goes to it.
        allow(back, next) {
            const { backButton, nextButton } = this;
            const focused = document.activeElement;
            [backButton.disabled, nextButton.disabled] = [!back, !next];
            if (!next && focused === nextButton) backButton.focus();
            if (!back && focused === backButton) nextButton.focus();
        }

        showRun(column, run, isAtEnd) {
            const { inputs, plan, start, doubting } = this.failing;
            const shown = run.events.slice(0, this.position);
            const picture = Cnum.spaceTime(shown, inputs, plan, { doubting: isAtEnd ? doubting : null, isShort: true });
            column.diagram.replaceChildren(picture);
            column.diagram.scrollLeft = column.diagram.scrollWidth;
            Cnum.holdHeads(column.diagram);
            const last = shown.filter(it => it.kind === 'applies').pop();
            Cnum.lightUp(column.picture, last ? last.after : start, last);
            column.whole.classList.toggle('wrong', Boolean(run.wrong));
            column.outcome.textContent = this.outcomeText(run);
        }

        outcomeText({ wrong, team, value, decidedBy }) {
            const words = { team, value, decision: this.decision, process: this.failing.doubting, first: decidedBy };
            if (wrong) return say(`fail_${wrong}`, words);
            return this.decision ? say('fail_right', words) : '';
        }

        // What the process gets in both runs.
        sameText() {
            const { doubting: process, reads, sight, state, got } = this.failing;
            if (reads) return say('fail_same', { process, ...sight });
            return say(got ? 'fail_same_unread' : 'fail_nothing', { process, state });
        }

        // Why whatever the process decides is wrong in one of the runs.
        verdictText() {
            const { doubting: process, runs } = this.failing;
            const [one, two] = runs.map(it => it.decidedBy);
            const same = this.sameText();
            const [first, second] = runs.map(it => it.value);
            const words = { process, one, two, first, second };
            return `${same} ${say(one === null || two === null ? 'fail_whatever_first' : 'fail_whatever', words)}`;
        }

        // The steps that came last, in words.
        lastSteps() {
            const told = this.ends().map(({ events }, index) => {
                const event = events[this.position - 1];
                return event ? say('step_of_run', { number: index + 1, step: say(`log_${event.kind}`, event) }) : '';
            });
            return told.filter(Boolean).join(' ');
        }

        fit() {
            if (!this.isDrawn || !this.place.getClientRects().length) return;
            Cnum.fitLarge([], this.columns.flatMap(it => [it.diagram, it.states]));
        }

        // Arrow keys lead through the runs, wherever the focus is.
        key(event) {
            if (!this.isDrawn || !(event.key in KEYS) || event.shiftKey || !Cnum.isPlainKey(event)) return;
            if (!this.place.getClientRects().length || event.target.matches?.('input')) return;
            event.preventDefault();
            this.moveTo(this.position + KEYS[event.key]);
        }
    }

    Cnum.FailingView = FailingView;
})();
