// The protocol, stepped by hand: keeps the acts of a run, and shows what `agree --steps` says of them.
var Cnum = globalThis.Cnum || {};

(() => {
    'use strict';

    const { element, run, say } = Cnum;
    const STOPS = 1 / 14; // how often, in a random run, a process stops instead of taking a step

    class Protocol {
        // Shows protocols in this place. `agree` runs the command with these inputs and this schedule, and
        // `tryOut` does so where it can be broken off, by `breakOff`. `picture` gives a picture of the states, and
        // `mainPicture` the one in which the state is lit up too. `changed` is called when the content of the link has changed, `say` with what
        // happened last, and `save` with a picture to save.
        constructor(place, page) {
            Object.assign(this, { place, page });
            this.turn = 0;
            this.clear('');
            window.addEventListener('resize', () => this.view && this.view.fit());
            Cnum.beforePrint(() => this.view && this.view.layOutForPaper());
        }

        clear(why) {
            this.plan = null;
            this.view = null;
            this.answers = new Map();
            this.acts = [];
            this.events = [];
            this.position = 0;
            this.inputs = [];
            this.turn++;
            this.place.replaceChildren(element('p', { class: 'quiet' }, why));
        }

        // Shows the plan of `show --as json`, or one of processes that come back, after these acts with these inputs.
        show(plan, inputs, acts) {
            this.plan = plan;
            this.answers = new Map();
            this.inputs = inputs.length === plan.processes ? inputs : Cnum.firstInputs(plan.processes);
            this.view = new Cnum.RunView(this.place, this);
            return this.set(acts);
        }

        // Another run, shown up to its end.
        set(acts) {
            this.acts = acts;
            this.position = acts.length;
            return this.update();
        }

        // An act after what is shown. What came behind that is forgotten.
        act(process, does) {
            return this.set([...this.actsSoFar(), { process, does }]);
        }

        actsSoFar() {
            return this.acts.slice(0, this.position);
        }

        // Shows the run up to this number of acts.
        moveTo(count) {
            this.position = Math.max(0, Math.min(count, this.events.length));
            this.render();
        }

        undo() {
            this.moveTo(this.position - 1);
            this.page.changed();
        }

        // The process has this input from now on.
        propose(process, input) {
            this.inputs[process] = input;
            return this.update();
        }

        activeProcesses() {
            return run.active(run.after(this.events.slice(0, this.position), this.plan).processes);
        }

        // The processes that go on, and of those that come back each that has not stopped.
        processesThatMayAct() {
            const { processes } = run.after(this.events.slice(0, this.position), this.plan);
            const all = processes.map((_, process) => process).filter(it => !processes[it].hasStopped);
            return this.plan.comeBack ? all : run.active(processes);
        }

        // Lets each process that goes on take a step in turn, until all have decided.
        runAll() {
            const round = this.activeProcesses().map(run.stepOf);
            return this.set([...this.actsSoFar(), ...Array(this.plan.most).fill(round).flat()]);
        }

        // Lets processes take steps at random. Some stop on the way, and some crash, if they may. Those that go on decide
        // in the end.
        runRandomly() {
            let going = this.processesThatMayAct();
            const acts = [];
            for (let count = 2 * this.plan.processes * this.plan.most; count > 0 && going.length; count--) {
                const process = going[Math.floor(Math.random() * going.length)];
                const does = this.randomAct(going.length > 1);
                acts.push({ process, does });
                if (does === run.STOP) going = going.filter(it => it !== process);
            }
            const rest = going.flatMap(process => Array(this.plan.most).fill(run.stepOf(process)));
            return this.set([...this.actsSoFar(), ...acts, ...rest]);
        }

        // A process that may crash does so about twice in such a run, so that it also gets far.
        randomAct(mayStop) {
            if (mayStop && Math.random() < STOPS) return run.STOP;
            return this.plan.comeBack && Math.random() < 1 / this.plan.most ? run.CRASH : run.STEP;
        }

        // What the program says of a run: its events. It is asked only once for each.
        async runOf(acts) {
            const possible = run.withoutStopped(acts);
            const key = JSON.stringify([this.inputs, possible]);
            if (!this.answers.has(key)) this.answers.set(key, await this.ask(this.page.agree, possible));
            return this.answers.get(key);
        }

        async ask(agree, acts) {
            const answer = await agree([this.inputs.join(','), run.scheduleOf(acts)]);
            if (answer.isBrokenOff) return null;
            if (answer.status !== 0) return { fault: Cnum.inWords(answer) };
            const { steps } = Cnum.exactValueOf(answer.stdout);
            return { events: run.eventsOf(acts, steps) };
        }

        // Runs the acts, and shows what the program says of them.
        async update() {
            const turn = ++this.turn;
            const told = await this.runOf(this.acts);
            if (turn !== this.turn) return;
            if (told.fault) {
                this.view.fail(told.fault);
                return;
            }
            this.events = told.events;
            this.acts = actsOf(told.events);
            this.position = Math.min(this.position, this.acts.length);
            this.render();
            this.page.changed();
        }

        render() {
            const events = this.events.slice(0, this.position);
            this.view.show(events, this.events.length, run.after(events, this.plan));
        }

        // Lights up the states again, in a picture that is drawn anew.
        relight() {
            if (this.plan && this.view) this.render();
        }

        // Tries schedules, and shows how many there were and the one that is hardest.
        async tryToBreak() {
            const turn = ++this.turn;
            const { inputs, plan } = this;
            const tell = count => {
                this.tried = count;
                this.view.showTrial(say('trial_runs', { count }), true);
            };
            tell(0);
            const tryOne = async schedule => {
                const told = await this.ask(this.page.tryOut, schedule);
                return told && !told.fault && turn === this.turn ? { events: told.events, inputs } : null;
            };
            const found = await Cnum.tryToBreak(plan, tryOne, tell);
            if (turn !== this.turn) return;
            const hardest = found.broken || found.worst;
            await this.set(actsOf(hardest.events));
            if (this.plan === plan) this.view.showTrial(trialText(found, plan), false);
        }

        // Shows nothing any more of what runs, as the table changes.
        end() {
            this.turn++;
        }

        // Ends a trial, and says how many schedules were tried. None of them broke the protocol, or it would have ended.
        endTrial() {
            this.turn++;
            this.page.breakOff();
            this.view.showTrial(say('trial_broken_off', { count: this.tried }), false);
        }
    }

    const actsOf = events => events.map(({ process, does }) => ({ process, does }));

    // A number as the language of the page writes it.
    const grouped = number => number.toLocaleString(Cnum.language);

    const TEXTS = { all: 'trial_all', random: 'trial_random', shown: 'trial_shown' };
    const TEXTS_OF_LIVES = { all: 'trial_lives_all', random: 'trial_lives_random', shown: 'trial_lives_shown' };

    function trialText({ count, configurations, broken }, { comeBack }) {
        if (broken) return say('trial_broken', { count });
        const texts = comeBack ? TEXTS_OF_LIVES : TEXTS;
        const tried = configurations ? say(texts.all, { count: grouped(configurations) }) : say(texts.random, { count, most: grouped(Cnum.MOST_CONFIGURATIONS) });
        return `${tried} ${say(texts.shown)}`;
    }

    // What processes propose if nobody says otherwise.
    Cnum.firstInputs = processes => Array.from({ length: processes }, (_, process) => String(10 * (process + 1)));

    Cnum.Protocol = Protocol;
})();
