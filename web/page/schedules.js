// The schedules that an adversary tries: all of them, by the configurations that they lead to, or some at random. A schedule
// is a list of acts. It is tried by one run of the program.
var Cnum = globalThis.Cnum || {};

(() => {
    'use strict';

    const { CRASH, STEP, UNDECIDED, after, stepOf } = Cnum.run;
    // All schedules are tried if there are at most about so many configurations.
    const MOST_CONFIGURATIONS = 2500;
    const AT_RANDOM = 500;

    const crashOf = process => ({ process, does: CRASH });
    const actsOf = events => events.map(({ process, does }) => ({ process, does }));

    // The processes one after the other from this one on, each until it has decided.
    function alone(plan, first = 0) {
        const inTurn = Array.from({ length: plan.processes }, (_, place) => (first + place) % plan.processes);
        return inTurn.flatMap(process => Array(plan.most).fill(stepOf(process)));
    }

    // All processes in turn, a step each time, until they have decided. Those that come back all crash on the way.
    function inTurns(plan) {
        const everyone = Array.from({ length: plan.processes }, (_, process) => process);
        const rounds = count => Array(count).fill(everyone.map(stepOf)).flat();
        const crashes = plan.comeBack ? [...rounds(Math.floor(plan.most / 2)), ...everyone.map(crashOf)] : [];
        return [...crashes, ...rounds(plan.most)];
    }

    // The events of a process since it last crashed.
    function lifeOf(process, events) {
        const own = events.filter(it => it.process === process);
        return own.slice(own.map(it => it.does).lastIndexOf(CRASH) + 1);
    }

    const livesOf = (events, { processes }) => Array.from({ length: processes }, (_, process) => lifeOf(process, events));
    const hasDecided = life => life.some(it => it.kind === 'decides');
    const crashesIn = events => events.filter(it => it.does === CRASH).length;

    // What may come behind these events: the steps of those who go on, and the crashes of those who have something to forget.
    function choices(events, plan) {
        const lives = livesOf(events, plan);
        const all = lives.map((_, process) => process);
        const begun = plan.comeBack ? all.filter(it => lives[it].length) : [];
        return [...all.filter(it => !hasDecided(lives[it])).map(stepOf), ...begun.map(crashOf)];
    }

    // The configuration behind these events: what objects and registers hold, and what each process remembers. That is how
    // many steps it has taken since it last crashed, the value that it goes on with, and what it got last.
    function configurationOf(events, plan) {
        const memories = livesOf(events, plan).map(life => {
            const [last] = life.slice(-1).map(({ kind, team, response, state, value }) => [kind, team, response, state, value]);
            const taken = life.filter(it => it.kind === 'takes').pop();
            return [life.length, taken && taken.value, last];
        });
        const nodes = after(events, plan).nodes.map(({ state, registers }, node) => [state, plan.nodes[node].teams.map(it => registers[it])]);
        return JSON.stringify([nodes, memories]);
    }

    // Whether the configurations are few enough to try them all.
    const areFew = ({ steps }) => steps.reduce((product, it) => product * (it + 1), 1) <= MOST_CONFIGURATIONS;

    const nameOf = ({ process, does }) => `${does} ${process}`;

    // The configurations that runs have come to. Each has the acts that led there first, what may come next, and where each act
    // led that was tried there.
    class Configurations {
        constructor(plan) {
            Object.assign(this, { plan, found: new Map(), byLength: [] });
            this.first = this.after([]);
        }

        // The configuration behind these events.
        after(events) {
            const text = configurationOf(events, this.plan);
            if (!this.found.has(text)) {
                const made = { acts: actsOf(events), choices: choices(events, this.plan), next: new Map() };
                this.found.set(text, made);
                (this.byLength[events.length] = this.byLength[events.length] || []).push(made);
            }
            return this.found.get(text);
        }

        // Takes in all that a run came to.
        add(events) {
            let here = this.first;
            events.forEach((event, index) => {
                const name = nameOf(event);
                if (!here.next.has(name)) here.next.set(name, this.after(events.slice(0, index + 1)));
                here = here.next.get(name);
            });
        }

        // What was not tried at a configuration, or nothing.
        untriedAt(configuration) {
            return configuration.choices.find(it => !configuration.next.has(nameOf(it)));
        }

        // The configuration with the fewest acts at which something was not tried; nothing if all was.
        firstOpen() {
            for (const its of this.byLength) {
                while (its && its.length && !this.untriedAt(its[its.length - 1])) its.pop();
                if (its && its.length) return its[its.length - 1];
            }
            return undefined;
        }
    }

    // Goes through all configurations that schedules lead to. `run` gives the events of a schedule; `judge` is told of each
    // run. The answer is the number of configurations. Each run goes on to its end, and so tries one act in many of them. The last
    // run is one with many turns, to be shown.
    async function all(plan, run, judge) {
        const configurations = new Configurations(plan);
        for (let here = configurations.first; here; here = configurations.firstOpen()) {
            const act = configurations.untriedAt(here);
            const attempt = await run([...here.acts, act, ...alone(plan, act.process)]);
            if (!attempt || !judge(attempt)) return configurations.found.size;
            configurations.add(attempt.events);
            if (!here.next.has(nameOf(act))) here.next.set(nameOf(act), here); // an act that the run leaves out changes nothing
        }
        const last = await run(inTurns(plan));
        if (last) judge(last);
        return configurations.found.size;
    }

    // Numbers from 0 up to 1, the same ones each time.
    function* numbers(seed) {
        for (let state = seed; ; ) {
            state = (Math.imul(state, 1664525) + 1013904223) >>> 0;
            yield state / 2 ** 32;
        }
    }

    async function atRandom(plan, run, judge) {
        const source = numbers(plan.processes);
        const number = () => source.next().value;
        // Each process crashes about once, so that its lives are long enough.
        const crashes = () => plan.comeBack && number() < 1 / (2 * plan.most);
        const act = () => ({ process: Math.floor(number() * plan.processes), does: crashes() ? CRASH : STEP });
        for (let count = 0; count < AT_RANDOM; count++) {
            const word = Array.from({ length: 2 * plan.processes * plan.most }, act);
            const attempt = await run([...word, ...alone(plan)]);
            if (!attempt || !judge(attempt)) return;
        }
    }

    // How often the turn goes from one process to another.
    const turnsIn = events => events.filter((it, index) => index > 0 && it.process !== events[index - 1].process).length;

    // Whether a run has more crashes than another, or as many and more turns.
    function isHarder({ events }, other) {
        const more = crashesIn(events) - crashesIn(other.events);
        return more > 0 || (more === 0 && turnsIn(events) > turnsIn(other.events));
    }

    // Whether no process takes more steps without a crash than it takes at most, and none that took so many is undecided.
    function areShort(events, { steps }) {
        const taken = steps.map(() => 0);
        const decisions = steps.map(() => UNDECIDED);
        return events.every(({ process, does, kind, value }) => {
            taken[process] = does === CRASH ? 0 : taken[process] + 1;
            decisions[process] = kind === 'decides' ? value : UNDECIDED;
            return taken[process] < steps[process] || (taken[process] === steps[process] && decisions[process] !== UNDECIDED);
        });
    }

    // Whether each decision is the input of a process that took part before it.
    function areOfParticipants({ events, inputs }) {
        const proposed = new Set();
        return events.every(({ process, kind, value }) => {
            proposed.add(BigInt(inputs[process]));
            return kind !== 'decides' || proposed.has(BigInt(value));
        });
    }

    // Whether the processes of a run agree on the input of one that has taken part, whenever they decide, and each decides within
    // its most steps.
    function isRight(attempt, plan) {
        const decisions = attempt.events.filter(it => it.kind === 'decides');
        const areSame = decisions.every(it => it.value === decisions[0].value);
        return areSame && areOfParticipants(attempt) && areShort(attempt.events, plan);
    }

    Cnum.MOST_CONFIGURATIONS = MOST_CONFIGURATIONS;

    // Tries schedules of a plan. `run` gives for a schedule { events, inputs }, or null to end early. Answers how many there
    // were, the number of configurations if all schedules were tried, of those with the most crashes the one with the most
    // turns, and the one that is not right, if there is any.
    Cnum.tryToBreak = async function (plan, run, tell) {
        const found = { count: 0, configurations: null, worst: null, broken: null };
        const judge = attempt => {
            tell(++found.count);
            if (!isRight(attempt, plan)) found.broken = attempt;
            if (!found.worst || isHarder(attempt, found.worst)) found.worst = attempt;
            return !found.broken;
        };
        if (areFew(plan)) found.configurations = await all(plan, run, judge);
        else await atRandom(plan, run, judge);
        return found;
    };
})();
