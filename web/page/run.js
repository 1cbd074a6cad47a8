// A run of the protocol as data: takes the steps of `agree --steps`, and tells what holds after each of the
// acts. An act is { process, does }: the process takes a step, stops for good, or crashes and comes back.
var Cnum = globalThis.Cnum || {};

(() => {
    'use strict';

    const { teamName } = Cnum.plans;
    const UNDECIDED = null;
    const STEP = 'step';
    const STOP = 'stop';
    const CRASH = 'crash';
    // The kinds of events, by the actions of the steps.
    const KINDS = { write: 'writes', apply: 'applies', read: 'reads', look: 'sees', take: 'takes', decide: 'decides', none: 'rests', crash: 'crashes' };

    // The kind of a step. A process that comes back may read the start state before its operation, which tells no team, and
    // find nothing in a register.
    function kindOf({ action, judged, value }) {
        if (action === 'read' && judged === null) return 'looks';
        return action === 'take' && value === null ? 'misses' : KINDS[action];
    }

    // What is told with its value as a text, if it has one.
    const withText = ({ value = null, ...rest }) => ({ ...rest, ...(value !== null && { value: String(value) }) });

    // A step as an event. The values of processes are texts. The team of a read is the one that it judges to have come
    // first; so is that of a look by an operation that changes nothing, and of an operation whose response alone tells. An
    // operation has the states before and after it, and a crash what it forgets.
    function eventOf({ action, process, judged = null, value = null, team = judged, forgets, ...rest }) {
        const kind = kindOf({ action, judged, value });
        const forgot = forgets && ('decision' in forgets ? { decision: String(forgets.decision) } : withText(forgets));
        return { kind, ...withText({ ...rest, value }), ...(team !== null && { team: teamName(team) }), ...(forgot && { forgot }) };
    }

    // The acts without those of a process that has stopped before.
    function withoutStopped(acts) {
        const stopped = new Set();
        return acts.filter(({ process, does }) => {
            if (stopped.has(process)) return false;
            if (does === STOP) stopped.add(process);
            return true;
        });
    }

    // The acts as `agree` takes them: it knows no process that stops.
    function scheduleOf(acts) {
        const items = acts.filter(it => it.does !== STOP).map(({ process, does }) => (does === CRASH ? `c${process}` : String(process)));
        return items.join(',') || 'none';
    }

    // The acts with what the program says of each step. A process that has decided takes no step and cannot
    // stop, so that such acts are left out. It can crash.
    function eventsOf(acts, steps) {
        const decided = new Set();
        let count = 0;
        return acts.flatMap(act => {
            const event = act.does === STOP ? { kind: 'stops' } : eventOf(steps[count++]);
            if (event.kind === 'crashes') decided.delete(act.process);
            else if (decided.has(act.process)) return [];
            if (event.kind === 'decides') decided.add(act.process);
            return [{ ...act, ...event }];
        });
    }

    // What holds after these events: of each node the state of its object, the last operation on it and its
    // registers; of each process its steps and its decision since it last crashed, its crashes, and whether it has
    // stopped.
    function after(events, plan) {
        const nodes = plan.nodes.map(it => ({ state: it.start, last: null, registers: {} }));
        const processes = Array.from({ length: plan.processes }, () => ({ steps: 0, decision: UNDECIDED, crashes: 0, hasStopped: false }));
        for (const event of events) {
            const process = processes[event.process];
            if (event.does === STEP) process.steps++;
            if (event.kind === 'stops') process.hasStopped = true;
            if (event.kind === 'crashes') Object.assign(process, { steps: 0, decision: UNDECIDED, crashes: process.crashes + 1 });
            if (event.kind === 'decides') process.decision = event.value;
            if (event.kind === 'writes') nodes[event.node].registers[event.team] = event.value;
            if (event.kind === 'applies') Object.assign(nodes[event.node], { state: event.after, last: event });
        }
        return { nodes, processes };
    }

    // The processes that have neither decided nor stopped.
    function active(processes) {
        const goesOn = ({ decision, hasStopped }) => decision === UNDECIDED && !hasStopped;
        return processes.map((_, process) => process).filter(it => goesOn(processes[it]));
    }

    const stepOf = process => ({ process, does: STEP });

    Cnum.run = { UNDECIDED, STEP, STOP, CRASH, stepOf, withoutStopped, scheduleOf, eventsOf, after, active };
})();
