// The run that fails if one process more tries it: two runs of the protocol that a choice of a start state, operations and teams
// would give, begun by different teams, in which one process gets the same. A run is a list of events, as `agree` would tell them;
// the program tells each operation in it with its response and the state behind it.
var Cnum = globalThis.Cnum || {};

(() => {
    'use strict';

    const { STEP } = Cnum.run;
    const VALUES = { A: '10', B: '20' }; // what the processes of each team propose
    const SIDES = [['A', 'a_first'], ['B', 'b_first']];

    const isBegunByOthers = ({ process, a_first: a, b_first: b }) => [a, b].every(({ steps }) => steps[0].process !== process);

    // The collision that shows it best: whoever begins a run decides, and so is another process than the one that cannot tell.
    Cnum.collisionToShow = ({ collisions }) => collisions.find(isBegunByOthers) || collisions[0] || null;

    // The processes that take part in either run, in order. Each writes its proposal first, in both runs.
    function takingPart(process, steps) {
        return [...new Set([process, ...steps.map(it => it.process)])].sort((p, q) => p - q);
    }

    const act = process => ({ process, does: STEP, node: 0 });

    // What those write that take part in these steps.
    function writesOf({ process, processes }, steps) {
        const valueOf = ({ team }) => ({ team, value: VALUES[team] });
        return takingPart(process, steps).map(it => ({ ...act(it), kind: 'writes', ...valueOf(processes[it]) }));
    }

    // The operations of a run, each with the states before and after it.
    function appliedIn({ start }, steps) {
        const states = [start, ...steps.map(it => it.state)];
        const eventOf = ({ process, operation, response, state }, at) => ({ ...act(process), kind: 'applies', operation, response, before: states[at], after: state });
        return { applied: steps.map(eventOf), left: states.pop() };
    }

    // The events of a run that this team begins. Who is first goes on alone and decides; the last read is of the process that
    // cannot tell.
    function eventsOf(choice, team, { steps }) {
        const { process: doubting } = choice;
        const { applied: [first, ...others], left } = appliedIn(choice, steps);
        const decides = [{ ...act(first.process), kind: 'reads', state: first.after, team }, { ...act(first.process), kind: 'decides', value: VALUES[team] }];
        const writes = writesOf(choice, [...choice.a_first.steps, ...choice.b_first.steps]);
        return [...writes, first, ...(first.process === doubting ? [] : decides), ...others, { ...act(doubting), kind: 'doubts', state: left }];
    }

    // The same without reads: nobody decides before the end, where the process that cannot tell has got the same in both runs.
    function eventsWithoutReads(choice, steps) {
        const writes = writesOf(choice, [...choice.a_first, ...choice.b_first]);
        return [...writes, ...appliedIn(choice, steps).applied, { ...act(choice.process), kind: 'wavers' }];
    }

    // Both runs of a choice, by the events of each: who takes part, what each proposes, its plan as a protocol has one, and of how
    // many ways to choose it is one.
    function failingOf({ processes, start, process: doubting }, ways, eventsOfRun) {
        const paths = processes.map(({ team, operation }) => [{ node: 0, team, operation }]);
        const plan = { processes: processes.length, comeBack: false, nodes: [{ start, teams: ['A', 'B'], roles: processes }], paths };
        const runs = SIDES.map(([team, side]) => {
            const events = eventsOfRun(team, side);
            const decided = events.find(it => it.kind === 'decides');
            return { team, value: VALUES[team], events, decidedBy: decided ? decided.process : null };
        });
        return { plan, inputs: processes.map(({ team }) => VALUES[team]), start, processes, doubting, ways, runs };
    }

    // The runs of a collision, as `why` tells it. `sight` is what the process that cannot tell gets in both.
    Cnum.failingRuns = function (choice, ways) {
        return { ...failingOf(choice, ways, (team, side) => eventsOf(choice, team, choice[side])), reads: true, merged: [], sight: choice.a_first.pair };
    };

    // The choice of `why --without-read --all` that shows it best: different operations begin its runs. There may be none whose runs end.
    Cnum.wayToShow = function ({ choices }) {
        const ended = choices.filter(it => it.process !== null);
        return ended.find(({ a_first: [a], b_first: [b] }) => a.operation !== b.operation) || ended[0] || null;
    };

    // The runs of such a choice. `merged` are the states of the table for which others stand, `state` is the one in which both
    // runs leave the object, and `got` tells whether the process that cannot tell has got anything.
    Cnum.failingWithoutReads = function (choice, ways, merged) {
        const { a_first: steps, process, start } = choice;
        const { left: state } = appliedIn(choice, steps);
        const got = steps.some(it => it.process === process);
        return { ...failingOf(choice, ways, (_, side) => eventsWithoutReads(choice, choice[side])), reads: false, merged, state, got };
    };

    // What fails for one process more by the reasons of the number with reads, or null. They may not be known yet.
    Cnum.failingWithReads = function (told) {
        const choice = told && Cnum.collisionToShow(told);
        return choice && Cnum.failingRuns(choice, told.collisions.length + told.more);
    };

    // The same by the reasons of the number without reads. Where no more can agree even with reads, those runs show it.
    Cnum.failingUnread = function (told, unread) {
        if (!unread) return null;
        const { refuted, with_reads: isOfReads, merged } = unread;
        const way = refuted && Cnum.wayToShow(refuted);
        return way ? Cnum.failingWithoutReads(way, refuted.count, merged) : isOfReads ? Cnum.failingWithReads(told) : null;
    };

    // A run in which the process that cannot tell decides this value, with what is wrong then: that two values are decided, or
    // that the value is not that of the team that was first; or nothing.
    Cnum.failingEnd = function ({ events, team, value, decidedBy }, doubting, decision) {
        const last = { process: doubting, does: STEP, node: 0, kind: 'decides', value: decision };
        const wrong = decision === value ? null : decidedBy === null ? 'first' : 'two';
        return { events: [...events, last], wrong, team, value, decidedBy };
    };
})();
