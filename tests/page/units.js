// The page's logic that needs no browser: node --test tests/page/units.js
const assert = require('node:assert/strict');
const fs = require('node:fs');
const path = require('node:path');
const { describe, it } = require('node:test');
const vm = require('node:vm');

const WEB = path.join(__dirname, '../../web');
const PARTS = ['texts_en', 'texts_de', 'texts', 'elements', 'answers', 'plans', 'run', 'lives', 'link', 'table_text', 'table_edits', 'entry_changes', 'lasting_table', 'flaw_places', 'flaw_texts', 'notes'];
PARTS.push('past', 'example_search', 'comparison', 'schedules', 'space_time', 'failing_run', 'tournament', 'dot', 'points', 'layout', 'large', 'sizes');
PARTS.push('reason_parts', 'explanation', 'picture', 'two_runs', 'unread_explanation', 'stock_explanation');

globalThis.Cnum = {};
for (const part of ['examples', ...PARTS.map(it => `page/${it}`)]) {
    vm.runInThisContext(fs.readFileSync(path.join(WEB, `${part}.js`), 'utf8'), part);
}
const { Cnum } = globalThis;
const { run } = Cnum;
const step = run.stepOf;
const stop = process => ({ process, does: run.STOP });
const crash = process => ({ process, does: run.CRASH });

describe('links', () => {
    const RUN = [step(1), stop(0)];
    const SHOWN = { text: 'name = "größe" # →\n', limit: 3, inputs: ['7', '18446744073709551615'], acts: RUN, view: 'run' };

    it('hold a table, a limit, a run and a view', async () => {
        const { text, limit, inputs, acts, view } = await Cnum.linkedBy(await Cnum.linkOf(SHOWN));
        assert.deepEqual({ text, limit, inputs, acts, view }, SHOWN);
    });

    it('name an example', async () => {
        const link = await Cnum.linkOf({ ...SHOWN, example: 'types/idle', view: undefined });
        assert.equal(link, '#example=types/idle&limit=3&inputs=7,18446744073709551615&run=1,x0');
        assert.equal((await Cnum.linkedBy(link)).example, 'types/idle');
    });

    it('hold crashes, if processes come back', async () => {
        const acts = [step(1), crash(1), stop(0), step(1)];
        const link = await Cnum.linkOf({ example: 'types/idle', limit: null, comeBack: true, inputs: ['7', '8'], acts });
        assert.equal(link, '#example=types/idle&crashes=yes&inputs=7,8&run=1,c1,x0,1');
        assert.deepEqual(await Cnum.linkedBy(link), { example: 'types/idle', comeBack: true, inputs: ['7', '8'], acts });
        assert.equal((await Cnum.linkedBy('#crashes=yes')).comeBack, true);
        assert.equal((await Cnum.linkedBy('#run=0')).comeBack, undefined);
    });

    it('have a limit only if one was chosen', async () => {
        assert.equal(await Cnum.linkOf({ example: 'types/idle', limit: null, inputs: [], acts: [] }), '#example=types/idle');
        assert.equal((await Cnum.linkedBy('#example=types/idle&limit=4')).limit, 4);
    });

    it('say so if objects cannot be read', async () => {
        const link = await Cnum.linkOf({ example: 'types/idle', limit: null, reads: false, inputs: [], acts: [], view: 'why' });
        assert.equal(link, '#example=types/idle&reads=no&view=why');
        assert.deepEqual(await Cnum.linkedBy(link), { example: 'types/idle', reads: false, inputs: [], acts: [], view: 'why' });
        assert.equal(await Cnum.linkOf({ example: 'types/idle', reads: true, inputs: [], acts: [] }), '#example=types/idle');
        assert.equal((await Cnum.linkedBy('#example=types/idle')).reads, undefined);
    });

    it('name the screen, unless it is the usual one', async () => {
        const of = more => Cnum.linkOf({ example: 'types/idle', limit: null, inputs: ['1', '2'], acts: [], ...more });
        assert.equal(await of({ screen: 'why' }), '#example=types/idle');
        assert.equal(await of({ screen: 'print' }), '#example=types/idle&screen=print');
        assert.equal(await of({ screen: 'run', isTried: true }), '#example=types/idle&try=yes');
        assert.equal(await of({ screen: 'run', acts: [step(1)] }), '#example=types/idle&inputs=1,2&run=1');
        assert.equal(await of({ screen: 'why', acts: [step(1)] }), '#example=types/idle&inputs=1,2&run=1&screen=why');
        assert.equal(Cnum.links.screenOf(await Cnum.linkedBy('#run=0')), 'run');
        assert.equal((await Cnum.linkedBy('#example=types/idle&try=yes&screen=table')).isTried, true);
    });

    it('of older pages, without a checksum, are read', async () => {
        // The letters of 'name = "tas"\n', packed by DEFLATE alone.
        assert.equal((await Cnum.linkedBy('#table=y0vMTVWwVVAqSSxW4gIA')).text, 'name = "tas"\n');
    });

    it('are refused at each place where a letter is missing or another', async () => {
        const whole = await Cnum.linkOf({ ...SHOWN, inputs: [], acts: [], view: undefined });
        const [before, letters, rest] = /^(#table=)([^&]*)(.*)$/.exec(whole).slice(1);
        for (let at = 0; at < letters.length; at++) {
            assert.ok((await Cnum.linkedBy(before + letters.slice(0, at) + rest)).fault, `cut at ${at}`);
            const other = letters[at] === 'A' ? 'Q' : 'A';
            const changed = await Cnum.linkedBy(before + letters.slice(0, at) + other + letters.slice(at + 1) + rest);
            assert.ok(changed.fault || changed.text === SHOWN.text, `another letter at ${at}`);
        }
    });

    const REFUSED = [
        ['#limit=99', 'its limit is “99”, and must be from 2 to 8.'],
        ['#limit=1', 'its limit is “1”, and must be from 2 to 8.'],
        ['#example=nosuch', 'there is no example “nosuch”.'],
        ['#table=%%%', 'its table is damaged. A part of the link may be missing.'],
        ['#run=0,8', 'its run has the step “8”, which no process takes.'],
        ['#crashes=yes&run=0,cc1', 'its run has the step “cc1”, which no process takes.'],
        ['#run=0,c1', 'its run has the crash “c1”, and it does not say “crashes=yes”.'],
        ['#crashes=no', 'it says “crashes=no”, and the page knows only “crashes=yes”.'],
        ['#reads=yes', 'it says “reads=yes”, and the page knows only “reads=no”.'],
        ['#inputs=1,abc', 'a process proposes “abc” in it, and that is no number.'],
        ['#inputs=1,', 'a process proposes “” in it, and that is no number.'],
        ['#inputs=18446744073709551616', 'a process proposes “18446744073709551616” in it, and that is no number.'],
        ['#plan=other', 'it says “plan=other”, and the page knows only “plan=shortest”, “plan=certificate” and “plan=without_reads”.'],
        ['#view=all', 'it shows the part “all” alone, and the page has number, why, states, run, pairs, changes, exercise and solution.'],
        ['#screen=all', 'it shows the screen “all”, and the page has why, change, run, print and table.'],
        ['#try=no', 'it says “try=no”, and the page knows only “try=yes”.'],
        ['#exmaple=types/idle', 'it says “exmaple”, which the page does not know.'],
        ['#example=types/idle&table=AAAA', 'it names both an example and a table.'],
    ];
    for (const [link, fault] of REFUSED) it(`refuses ${link}`, async () => assert.deepEqual(await Cnum.linkedBy(link), { fault }));
});

describe('a run', () => {
    const PLAN = { nodes: [{ start: 'zero', teams: ['A', 'B'] }], processes: 2 };
    const ACTS = [step(0), step(1), step(1), step(1), step(1), step(1), stop(1), step(0), stop(0), step(0)];
    const STEPS = [
        { action: 'write', node: 0, process: 0, team: 'A', value: 10 },
        { action: 'write', node: 0, process: 1, team: 'B', value: 20 },
        { action: 'apply', after: 'one', before: 'zero', node: 0, operation: 'tas', process: 1, response: 'zero' },
        { action: 'read', judged: 'B', node: 0, process: 1, state: 'one' },
        { action: 'decide', process: 1, value: 20 },
        { action: 'none', process: 1 },
        { action: 'apply', after: 'one', before: 'one', node: 0, operation: 'tas', process: 0, response: 'one' },
    ];
    const events = run.eventsOf(run.withoutStopped(ACTS), STEPS);

    it('has no act of a process that has decided or stopped', () => {
        const kinds = ['writes', 'writes', 'applies', 'reads', 'decides', 'applies', 'stops'];
        assert.deepEqual(events.map(it => it.kind), kinds);
        assert.deepEqual([events[3].team, events[4].value], ['B', '20']);
    });

    it('has the state before and after each operation', () => {
        assert.deepEqual(events.filter(it => it.kind === 'applies').map(it => [it.before, it.after]), [['zero', 'one'], ['one', 'one']]);
    });

    it('tells what holds after it', () => {
        const { nodes, processes } = run.after(events, PLAN);
        assert.deepEqual([nodes[0].state, nodes[0].registers], ['one', { A: '10', B: '20' }]);
        const first = { steps: 2, decision: null, crashes: 0, hasStopped: true };
        assert.deepEqual(processes, [first, { steps: 4, decision: '20', crashes: 0, hasStopped: false }]);
        assert.deepEqual(run.active(processes), []);
        assert.deepEqual(run.active(run.after(events.slice(0, 5), PLAN).processes), [0]);
    });

    it('has a place for each act, none on another', () => {
        const { marks, lines } = Cnum.placeRun(events, ['10', '20'], text => 8 * text.length);
        assert.deepEqual(marks.map(it => it.y), [44, 122, 122, 122, 122, 44, 44]);
        for (let at = 1; at < marks.length; at++) {
            const widths = [marks[at - 1], marks[at]].map(it => 4 * Math.max(...it.texts.map(text => text.length)));
            assert.ok(marks[at].x - marks[at - 1].x >= widths[0] + widths[1], `place ${at}`);
        }
        assert.deepEqual(lines.map(it => it.to), [marks[6].x, marks[4].x]);
    });

    it('has proposals one above the other where it is short', () => {
        const writes = process => ({ kind: 'writes', process, node: 0, team: 'A', value: '10' });
        const kinds = [writes(0), writes(2), writes(1), { kind: 'doubts', process: 2, node: 0, state: 'one' }];
        const placed = Cnum.placeRun(kinds, ['10', '10', '10'], text => 8 * text.length, { isShort: true });
        const [first, second, third, last] = placed.marks;
        assert.deepEqual([first, second, third, last].map(it => it.y), [32, 140, 86, 140]);
        assert.ok(first.x === second.x && second.right === third.x - 45 && third.right < last.x);
        assert.deepEqual([placed.height, Cnum.placeRun(kinds.slice(0, 3), ['10', '10', '10'], () => 1, { isShort: true }).height], [172, 154]);
    });
});

describe('a plan tree', () => {
    // Three processes at an object that keeps the first value, which the third meets at the root.
    const member = (process, team, operation) => ({ process, team, operation, judges: [] });
    const TREE = {
        type: 'sticky_bit',
        processes: 3,
        objects: 2,
        steps: 6,
        sum: 15,
        nodes: [
            { node: 0, start: 'unset', reads: false, first: 0, teams: [2, 1], processes: [member(0, 0, 'put0'), member(1, 0, 'put0'), member(2, 1, 'put1')] },
            { node: 1, start: 'unset', reads: false, first: 0, teams: [1, 1], processes: [member(0, 0, 'put0'), member(1, 1, 'put1')] },
        ],
        paths: [
            { process: 0, steps: 6, places: [{ node: 1, team: 0 }, { node: 0, team: 0 }] },
            { process: 1, steps: 6, places: [{ node: 1, team: 1 }, { node: 0, team: 0 }] },
            { process: 2, steps: 3, places: [{ node: 0, team: 1 }] },
        ],
    };
    const [a, b] = [{ operation: 'put0', team: 'A' }, { operation: 'put1', team: 'B' }];
    const PLAN = {
        comeBack: false,
        most: 6,
        nodes: Array(2).fill({ start: 'unset', teams: ['A', 'B'], roles: [a, b] }),
        paths: [[{ node: 1, ...a }, { node: 0, ...a }], [{ node: 1, ...b }, { node: 0, ...a }], [{ node: 0, ...b }]],
        processes: 3,
        reads: false,
        steps: [6, 6, 3],
    };

    it('of a certificate has the steps of a run of each process alone', () => {
        const role = team => ({ judges: [], operation: `put${team}`, team: 'AB'[team] });
        const at = (node, team) => ({ node, role: team, team: 'AB'[team] });
        const told = { nodes: 2, paths: [[at(0, 0)], [at(1, 0), at(0, 1)], [at(1, 1), at(0, 1)]], processes: 3, roles: [role(0), role(1)], start: 'unset', type: 'sticky_bit' };
        const steps = [4, 8, 8].flatMap((count, process) => [...Array(count).fill({ action: 'write', process }), { action: 'none', process }]);
        const plan = Cnum.plans.ofCertificate(told, { steps });
        assert.deepEqual([plan.steps, plan.most, plan.reads, plan.comeBack], [[4, 8, 8], 8, true, false]);
        assert.deepEqual(plan.nodes, Array(2).fill({ start: 'unset', teams: ['A', 'B'], roles: [a, b] }));
        const schedule = Cnum.plans.oneByOne(8).split(',');
        assert.deepEqual([schedule.length, schedule[0], schedule[64]], [512, '0', '1']);
    });

    it('leaves the witness of the certificate in the picture of the states', () => {
        const { text } = Cnum.examples.flatMap(group => group.types).find(it => it.path === 'types/sticky_bit');
        assert.deepEqual(Cnum.plans.ofWitness([0, [0], [1, 1]], text), { start: 'unset', roles: [a, b, b] });
    });

    it('has the form of each plan', () => assert.deepEqual(Cnum.plans.ofTree(TREE), PLAN));

    it('reads objects if the processes of a node do', () => {
        const [root, below] = TREE.nodes;
        assert.equal(Cnum.plans.ofTree({ ...TREE, nodes: [root, { ...below, reads: true }] }).reads, true);
    });

    it('has a start and teams for each node, which may differ', () => {
        const [root, below] = TREE.nodes;
        const other = { ...below, start: 'one', teams: [1, 1, 1], processes: [member(1, 1, 'put1'), member(0, 0, 'put1')] };
        const { nodes } = Cnum.plans.ofTree({ ...TREE, nodes: [root, other] });
        const [ofA, ofB] = ['A', 'B'].map(team => ({ operation: 'put1', team }));
        assert.deepEqual(nodes, [PLAN.nodes[0], { start: 'one', teams: ['A', 'B', 'C'], roles: [ofA, ofB] }]);
    });

    it('has names for its teams, and tells a team without a read', () => {
        const steps = [
            { action: 'write', node: 0, process: 2, team: 1, value: 30 },
            { action: 'apply', after: 'one', before: 'unset', judged: 1, node: 0, operation: 'put1', process: 2, response: 'one' },
            { action: 'decide', process: 2, value: 30 },
        ];
        const events = run.eventsOf(Array(3).fill(step(2)), steps);
        assert.deepEqual(events.map(it => [it.kind, it.team]), [['writes', 'B'], ['applies', 'B'], ['decides', undefined]]);
        assert.deepEqual(run.after(events, PLAN).nodes[0].registers, { B: '30' });
    });

    // Two processes at an object that answers both alike, and then tell by `get`, which changes nothing, who was first.
    const seen = (look, team) => ({ look, response: 'ok', team });
    const LOOKING = {
        type: 'kept',
        processes: 2,
        objects: 1,
        steps: 4,
        sum: 8,
        nodes: [
            {
                first: 0,
                look: 'get',
                node: 0,
                processes: [0, 1].map(it => ({ ...member(it, it, `put${it}`), judges: [seen('zero', 0), seen('one', 1)] })),
                reads: false,
                start: 'unset',
                teams: [1, 1],
            },
        ],
        paths: [0, 1].map(process => ({ process, steps: 4, places: [{ node: 0, team: process }] })),
    };

    it('looks by an operation that changes nothing, and so reads nothing', () => {
        const plan = Cnum.plans.ofTree(LOOKING);
        assert.deepEqual(plan.nodes, [{ start: 'unset', teams: ['A', 'B'], roles: [a, b], look: 'get' }]);
        assert.deepEqual([plan.reads, plan.steps, Cnum.plans.looks(plan), Cnum.plans.looks(PLAN)], [false, [4, 4], true, false]);
        assert.equal(Cnum.plans.taskAt(plan, plan.paths[1][0]), 'put1, then looks by get');
        assert.equal(Cnum.plans.taskAt(PLAN, PLAN.paths[2][0]), 'put1');
    });

    it('tells the team that a look shows, and changes no object by it', () => {
        const steps = [
            { action: 'write', node: 0, process: 1, team: 1, value: 20 },
            { action: 'apply', after: 'one', before: 'unset', node: 0, operation: 'put1', process: 1, response: 'ok' },
            { action: 'look', judged: 1, node: 0, operation: 'get', process: 1, response: 'one' },
            { action: 'decide', process: 1, value: 20 },
        ];
        const plan = Cnum.plans.ofTree(LOOKING);
        const events = run.eventsOf(Array(4).fill(step(1)), steps);
        const { does, ...told } = events[2];
        assert.deepEqual([does, told], [run.STEP, { kind: 'sees', node: 0, operation: 'get', process: 1, response: 'one', team: 'B' }]);
        assert.deepEqual(events.map(it => it.after), [undefined, 'one', undefined, undefined]);
        const { state, last } = run.after(events, plan).nodes[0];
        assert.deepEqual([state, last.operation], ['one', 'put1']);
        assert.deepEqual(run.active(run.after(events.slice(0, 3), plan).processes), [0, 1]);
        const { marks } = Cnum.placeRun(events, ['10', '20'], text => 8 * text.length);
        assert.deepEqual(marks[2].texts, ['sees one', 'node 0']);
        assert.equal(Cnum.shortText(events[2]), 'sees one');
        assert.equal(Cnum.say(`log_${told.kind}`, told), 'process 1: looks by get at node 0: one, team B');
    });

    it('says in German by what it looks', () => {
        const plan = Cnum.plans.ofTree(LOOKING);
        const event = { kind: 'sees', node: 0, operation: 'get', process: 1, response: 'one', team: 'B' };
        Cnum.useLanguage('de');
        const said = [Cnum.plans.taskAt(plan, plan.paths[0][0]), Cnum.say('log_sees', event), Cnum.shortText(event)];
        Cnum.useLanguage();
        assert.deepEqual(said, ['put0, sieht dann mit get nach', 'Prozess 1: sieht mit get an Knoten 0 nach: one, Team B', 'sieht one']);
    });

    it('has words for each action of the schema', () => {
        const { oneOf } = JSON.parse(fs.readFileSync(path.join(WEB, '../docs/schema/tree_course.json'), 'utf8')).definitions.step;
        const actions = oneOf.map(it => it.properties.action.const);
        const kinds = actions.map(action => run.eventsOf([step(0)], [{ action, process: 0, node: 0, team: 0, judged: 0, value: 1 }])[0].kind);
        assert.deepEqual(kinds.filter(it => it !== 'rests' && !(`log_${it}` in Cnum.texts)), []);
        assert.ok(actions.includes('look') && kinds.includes('sees'));
    });

    it('is the shortest, or the shortest without reads', () => {
        const ofThree = Cnum.plans.commandsOf('shortest', 3);
        assert.deepEqual(ofThree.show, ['show', '--shortest', '--processes', '3', '--as', 'json', '-']);
        assert.deepEqual(ofThree.agree, ['agree', '--shortest', '--processes', '3', '--steps', '--as', 'json', '-']);
        assert.deepEqual(Cnum.plans.commandsOf('without_reads').show, ['show', '--without-read', '--as', 'json', '-']);
        const { agree } = Cnum.plans.commandsOf('without_reads', 2);
        assert.deepEqual(agree, ['agree', '--without-read', '--processes', '2', '--steps', '--as', 'json', '-']);
        const said = Cnum.plans.kinds.KINDS.map(it => Cnum.plans.leastOf(it));
        assert.deepEqual(said, ['plan_least', undefined, 'plan_least_unread']);
        assert.deepEqual(said.filter(it => it && !(it in Cnum.texts)), []);
    });

    it('can be chosen on the page in each kind', () => {
        const page = fs.readFileSync(path.join(WEB, 'index.html'), 'utf8');
        const [, choice] = page.split('<select id="plan">');
        const [options] = choice.split('</select>');
        assert.deepEqual([...options.matchAll(/value="(\w+)"/g)].map(it => it[1]), Cnum.plans.kinds.KINDS);
    });

    it('says why there is none without reads', () => {
        const why = stderr => Cnum.plans.whyNone({ status: 1, stderr });
        const none = 'cnum: table: no plan tree';
        assert.equal(why(`${none}\n`), `Without reads no two processes can agree by a plan tree of the type. (${none})`);
        assert.equal(why('cnum: out of memory\n'), 'The memory is not enough. (cnum: out of memory)');
    });

    it('is that without reads, if the link says so', async () => {
        const shown = { example: 'types/idle', limit: null, reads: false, plan: 'without_reads', inputs: ['1', '2'], acts: [] };
        assert.equal(await Cnum.linkOf(shown), '#example=types/idle&reads=no&plan=without_reads');
        const link = await Cnum.linkOf({ ...shown, acts: [step(1)] });
        assert.equal(link, '#example=types/idle&reads=no&plan=without_reads&inputs=1,2&run=1');
        const { plan, reads, acts } = await Cnum.linkedBy(link);
        assert.deepEqual([plan, reads, acts], ['without_reads', false, [step(1)]]);
        assert.equal(await Cnum.linkOf({ ...shown, reads: true, comeBack: true }), '#example=types/idle&crashes=yes');
    });

    it('is that of a certificate, if the link says so or an older page made it', async () => {
        const shown = { example: 'types/idle', limit: null, inputs: ['1', '2'], acts: [step(0)] };
        const linkOf = more => Cnum.linkOf({ ...shown, ...more });
        assert.equal(await linkOf({ plan: 'shortest' }), '#example=types/idle&plan=shortest&inputs=1,2&run=0');
        assert.equal(await linkOf({ plan: 'shortest', acts: [] }), '#example=types/idle');
        assert.equal(await linkOf({ plan: 'certificate', acts: [] }), '#example=types/idle&plan=certificate');
        assert.equal((await Cnum.linkedBy('#example=types/idle&plan=certificate')).plan, 'certificate');
    });
});

describe('processes that come back', () => {
    const write = (process, node, team, value) => ({ action: 'write', node, process, team, value });
    const look = (process, node, state) => ({ action: 'read', judged: null, node, process, state });
    const take = (process, node, team, value) => ({ action: 'take', node, process, team, value });
    const apply = (process, node, operation, after) => ({ action: 'apply', after, before: 'unset', node, operation, process, response: after });
    const read = (process, node, state, judged) => ({ action: 'read', judged, node, process, state });
    const decide = (process, value) => ({ action: 'decide', process, value });
    // What processes do alone at a sticky bit.
    const third = [write(2, 1, 'B', 30), look(2, 1, 'unset'), apply(2, 1, 'put1', 'one'), read(2, 1, 'one', 'B'), take(2, 1, 'B', 30)];
    const first = [write(0, 0, 'A', 10), look(0, 0, 'unset'), take(0, 0, 'B', null), apply(0, 0, 'put0', 'zero'), read(0, 0, 'zero', 'A'), decide(0, 10)];
    const roles = [{ operation: 'put0', team: 'A' }, { operation: 'put1', team: 'B' }];
    const at = (node, role) => ({ node, role, team: roles[role].team });
    const TOLD = {
        judges: [{ state: 'zero', team: 'A' }, { state: 'one', team: 'B' }],
        lone: true,
        nodes: 2,
        paths: [[at(0, 0)], [at(1, 0), at(0, 1)], [at(1, 1), at(0, 1)]].map((places, process) => ({ places, process, steps: 6 * places.length })),
        processes: 3,
        roles,
        start: 'unset',
        steps: 12,
        type: 'sticky_bit',
    };
    const PLAN = Cnum.plans.ofLives(TOLD);

    it('have the plan that the program tells', () => {
        const [a, b] = roles;
        const paths = [[{ node: 0, ...a }], [{ node: 1, ...a }, { node: 0, ...b }], [{ node: 1, ...b }, { node: 0, ...b }]];
        const [root, below] = [roles, roles].map(it => ({ start: 'unset', teams: ['A', 'B'], roles: it }));
        assert.deepEqual(PLAN, { comeBack: true, most: 12, nodes: [root, below], paths, processes: 3, reads: true, steps: [6, 12, 12] });
        const [ofA, ofB] = ['A', 'B'].map(team => ({ operation: 'put0', team }));
        assert.deepEqual(Cnum.plans.ofLives({ ...TOLD, roles: [ofA, ofB] }).nodes[0].roles, [ofA, ofB]);
    });

    const crashed = (process, forgets) => ({ action: 'crash', forgets, process });
    const ACTS = [...Array(5).fill(step(2)), step(2), crash(2), step(2), step(0), stop(0), crash(1), crash(0)];
    const [behind, before] = [crashed(2, { node: 0, value: 30 }), crashed(1, { node: 1, value: 20 })];
    const STEPS = [...third, write(2, 0, 'B', 30), behind, write(2, 1, 'B', 30), write(0, 0, 'A', 10), before];
    const INPUTS = ['10', '20', '30'];
    const eventsOf = (acts, steps) => run.eventsOf(run.withoutStopped(acts), steps);
    const events = eventsOf(ACTS, STEPS);
    const memoryOf = (its, process) => Cnum.lives.memoryAfter(its, process, INPUTS[process], PLAN.paths[process]);

    it('crash in the schedule, and stop beside it', () => {
        assert.equal(run.scheduleOf(run.withoutStopped(ACTS)), '2,2,2,2,2,2,c2,2,0,c1');
        assert.equal(run.scheduleOf([stop(0)]), 'none');
        const kinds = ['writes', 'looks', 'applies', 'reads', 'takes', 'writes', 'crashes', 'writes', 'writes', 'stops', 'crashes'];
        assert.deepEqual(events.map(it => it.kind), kinds);
        assert.deepEqual(run.eventsOf([step(0)], [take(0, 0, 'B', null)]), [{ ...step(0), kind: 'misses', node: 0, team: 'B' }]);
    });

    it('forget their place and their value, and objects and registers keep what they have', () => {
        assert.deepEqual(events[6].forgot, { node: 0, value: '30' });
        assert.deepEqual(events[10].forgot, { node: 1, value: '20' });
        assert.deepEqual(memoryOf(events, 2), { node: 1, value: '30', last: events[7] });
        assert.deepEqual(memoryOf(events.slice(0, 5), 2), { node: 0, value: '30', last: null });
        assert.equal(Cnum.lives.forgottenBy(events, 2), events[6].forgot);
        assert.equal(Cnum.lives.forgottenBy(events, 0), null);
        const { nodes, processes } = run.after(events, PLAN);
        assert.deepEqual(nodes.map(it => [it.state, it.registers]), [['unset', { A: '10', B: '30' }], ['one', { B: '30' }]]);
        assert.deepEqual(processes.map(it => [it.steps, it.crashes, it.hasStopped]), [[1, 0, true], [0, 1, false], [1, 1, false]]);
    });

    it('have words for each action of the schema', () => {
        const { oneOf } = JSON.parse(fs.readFileSync(path.join(WEB, '../docs/schema/life_course.json'), 'utf8')).definitions.step;
        const actions = oneOf.map(it => it.properties.action.const);
        const kinds = actions.map(action => run.eventsOf([step(0)], [{ action, process: 0, node: 0, team: 'A', value: 1 }])[0].kind);
        assert.deepEqual(kinds.filter(it => it !== 'rests' && !(`log_${it}` in Cnum.texts)), []);
        assert.ok(actions.includes('crash') && kinds.includes('rests'));
    });

    it('forget their decision too, and go on', () => {
        const acts = [...Array(8).fill(step(0)), crash(0), step(0), crash(0)];
        const none = { action: 'none', process: 0 };
        const twice = eventsOf(acts, [...first, none, none, crashed(0, { decision: 10 }), first[0], crashed(0, { node: 0, value: 10 })]);
        assert.deepEqual(twice[8].forgot, { node: 0, value: '10' });
        assert.deepEqual(memoryOf(twice, 0), { node: 0, value: '10', last: null });
        assert.deepEqual(memoryOf(twice.slice(0, 6), 0), { node: 0, value: '10', decision: '10' });
        const told = twice.slice(0, 8);
        assert.deepEqual(told.slice(5).map(it => it.kind), ['decides', 'crashes', 'writes']);
        assert.equal(told[6].forgot.decision, '10');
        assert.deepEqual(run.active(run.after(told.slice(0, 6), PLAN).processes), [1, 2]);
        assert.deepEqual(run.active(run.after(told, PLAN).processes), [0, 1, 2]);
        const { marks, lines } = Cnum.placeRun(told, INPUTS, text => 8 * text.length);
        assert.deepEqual(marks.slice(5).map(it => it.texts), [['decides 10', ''], ['crashes', 'forgets 10'], ['writes 10', 'A of node 0']]);
        assert.ok(lines[0].to > marks[7].x);
        assert.equal(Cnum.placeRun(events, INPUTS, text => 8 * text.length).marks[6].texts[1], 'forgets its place');
    });
});

describe('a tournament', () => {
    const LETTER = 8;
    const widthOf = text => LETTER * text.length;
    const [LINE, BOX, ABOVE, GAP] = [17, 28, 6, 22];

    // A plan in which the processes meet as these lists say: in each list, the teams of a node. All do the same operation.
    function planOf(teams, operation) {
        const paths = Array.from({ length: teams.flat(Infinity).length }, () => []);
        const nodes = [];
        (function meet(its) {
            const node = nodes.push({}) - 1;
            its.forEach(it => Array.isArray(it) && meet(it));
            its.forEach((it, team) => [it].flat(Infinity).forEach(process => paths[process].push({ node, team: Cnum.plans.NAMES[team], operation })));
        })(teams);
        return { processes: paths.length, nodes, paths };
    }

    // The boxes of a picture: those of the nodes and processes, and of the texts on them.
    function boxesOf({ tree, heights }) {
        const at = (x, width, bottom, height) => ({ left: x - width / 2, right: x + width / 2, top: bottom - height, bottom });
        const ofPart = ({ node, process, x, floor }) => at(x, widthOf(`${node === undefined ? 'process' : 'node'} ${node || process || 0}`) + GAP, heights[floor].y + BOX / 2, BOX);
        const ofWay = ({ rows, child: { x, floor } }) => at(x, Math.max(...rows.flat().map(widthOf)), heights[floor].y - BOX / 2 - ABOVE, LINE * rows.flat().length);
        return [ofPart(tree), ...tree.ways.flatMap(it => [ofWay(it), ...boxesOf({ tree: it.child, heights })])];
    }

    const waysOf = tree => tree.ways.flatMap(it => [it, ...waysOf(it.child)]);
    const meets = (p, q) => p.left < q.right && q.left < p.right && p.top < q.bottom && q.top < p.bottom;
    const PLANS = {
        'eight at one node': [0, 1, 2, 3, 4, 5, 6, 7],
        'eight in pairs': [[[0, 1], [2, 3]], [[4, 5], [6, 7]]],
        'eight in teams of three and two': [[0, 1, 2], [3, 4, 5], [6, 7]],
        'eight one after the other': [0, [1, [2, [3, [4, [5, [6, 7]]]]]]],
        'eight of whom the last meet first': [[[[[[[7, 6], 5], 4], 3], 2], 1], 0],
        'two': [0, 1],
    };
    const LONG = 'compare_and_swap_of_two_far_words';

    for (const [about, teams] of Object.entries(PLANS)) {
        it(`of ${about} has room for each text, and fits into a window of 1280 points`, () => {
            for (const operation of ['x', 'fetch_and_add_1', LONG.slice(0, 32), 'q'.repeat(32)]) {
                const placed = Cnum.placeTournament(planOf(teams, operation), widthOf);
                const boxes = boxesOf(placed);
                assert.deepEqual(boxes.flatMap((p, k) => boxes.slice(k + 1).filter(q => meets(p, q))), [], operation);
                assert.ok(boxes.every(it => it.left >= 0 && it.right <= placed.width && it.top >= 0 && it.bottom <= placed.height), operation);
                assert.ok(placed.width <= 1180, `${operation}: ${placed.width}`);
                for (const { team, rows, lines } of waysOf(placed.tree)) {
                    assert.deepEqual(rows.map(it => it.join('')), lines.map(it => `${team} ${it.process}: ${operation}`));
                }
            }
        });
    }

    it('has a text in one row, if there is room', () => {
        const rowsOf = (teams, operation) => waysOf(Cnum.placeTournament(planOf(teams, operation), widthOf).tree).flatMap(it => it.rows);
        assert.deepEqual(rowsOf([0, 1], LONG).map(it => it.length), [1, 1]);
        assert.deepEqual(rowsOf([0, 1, 2, 3, 4, 5, 6, 7], LONG)[7], ['H 7: ', 'compare_and_', 'swap_of_two_', 'far_words']);
    });
});

describe('an adversary', () => {
    // Runs of processes that take so many steps each, write the value that `decide` gives, and decide it.
    const runOf = (counts, decide) => schedule => {
        const taken = counts.map(() => 0);
        const events = [];
        for (const { process, does } of schedule) {
            const act = { process, does, node: 0, team: 'A' };
            if (act.does === run.CRASH) taken[act.process] = 0;
            else if (taken[act.process]++ >= counts[act.process]) continue;
            const hasDecided = act.does === run.STEP && taken[act.process] === counts[act.process];
            const kind = act.does === run.CRASH ? 'crashes' : hasDecided ? 'decides' : 'writes';
            events.push({ ...act, kind });
            if (kind !== 'crashes') events[events.length - 1].value = decide(events, act.process);
        }
        return { events, inputs: counts.map((_, process) => String(process)) };
    };
    const first = events => String(events[0].process);
    const planOf = (steps, more) => ({ processes: steps.length, steps, most: Math.max(...steps), nodes: [{ teams: ['A'] }], ...more });
    const tried = (steps, decide, more) => Cnum.tryToBreak(planOf(steps, more), async it => runOf(steps, decide)(it), () => {});

    // How many configurations there are of so many steps of each process: the first one, and for each number of steps of each
    // process one for each that can have been first: it has begun or, with crashes, may be any.
    function configurations(steps, comeBack) {
        const places = steps.reduce((all, most) => all.flatMap(it => Array.from({ length: most + 1 }, (_, step) => [...it, step])), [[]]);
        const firsts = taken => (comeBack ? taken : taken.filter(it => it > 0)).length;
        return 1 + places.map(firsts).reduce((sum, it) => sum + it, 0);
    }

    it('comes to each configuration of two processes', async () => {
        assert.equal(configurations([4, 4]), 41);
        const found = await tried([4, 4], first);
        assert.deepEqual([found.configurations, found.broken], [41, null]);
        assert.equal(found.worst.events.map(it => it.process).join(''), '01010101');
        assert.equal((await tried([2, 4], first)).configurations, 23);
    });

    it('comes to each configuration of three processes', async () => {
        assert.equal((await tried([4, 8, 8], first)).configurations, configurations([4, 8, 8]));
    });

    it('tries all in fewer runs than there are configurations, and shows a run with many turns last', async () => {
        const { count, configurations, worst } = await tried([3, 3, 3], first);
        assert.ok(count < configurations, `${count} runs of ${configurations} configurations`);
        assert.equal(worst.events.map(it => it.process).join(''), '012012012');
    });

    it('comes to each configuration of processes that come back', async () => {
        assert.equal((await tried([2, 3], first, { comeBack: true })).configurations, 25);
        assert.equal((await tried([2, 3, 5], first, { comeBack: true })).configurations, configurations([2, 3, 5], true));
    });

    it('lets processes crash at random', async () => {
        const { count, configurations, worst, broken } = await tried([9, 9, 18, 18], first, { comeBack: true });
        assert.deepEqual([count, configurations, broken], [500, null, null]);
        assert.ok(worst.events.filter(it => it.kind === 'crashes').length > 1);
        assert.ok((await tried([9, 9, 18, 18], first)).worst.events.every(it => it.kind !== 'crashes'));
    });

    // Two processes at a test-and-set bit: each writes, applies, and decides its own value if it was first.
    function atBit(schedule) {
        const [taken, won] = [[0, 0], []];
        let isSet = false;
        const events = schedule.flatMap(({ process, does }) => {
            if (does === run.STEP && taken[process] === 3) return [];
            taken[process] = does === run.CRASH ? 0 : taken[process] + 1;
            if (taken[process] === 2) [won[process], isSet] = [!isSet, true];
            const kind = does === run.CRASH ? 'crashes' : taken[process] === 3 ? 'decides' : 'writes';
            return [{ process, does, kind, node: 0, team: 'A', value: String(won[process] ? process : 1 - process) }];
        });
        return { events, inputs: ['0', '1'] };
    }

    it('finds the crash that breaks the agreement by a test-and-set bit', async () => {
        const by = async plan => (await Cnum.tryToBreak(plan, async it => atBit(it), () => {})).broken;
        assert.equal(await by(planOf([3, 3])), null);
        const { events } = await by(planOf([3, 3], { comeBack: true }));
        assert.deepEqual(events.filter(it => it.kind === 'crashes').length, 1);
        assert.equal(new Set(events.filter(it => it.kind === 'decides').map(it => it.value)).size, 2);
    });

    it('tries more processes at random', async () => assert.equal((await tried([4, 8, 12, 12], first)).count, 500));

    it('finds a schedule in which the processes do not agree', async () => {
        const split = (events, process) => (events.length > 2 && events[2].process === 1 ? String(process) : first(events));
        assert.ok((await tried([4, 4], split)).broken.events.some(it => it.kind === 'decides'));
        assert.ok((await tried([4, 4], () => '7')).broken, 'a value that nobody proposed');
        assert.ok((await tried([4, 4], () => '0')).broken, 'the value of a process that does not take part');
        const counted = steps => Cnum.tryToBreak(planOf([4, 4]), async it => runOf(steps, first)(it), () => {});
        assert.ok((await counted([4, 5])).broken, 'a process that takes too many steps');
        assert.equal((await counted([4, 4])).broken, null);
    });
});

describe('undo', () => {
    it('goes back over each change, and forward again', () => {
        const past = new Cnum.Past();
        for (const text of ['a', 'b', 'b', 'c']) past.put(text);
        assert.deepEqual([past.move(-1), past.move(-1), past.canMove(-1), past.move(1)], ['b', 'a', false, 'b']);
        past.put('d');
        assert.deepEqual([past.canMove(1), past.move(-1), past.move(-1)], [false, 'b', 'a']);
    });

    it('takes letters without a pause as one change', () => {
        const past = new Cnum.Past();
        past.put('');
        const typed = [['n', 0], ['na', 500], ['nam', 900], ['name', 2500], ['name ', 2600]];
        for (const [text, now] of typed) past.put(text, { isTyped: true, now });
        assert.deepEqual([past.move(-1), past.move(-1)], ['nam', '']);
    });

    it('begins a change after another one is undone', () => {
        const past = new Cnum.Past();
        past.put('');
        past.put('a', { isTyped: true, now: 0 });
        past.move(-1);
        past.put('b', { isTyped: true, now: 10 });
        assert.equal(past.move(-1), '');
    });

    it('goes to a text that was there before, or to a new one', () => {
        const past = new Cnum.Past();
        for (const text of ['a', 'b', 'c']) past.put(text);
        past.goTo('b');
        assert.deepEqual([past.canMove(1), past.move(1)], [true, 'c']);
        past.goTo('d');
        assert.deepEqual([past.canMove(1), past.move(-1)], [false, 'c']);
    });

    it('leads the cursor to the place of the change', () => assert.equal(Cnum.endOfChange('one three', 'one two three'), 3));
});

describe('the run that fails', () => {
    const step = (process, response, state) => ({ operation: 'tas', process, response, state });
    const sides = { a_first: { pair: { response: 'one', state: 'one' }, steps: [step(0, 'zero', 'one'), step(1, 'one', 'one')] } };
    sides.b_first = { ...sides.a_first, steps: [step(2, 'zero', 'one'), step(1, 'one', 'one')] };
    const CHOICE = { ...sides, process: 1, processes: ['A', 'B', 'B'].map(team => ({ operation: 'tas', team })), start: 'zero' };
    const OWN = { ...CHOICE, process: 0, b_first: { ...sides.b_first, steps: [step(2, 'zero', 'one'), step(0, 'one', 'one')] } };
    const wordOf = ({ process, kind, value, state }) => [process, kind, value || state].filter(it => it !== undefined).join(' ');

    it('is one that other processes begin, if there is one', () => {
        assert.equal(Cnum.collisionToShow({ collisions: [OWN, CHOICE] }), CHOICE);
        assert.equal(Cnum.collisionToShow({ collisions: [OWN] }), OWN);
        assert.equal(Cnum.collisionToShow({ collisions: [] }), null);
    });

    it('lets all write, the first one decide, and the others go on', () => {
        const { runs, inputs, doubting } = Cnum.failingRuns(CHOICE);
        const writes = ['0 writes 10', '1 writes 20', '2 writes 20'];
        const wanted = first => [...writes, `${first} applies`, `${first} reads one`, `${first} decides ${first ? 20 : 10}`, '1 applies', '1 doubts one'];
        assert.deepEqual(runs.map(it => it.events.map(wordOf)), [wanted(0), wanted(2)]);
        assert.deepEqual([inputs, doubting, runs.map(it => it.decidedBy)], [['10', '20', '20'], 1, [0, 2]]);
    });

    it('ends with two decisions, whatever the one that cannot tell decides', () => {
        const { runs, doubting } = Cnum.failingRuns(CHOICE);
        const wrong = value => runs.map(it => Cnum.failingEnd(it, doubting, value).wrong);
        assert.deepEqual([wrong('10'), wrong('20')], [[null, 'two'], ['two', null]]);
    });

    it('is wrong of the team that was first, if the first process is the one that cannot tell', () => {
        const { runs, doubting } = Cnum.failingRuns(OWN);
        assert.deepEqual(runs[0].events.map(wordOf).slice(3), ['0 applies', '1 applies', '0 doubts one']);
        assert.deepEqual(runs.map(it => Cnum.failingEnd(it, doubting, '20').wrong), ['first', null]);
    });

    // A queue of one item that nobody reads, as `why --without-read --all` tells of it.
    const move = (process, operation, response, state) => ({ operation, process, response, state });
    const enqueued = ['a', 'a', 'a'].map((item, place) => ({ operation: `enq_${item}`, team: 'ABB'[place] }));
    const ALIKE = { a_first: [move(0, 'enq_a', 'ok', 'qa')], b_first: [move(1, 'enq_a', 'ok', 'qa')], process: 2, processes: enqueued, start: 'q' };
    const OTHERS = {
        a_first: [move(0, 'enq_a', 'ok', 'qa'), move(2, 'enq_b', 'full', 'qa'), move(2, 'deq', 'a', 'q'), move(1, 'enq_b', 'ok', 'qb')],
        b_first: [move(1, 'enq_b', 'ok', 'qb'), move(2, 'enq_b', 'full', 'qb')],
        process: 1,
        processes: ['a', 'b', 'b'].map((item, place) => ({ operation: `enq_${item}`, team: 'ABB'[place] })),
        start: 'q',
    };
    const ENDLESS = { ...ALIKE, a_first: [], b_first: [], process: null };
    const unread = (choices, more) => ({ merged: [], refuted: { choices, count: 8 }, with_reads: false, ...more });
    const told = { collisions: [CHOICE], more: 4 };

    it('without reads is one that different operations begin, if there is one with an end', () => {
        assert.equal(Cnum.wayToShow({ choices: [ENDLESS, ALIKE, OTHERS] }), OTHERS);
        assert.equal(Cnum.wayToShow({ choices: [ENDLESS, ALIKE] }), ALIKE);
        assert.equal(Cnum.wayToShow({ choices: [ENDLESS] }), null);
    });

    it('without reads lets nobody decide before the end', () => {
        const { runs, inputs, doubting, ways, state, got, reads } = Cnum.failingUnread(told, unread([OTHERS]));
        const writes = ['0 writes 10', '1 writes 20', '2 writes 20'];
        const wanted = [[0, 2, 2, 1], [1, 2]].map(its => [...writes, ...its.map(it => `${it} applies`), '1 wavers']);
        assert.deepEqual(runs.map(it => it.events.map(wordOf)), wanted);
        assert.deepEqual(runs[0].events.slice(3, 7).map(it => [it.before, it.after]), [['q', 'qa'], ['qa', 'qa'], ['qa', 'q'], ['q', 'qb']]);
        assert.deepEqual([inputs, doubting, ways, state, got, reads], [['10', '20', '20'], 1, 8, 'qb', true, false]);
        assert.deepEqual(runs.map(it => Cnum.failingEnd(it, doubting, '20').wrong), ['first', null]);
        const nothing = Cnum.failingUnread(told, unread([ALIKE]));
        assert.deepEqual([nothing.got, nothing.runs.map(it => it.events.map(wordOf))[1]], [false, [...writes, '1 applies', '2 wavers']]);
    });

    it('is that with reads where not even reads help, and else none', () => {
        assert.equal(Cnum.failingWithReads(told).ways, 5);
        assert.deepEqual(Cnum.failingUnread(told, unread([], { refuted: null, with_reads: true })), Cnum.failingWithReads(told));
        assert.equal(Cnum.failingUnread(told, unread([], { refuted: null })), null);
        assert.equal(Cnum.failingUnread(told, unread([ENDLESS])), null);
        assert.deepEqual([Cnum.failingWithReads({ collisions: [], more: 0 }), Cnum.failingWithReads(null), Cnum.failingUnread(told, null)], [null, null, null]);
    });
});

describe('the number of processes of a protocol', () => {
    const ROWS = [
        // number, certified, chosen: the most, and how many are shown
        ['infinite', 8, null, 8, 3],
        ['infinite', 8, 8, 8, 8],
        ['infinite', 5, 3, 8, 3],
        [3, 3, null, 3, 3],
        [3, 3, 2, 3, 2],
        [3, 3, 8, 3, 3],
        [16, 8, null, 8, 8],
        [1, 1, null, 1, 1],
    ];
    for (const [number, certified, wanted, most, shown] of ROWS) {
        it(`of number ${number}, ${wanted || 'none'} chosen, is ${shown} of ${most}`, () => {
            assert.equal(Cnum.sizes.mostOf({ number, certified, comeBack: false, isOfCertificate: false, unread: null }), most);
            const limit = Cnum.sizes.chosen(wanted, number, most);
            assert.equal(limit || Cnum.sizes.usual(number, most), shown);
            assert.ok(limit === null || limit === wanted);
        });
    }

    it('is said', () => {
        const said = given => Cnum.sizes.inWords({ comeBack: false, isWithoutReads: false, reads: true, limit: null, ...given });
        assert.equal(said({ number: 'infinite', most: 8, certified: 8 }), 'The protocol is for 3 processes at first. Choose up to 8.');
        assert.equal(said({ number: 3, most: 3, certified: 3 }), 'The protocol is for 3 processes, as many as can agree.');
        assert.equal(said({ number: 3, most: 3, certified: 3, limit: 2 }), 'The protocol is for 2 processes, as you chose. It can be for up to 3.');
        assert.equal(said({ number: 1, most: 1, certified: 1 }), '');
    });
});

describe('the table of two operations that last', () => {
    it('has the start state and the single operation first', () => {
        const text = [
            'name = "x"', 'states = ["a", "b"]', 'responses = ["r", "s"]',
            '[[operation]]', 'name = "f"', 'response = ["r", "s"]', 'next = ["a", "a"]',
            '[[operation]]', 'name = "g"', 'response = ["s", "r"]', 'next = ["b", "a"]', '[[operation]]', 'name = "h"', 'response = ["r", "r"]', 'next = ["b", "b"]', '',
        ].join('\n');
        const wanted = [
            'name = "x"', 'states = ["b", "a"]', 'responses = ["r", "s"]',
            '[[operation]]', 'name = "h"', 'response = ["r", "r"]', 'next = ["b", "b"]', '[[operation]]', 'name = "f"', 'response = ["s", "r"]', 'next = ["a", "a"]', '',
        ].join('\n');
        assert.equal(Cnum.tableOfLasting(text, { start: 'b', single: 'h', many: 'f' }), wanted);
    });
});

describe('the large view', () => {
    it('has letters that can be read, and scrolls what is too wide', () => {
        assert.equal(Cnum.scaleOfRun([600, 244], [1400, 600], 1080).toFixed(2), '2.33');
        assert.equal((13 * Cnum.scaleOfRun([3000, 244], [1400, 600], 1080)).toFixed(1), '22.0');
        assert.equal(Cnum.scaleOfRun([3000, 700], [1400, 600], 1080).toFixed(3), '0.857');
        assert.equal(Cnum.scaleToFit([400, 800], [400, 400]), 0.5);
    });
});

describe('flaws in words', () => {
    const TABLE = Cnum.examples[0].types[0].text;
    const ROWS = [
        [{ kind: 'NotToml', path: [], line: 7, column: 6 }, TABLE, 'Zeile 7, Spalte 6: kein TOML'],
        [{ kind: 'UnknownKey', path: ['color'] }, `color = "x"\n${TABLE}`, '"color": die Wurzel hat name, states, responses, operation'],
        [{ kind: 'UnknownKey', path: ['operation', 0, 'then'] }, TABLE, 'Operation "tas", "then": eine Operation hat name, response, next'],
        [{ kind: 'MissingKey', path: [] }, TABLE.replace('responses', 'answers'), 'der Wurzel fehlt "responses"'],
        [{ kind: 'MissingKey', path: ['operation', 0] }, TABLE.replace('next', 'then'), 'Operation "tas": es fehlt "next"'],
        [{ kind: 'WrongKind', path: ['name'] }, TABLE, '"name": nicht ein Text'],
        [{ kind: 'WrongKind', path: ['operation', 0, 'next'] }, TABLE, 'Operation "tas", "next": nicht eine Liste von Texten'],
        [{ kind: 'WrongKind', path: ['operation', 1] }, TABLE, 'operation[1]: keine Tabelle'],
        [{ kind: 'BadName', path: ['states', 0] }, TABLE.replace('"zero"', '"Zero"'), 'Zustand "Zero": 1 bis 32 von a-z, 0-9, _'],
        [{ kind: 'Count', path: ['states'] }, TABLE.replace('["zero", "one"]', '[]'), '0 Zustände; mindestens 1'],
        [{ kind: 'Repeated', path: ['states', 1] }, TABLE.replace('"one"', '"zero"'), 'state[0] und state[1] heißen beide "zero"'],
        [{ kind: 'RowLength', path: ['operation', 0, 'next'] }, TABLE.replace('next = ["one", "one"]', 'next = ["one"]'), 'Operation "tas": next hat 1 Eintrag, es gibt 2 Zustände'],
        [{ kind: 'UnknownName', path: ['operation', 0, 'next', 0] }, TABLE.replace('next = ["one"', 'next = ["onee"'), 'Operation "tas", next[0]: "onee" ist kein Zustand (zero, one)'],
    ];
    for (const [flaw, text, wanted] of ROWS) {
        it(`${flaw.kind} ${JSON.stringify(flaw.path)}`, () => {
            Cnum.useLanguage('de');
            const told = Cnum.flawTexts([flaw], text);
            Cnum.useLanguage('en');
            assert.deepEqual(told, [wanted]);
            assert.deepEqual(Cnum.flawTexts([{ ...flaw, text: 'as it is printed' }], text), ['as it is printed']);
        });
    }

    it('two missing keys of one table are two', () => {
        const missing = { kind: 'MissingKey', path: [] };
        Cnum.useLanguage('de');
        const told = Cnum.flawTexts([missing, missing], 'name = "x"\nstates = ["s"]\n');
        Cnum.useLanguage('en');
        assert.deepEqual(told, ['der Wurzel fehlt "responses"', 'der Wurzel fehlt "operation"']);
    });
});

describe('the search over examples', () => {
    const index = Cnum.exampleIndex();
    const names = (query, isOfNumber) => Cnum.foundExamples(index, query, isOfNumber).map(it => it.name);

    it('finds names, words of the literature and groups', () => {
        assert.ok(names('Compare and swap').includes('cas_3'));
        assert.ok(names('compare-and-swap 3').includes('cas_3'));
        assert.equal(names('queue 2')[0], 'queue_2');
        assert.ok(names('loui abu-amara').length > 0);
        assert.deepEqual(names('nosuchword'), []);
        assert.equal(names('').length, index.length);
    });

    it('finds those of a number', () => assert.deepEqual(names('bit', path => path === 'types/sticky_bit'), ['sticky_bit']));

    it('orders the numbers', () => {
        const kinds = Cnum.kindsOf([2, 'infinite', 16, 10, 2]);
        assert.deepEqual(kinds, ['2', '10', '16', 'infinite']);
    });

    it('tells both numbers of an example, if they are two', () => {
        assert.equal(Cnum.numbersText({ read: 2, unread: 2 }), '(2)');
        assert.equal(Cnum.numbersText({ read: 'infinite', unread: 2 }), '(2, and infinite if its state can be read)');
    });
});

describe('edits of a table', () => {
    const TABLE = Cnum.examples[0].types.find(it => it.path === 'types/three_shot').text;
    const { edits } = Cnum;
    const edit = (name, ...words) => edits[name](new Cnum.TableText(TABLE), ...words);

    it('leave what led to a state that is removed', () => {
        const table = new Cnum.TableText(edit('removeState', 5)); // dead
        assert.deepEqual(table.items('states').map(it => it.text), ['bot', 'a1', 'a2', 'b1', 'b2']);
        assert.deepEqual(table.operations[0].next.map(it => it.text), ['a1', 'a2', 'dead', 'b2', 'dead']);
    });

    it('leave the entries of a response that is removed', () => {
        const table = new Cnum.TableText(edit('removeResponse', 2)); // none
        assert.equal(table.operations[0].response[5].text, 'none');
        assert.deepEqual(table.items('responses').map(it => it.text), ['a', 'b']);
    });

    it('rename a state everywhere', () => {
        const text = edit('rename', 'states', 0, 'new');
        assert.ok(!text.includes('"bot"') && text.includes('states = ["new", '));
    });

    it('keep remarks and order', () => {
        const text = `# about\n${TABLE}# end\n`;
        assert.equal(edits.removeState(new Cnum.TableText(edits.addState(new Cnum.TableText(text))), 6), text);
    });
});

describe('comparisons', () => {
    const SLOT = Cnum.FIRST_TABLE.replace('["s0", "s1"]', '["a", "b"]').replace('["s1", "s1"]', '["b", "b"]');

    it('tell the cells that differ', () => {
        const other = SLOT.replace('["b", "b"]', '["b", "a"]');
        assert.deepEqual(Cnum.differences(SLOT, SLOT), []);
        assert.deepEqual(Cnum.differences(SLOT, other), [{ operation: 'op0', state: 'b', first: 'ok → b', second: 'ok → a' }]);
    });

    it('tell the cells that one table lacks', () => {
        const more = Cnum.edits.addOperation(new Cnum.TableText(SLOT));
        assert.deepEqual(Cnum.differences(more, SLOT).map(it => [it.operation, it.state, it.first, it.second]), [
            ['op1', 'a', 'ok → a', null],
            ['op1', 'b', 'ok → b', null],
        ]);
        assert.deepEqual(Cnum.withoutEach(more).map(it => it.operation), ['op0', 'op1']);
        assert.equal(Cnum.withoutEach(more)[1].text, SLOT);
        assert.deepEqual(Cnum.withoutEach(SLOT), []);
        const alone = [{ number: 1, operations: ['op0'] }, { number: 2, operations: ['op1'] }];
        const pairs = Cnum.pairsOf(more, { alone, pairs: [{ number: 'infinite', operations: ['op0', 'op1'] }] });
        assert.deepEqual(pairs.map(it => [it.row, it.column, it.number]), [[0, 0, '1'], [1, 1, '2'], [1, 0, 'infinite']]);
        assert.deepEqual([pairs[0].text, pairs[2].text], [SLOT, more]);
    });

    it('have each operation alone and each pair, without reads too', () => {
        const add = text => Cnum.edits.addOperation(new Cnum.TableText(text));
        const sets = Cnum.setsUpToTwo(add(add(SLOT)));
        const [a, b, c] = ['op0', 'op1', 'op2'];
        assert.deepEqual(sets.map(it => it.operations), [[a], [a, b], [a, c], [b], [b, c], [c]]);
        assert.deepEqual([sets[0].text, sets[1].text], [SLOT, add(SLOT)]);
        const told = (...numbers) => Cnum.pairsToldBy(sets, numbers);
        const { number, alone, pairs } = told(3, 1, 2, 3, 1, 3, 2);
        assert.equal(number, 3);
        assert.deepEqual(alone, [{ number: 1, operations: [a] }, { number: 1, operations: [b] }, { number: 2, operations: [c] }]);
        assert.deepEqual(pairs, [{ number: 2, operations: [a, b] }, { number: 3, operations: [a, c] }, { number: 3, operations: [b, c] }]);
        assert.deepEqual(told(3, 1, 2, 3, 1, 3, 2).smallest, [[a, c], [b, c]]);
        assert.deepEqual(told('infinite', 1, 2, 'infinite', 'infinite', 2, 1).smallest, [[b]]);
        assert.equal(told(3, 1, 2, 2, 1, 2, 2).smallest, null);
        const open = { at_least: 2, at_most: 3 };
        assert.equal(told(open, 1, { ...open }, 1, 1, 1, 1).smallest, null);
    });
});

describe('changes of entries', () => {
    // Two operations, two states and two responses: it is 2, and rests on what `set` does in `off`.
    const TABLE = `name = "lamp" # of a desk
states = ["off", "on"]
responses = ["ok", "no"]
[[operation]]
name = "set"
response = ["ok", 'no']
next = ["on", 'on']
[[operation]]
name = "look"
response = ["ok", "no"]
next = ["off", "on"]
`;
    const told = (operation, state, next, number, responses = []) => ({ next, number, operation, responses, state });
    const each = numbers => numbers.map((number, index) => ({ number, response: ['ok', 'no'][index] }));
    const TOLD = {
        number: 2,
        changes: [
            told('set', 'off', 'off', null, each([2, 1])),
            told('set', 'off', 'on', 1),
            told('set', 'on', 'off', 3),
            told('set', 'on', 'on', 2),
            told('look', 'off', 'off', 'infinite'),
            told('look', 'off', 'on', null, each(['infinite', { at_least: 3 }])),
            told('look', 'on', 'off', { at_least: 1, at_most: 2 }),
            told('look', 'on', 'on', { at_least: 2 }),
        ],
    };
    const entries = Cnum.entriesOf(TABLE, TOLD);
    const raising = Cnum.raisingOf(entries, TOLD.number);

    it('are less or greater only where that is certain', () => {
        const [range, least] = [{ at_least: 2, at_most: 4 }, { at_least: 3 }];
        for (const [a, b] of [[1, 2], [2, 'infinite'], [1, range], [range, 5], [2, least], [range, 'infinite']]) {
            assert.ok(Cnum.isLess(a, b) && !Cnum.isLess(b, a), `${JSON.stringify([a, b])}`);
        }
        for (const [a, b] of [[2, 2], ['infinite', 'infinite'], [2, range], [4, range], [3, least], [least, 'infinite'], [range, least]]) {
            assert.ok(!Cnum.isLess(a, b) && !Cnum.isLess(b, a), `${JSON.stringify([a, b])}`);
        }
    });

    it('tell on which entries the number rests', () => {
        assert.deepEqual(entries.map(row => row.map(it => it.rests)), [[true, false], [false, false]]);
        const { operation, state, response, next } = entries[0][1];
        assert.deepEqual([operation, state, response, next], ['set', 'on', 'no', 'on']);
    });

    it('are counted', () => {
        assert.deepEqual([Cnum.countChanges(TABLE, false), Cnum.countChanges(TABLE, true)], [12, 54]);
        const { text } = Cnum.examples.flatMap(it => it.types).find(it => it.path === 'catalogue/queue_2');
        assert.equal(Cnum.countChanges(text, true), 50000);
    });

    it('that raise the number stand with the greatest first', () => {
        assert.deepEqual(raising.map(Cnum.changeInWords), [
            'infinite if look in off leads to off and answers no',
            'infinite if look in off leads to on and answers ok',
            '3 if set in on leads to off',
            'at least 3, no upper bound found if look in off leads to on and answers no',
        ]);
    });

    it('name the response where there is one other', () => {
        assert.deepEqual(entries[0][0].changes.map(it => [it.next, it.response, it.isSame]), [['off', 'ok', false], ['off', 'no', false], ['on', 'no', true]]);
        const more = Cnum.entriesOf(Cnum.edits.addResponse(new Cnum.TableText(TABLE)), TOLD);
        assert.equal(Cnum.changeInWords(more[1][0].changes[0]), 'infinite if look in off leads to off and answers otherwise');
    });

    it('are made in the text, and nothing else is', () => {
        const made = change => Cnum.withChanges(TABLE, [change]);
        assert.equal(made(raising[0]), TABLE.replace('name = "look"\nresponse = ["ok"', 'name = "look"\nresponse = ["no"'));
        assert.equal(made(raising[1]), TABLE.replace('next = ["off"', 'next = ["on"'));
        assert.equal(made(raising[2]), TABLE.replace("'on'", '"off"'));
        assert.equal(made({ ...raising[2], next: 'on' }), TABLE.replace("'no'", '"ok"'));
        const two = [{ operation: 'set', state: 'on', next: 'off', response: 'ok' }, { operation: 'look', state: 'on', next: 'off', response: 'no' }];
        assert.equal(Cnum.withChanges(TABLE, two), TABLE.replace("'on'", '"off"').replace("'no'", '"ok"').replace('next = ["off", "on"]', 'next = ["off", "off"]'));
        assert.equal(Cnum.pairInWords({ first: two[0], second: two[1], number: 4 }), '4 if set in on leads to off and answers ok, and look in on leads to off and answers no');
    });
});

describe('places of flaws', () => {
    const text = 'name = "Tas"\nstates = ["a", "b"]\nresponses = ["r"]\ncolor = 1\n[[operation]]\nname = "o"\nresponse = ["r", "r"]\nnext = ["a", "c"]\n';
    const marked = (kind, path, more) => Cnum.placesOf([{ kind, path, ...more }], text).map(it => it && text.slice(it.from, it.to))[0];

    it('are those of the text, by their paths', () => {
        assert.equal(marked('UnknownName', ['operation', 0, 'next', 1]), '"c"');
        assert.equal(marked('RowLength', ['operation', 0, 'next']), '["a", "c"]');
        assert.equal(marked('BadName', ['name']), '"Tas"');
        assert.equal(marked('BadName', ['states', 1]), '"b"');
        assert.equal(marked('Count', ['responses']), '["r"]');
        assert.equal(marked('UnknownKey', ['color']), 'color');
        assert.equal(marked('WrongKind', ['color']), '1');
        assert.equal(marked('MissingKey', ['operation', 0]), '[[operation]]');
    });

    it('are those of lines and columns', () => assert.equal(marked('NotToml', [], { line: 2, column: 1 }), 's'));

    it('are none, if a key is missing in the whole or nothing stands there', () => {
        assert.equal(marked('MissingKey', []), null);
        assert.equal(marked('UnknownName', ['operation', 3, 'next', 1]), null);
        assert.equal(marked('UnknownName', ['name', 'next', 1]), null);
    });
});

describe('notes on a table', () => {
    it('tell what is never reached and what changes nothing', () => {
        const of = told => Cnum.notesOf(Cnum.FIRST_TABLE, { flaws: [], idle: [], unreached: [], ...told });
        const [nop, look] = [{ operation: 'nop', answers: false }, { operation: 'look', answers: true }];
        assert.deepEqual(of({ idle: [nop], unreached: ['s1'] }), ['State s1 cannot be reached from s0.', 'Operation nop changes nothing.']);
        assert.deepEqual(of({}), []);
        assert.deepEqual(of({ idle: [look] }), ['Operation look changes nothing. It counts where the state cannot be read.']);
    });
});

describe('answers', () => {
    it('have numbers of any length', () => {
        const text = '{"a":[18446744073709551615,7],"b":"12345678901234567890"}';
        assert.deepEqual(Cnum.exactValueOf(text), { a: ['18446744073709551615', 7], b: '12345678901234567890' });
    });

    it('stand one in a line', () => assert.deepEqual(Cnum.valuesOf('{"a":1}\n{"a":2}\n'), [{ a: 1 }, { a: 2 }]));

    it('have numbers in words', () => {
        const numbers = [3, 'infinite', 16, { at_least: 5 }, { at_least: 1, at_most: 2 }];
        const texts = ['3', 'infinite', '16', 'at least 5, no upper bound found', 'at least 1, at most 2, not decided'];
        assert.deepEqual(numbers.map(Cnum.numberText), texts);
        assert.deepEqual(numbers.map(Cnum.leastOf), [3, Infinity, 16, 5, 1]);
        assert.deepEqual(numbers.map(Cnum.mostOf), [3, Infinity, 16, Infinity, 2]);
    });

    const ALONE = 'By the operations of the table alone, ';
    const SENTENCES = [
        [1, 'one process alone decides, and no protocol lets 2 agree.'],
        [2, '2 processes can agree, and no protocol lets 3 agree.'],
        ['infinite', 'any number of processes can agree.'],
        [16, '16 processes can agree, and no protocol lets 17 agree.'],
        [{ at_least: 2, at_most: 4 }, '2 processes can agree, and no protocol lets 5 agree; what lies between is not decided.'],
        [{ at_least: 1, at_most: 2 }, 'no protocol lets 3 agree; whether fewer can agree is not decided.'],
        [{ at_least: 5 }, '5 processes can agree; whether more can is not decided.'],
        [{ at_least: 1 }, 'it is not decided whether 2 processes can agree.'],
    ];
    for (const [number, sentence] of SENTENCES) {
        it(`have a sentence for ${JSON.stringify(number)}`, () => {
            assert.equal(Cnum.sentenceOf(number, false), ALONE + sentence);
            assert.equal(Cnum.sentenceOf(number, true), `If each process can also read the whole state in one step, ${sentence}`);
        });
    }

    it('have a question for each number', () => {
        const questions = [2, 'infinite', { at_least: 5 }].map(Cnum.questionOf);
        assert.deepEqual(questions, ['Why 2 and not 3?', 'Why any number?', 'Why?']);
    });

    const FAULTS = [
        ['cnum: table: 8 RowLength', 'A row does not have one entry for each state.'],
        ['cnum: check: 6 NotNext 8', 'Its collision 8 is not for the choice whose turn it is.'],
        ['cnum: check: 4 Meets 1 0', 'At node 1 of its plan some process can get the same, whichever team was first.'],
        ['cnum: check: 8 NotAJoin 3', 'Its join 3 is none: the two runs do not show one operation the same.'],
        ['cnum: check: 4 WitnessMeets 0', 'Its witness is none: process 0 can get the same response and read the same state after either team was first.'],
        ['cnum: certificate: too long', 'It is longer than any certificate.'],
        ['cnum: certificate: no witness', 'It has no witness: one process alone has nobody to agree with.'],
        ['cnum: argument: SCHEDULE', 'The run has more steps than the program takes.'],
        ['cnum: -: out of memory', 'The memory is not enough.'],
        ['cnum: cannot write', 'The program ended with a fault.'],
    ];
    for (const [line, sentence] of FAULTS) {
        it(`tell in words: ${line}`, () => assert.equal(Cnum.inWords({ status: 1, stderr: `${line}\n` }), `${sentence} (${line})`));
    }

    it('tell a fault that is a value', () => {
        const told = Cnum.inWords({ status: 1, stderr: 'cnum: check: 7 NotACollision 3\n' }, { entry: 3, name: 'NotACollision', number: 7 });
        assert.equal(told, 'Its collision 3 is none. (cnum: check: 7 NotACollision 3)');
        const line = 'cnum: check: 9 NoticesItself 0';
        const noticed = Cnum.inWords({ status: 1, stderr: `${line}\n` }, { name: 'NoticesItself', number: 9, operation: 0 });
        assert.equal(noticed, `Its upper bound is 1, but operation 0 gets another response when it is done a second time. (${line})`);
    });

    it('choose the check of a certificate by its version', () => {
        assert.deepEqual(Cnum.wordsOfCheck('{"version":3}'), ['check', '--stocks']);
        assert.deepEqual(Cnum.wordsOfCheck('{"version":4}'), ['check', '--without-read']);
        assert.deepEqual(Cnum.wordsOfCheck('{"version":5}'), ['check', '--shortest']);
        for (const text of ['{"version":2}', '4', '{', 'null']) assert.deepEqual(Cnum.wordsOfCheck(text), ['check']);
    });

    it('have a sentence for each flaw and each fault of a certificate', () => {
        const namesIn = schema => (schema && typeof schema === 'object' ? Object.entries(schema).flatMap(namesUnder) : []);
        const namesUnder = ([key, value]) => (['kind', 'name'].includes(key) ? value.enum || [value.const].flatMap(it => it || []) : namesIn(value));
        const names = ['flaws', 'verdict'].flatMap(it => namesIn(JSON.parse(fs.readFileSync(path.join(WEB, `../docs/schema/${it}.json`), 'utf8'))));
        assert.ok(names.length > 20);
        assert.deepEqual(names.filter(it => !(`fault_${it}` in Cnum.texts)), []);
    });

    it('tell a run that failed', () => {
        assert.equal(Cnum.inWords({ status: null, stderr: 'unreachable' }), 'The run of the program failed. (unreachable)');
    });
});

describe('a picture in DOT', () => {
    const DOT = 'digraph "t" {\n  "a";\n  "b";\n  "a" -> "b" [label="x/r\\ly/s\\l"];\n  "b" -> "b" [label="x/s\\l"];\n}\n';
    const graph = Cnum.graphOf(DOT);

    it('is read', () => {
        const x = text => ({ text, operation: 'x' });
        const arrows = [{ from: 0, to: 1, lines: [x('x/r'), { text: 'y/s', operation: 'y' }] }, { from: 1, to: 1, lines: [x('x/s')] }];
        assert.deepEqual(graph, { names: ['a', 'b'], arrows });
    });

    it('is shown with some operations alone', () => {
        assert.deepEqual(Cnum.operationsOf(graph), ['x', 'y']);
        const { names, arrows } = Cnum.graphWith(graph, it => it === 'y');
        assert.deepEqual([names, arrows.map(it => it.lines.map(one => one.text))], [['a', 'b'], [['y/s']]]);
    });

    it('is shown with some states as one', () => {
        const line = text => `x${text}/r`;
        const arrows = [[0, 1, 1], [0, 2, 2], [1, 2, 3], [2, 0, 4], [1, 0, 5]].map(([from, to, text]) => ({ from, to, lines: [line(text)] }));
        const merged = Cnum.mergedGraph({ names: ['a', 'b', 'c'], arrows }, ['aa', 'bb', 'cb'].map(it => ({ state: it[0], class: it[1] })));
        assert.deepEqual(merged.names, ['a', 'b']);
        const wanted = [[0, 1, ['x1/r', 'x2/r']], [1, 1, ['x3/r']], [1, 0, ['x5/r']]];
        assert.deepEqual(merged.arrows.map(it => [it.from, it.to, it.lines]), wanted);
        assert.deepEqual(Cnum.mergedGraph(graph, []), graph);
    });
});

// Elements as far as an explanation needs them: their texts, in order.
class FakeElement {
    constructor(name) {
        const classes = new Set();
        const toggle = (kind, isOn) => classes[isOn ? 'add' : 'delete'](kind);
        Object.assign(this, { name, parts: [], classList: { toggle, add: it => classes.add(it), contains: it => classes.has(it) } });
    }

    append(...parts) {
        this.parts.push(...parts);
    }

    replaceChildren(...parts) {
        this.parts = parts;
    }

    setAttribute() {}

    addEventListener(kind, act) {
        this[`on${kind}`] = act;
    }

    get children() {
        return this.parts;
    }

    set textContent(text) {
        this.parts = [text];
    }

    get textContent() {
        return this.parts.map(it => (typeof it === 'string' ? it : it.isHidden() ? '' : it.textContent)).join(' ');
    }

    isHidden() {
        return this.hidden || this.classList.contains('later');
    }

    // All elements in it of one name.
    all(name) {
        return this.parts.filter(it => it instanceof FakeElement).flatMap(it => [...(it.name === name ? [it] : []), ...it.all(name)]);
    }
}

// What a place shows in a language.
function shownIn(language, show) {
    globalThis.document = { createElement: name => new FakeElement(name) };
    Cnum.useLanguage(language);
    const place = new FakeElement('div');
    show(place);
    Cnum.useLanguage('en');
    return place;
}

const plain = text => text.replace(/\s+/g, ' ').trim();
const has = (text, ...parts) => parts.forEach(it => assert.ok(text.includes(it), `${it} in ${text}`));

describe('an explanation', () => {
    const pair = (response, state) => ({ response, state });
    const step = (process, operation, response, state) => ({ operation, process, response, state });
    const of = (team, a, b) => ({ a_first: [a], b_first: [b], operation: 'tas', team });
    const NUMBER_2 = {
        apart: [],
        collisions: [{
            a_first: { pair: pair('one', 'one'), steps: [step(0, 'tas', 'zero', 'one'), step(1, 'tas', 'one', 'one')] },
            b_first: { pair: pair('one', 'one'), steps: [step(2, 'tas', 'zero', 'one'), step(1, 'tas', 'one', 'one')] },
            process: 1,
            processes: [{ operation: 'tas', team: 'A' }, { operation: 'tas', team: 'B' }, { operation: 'tas', team: 'B' }],
            start: 'zero',
        }],
        lasting: null, limit: 8, more: 0, name: 'test_and_set', number: 2, rule: 'two_states', version: 2,
        witness: { processes: [of('A', pair('zero', 'one'), pair('one', 'one')), of('B', pair('one', 'one'), pair('zero', 'one'))], start: 'zero' },
    };
    const NUMBER_1 = { ...NUMBER_2, collisions: [], number: 1, rule: 'hidden_operations', witness: null };
    const lasting = { many: 'put0', many_states: ['unset', 'zero'], single: 'put1', single_states: ['one'], start: 'unset' };
    const alike = { ...of('B', pair('one', 'one'), pair('zero', 'zero')), operation: 'put1' };
    const eight = { processes: [{ ...alike, team: 'A', operation: 'put0' }, ...Array(7).fill(alike)], start: 'unset' };
    const INFINITE = { ...NUMBER_2, apart: [['put0', 'put1']], collisions: [], lasting, number: 'infinite', rule: null, witness: eight };

    function shown(value, language = 'en') {
        const how = { all: async () => value, printed: async () => '' };
        return plain(shownIn(language, it => Cnum.showExplanation(it, value, how)).textContent);
    }

    it('of a number has a witness and collisions', () => {
        has(shown(NUMBER_2), 'Why 2: ', 'It starts in zero; A: p0 does tas; B: p1 does tas.', 'got zero, reads one', 'at most 2', 'Why not 3: 1 way ');
        has(shown(NUMBER_2), 'Start zero; A: p0 does tas; B: p1 and p2 do tas.', 'p1 cannot tell', 'B first zero p2 tas', 'p1 got one, reads one');
        has(shown(NUMBER_2), 'No protocol at all does it for 3: this is proved.');
        has(shown(NUMBER_2, 'de'), 'Warum 2: ', 'p1 kann es nicht sagen', 'p1 und p2 machen tas', 'Kein Protokoll');
    });

    it('of more ways has a button for the rest', () => has(shown({ ...NUMBER_2, more: 150 }), 'Why not 3: 151 ways ', 'Show 100 more of 151'));

    it('of the number 1 has no witness', () => {
        has(shown(NUMBER_1), 'One process alone', 'one tells nothing of the other', 'Why not 2: no way ', 'for 2: this is proved');
    });

    it('of no greatest number has two operations that last', () => {
        const text = shown(INFINITE);
        has(text, 'Why any number: from state unset, one process does put1', 'put0, or no step yet unset, zero', 'For 8 processes, say:');
        has(text, 'p1 to p7', 'B: p1 to p7 do put1', 'put0 with put1', 'for each number of processes');
    });

    it('of a number beyond the limit tells no ways', () => {
        const text = shown({ ...INFINITE, lasting: null, number: 16 });
        has(text, 'The ways for 17 processes are not listed here.', 'No protocol at all does it for 17');
        assert.ok(!text.includes('Why not'));
    });

    it('has a button to the run that fails, if there is one', () => {
        const how = { all: async () => NUMBER_2, printed: async () => '', tryAnyway: () => {} };
        const text = anyway => plain(shownIn('en', it => Cnum.showExplanation(it, NUMBER_2, { ...how, anyway })).textContent);
        has(text('Let 3 try it anyway'), 'Let 3 try it anyway');
        assert.ok(!text('').includes('anyway'));
    });
});

describe('an explanation without reads', () => {
    const step = (process, operation, response, state) => ({ operation, process, response, state });
    const sight = (response, ...answers) => ({ answers: answers.map(([operation, answer]) => ({ operation, response: answer })), response });
    const of = (operation, team, a, b) => ({ a_first: [a], b_first: [b], operation, team });
    // A queue with room for one item. By hand: in both runs p0 gets ok, and the item a is in the queue in the end.
    const CHOICE = {
        a_first: [step(0, 'enq_a', 'ok', 'qa')],
        b_first: [step(1, 'enq_b', 'ok', 'qb'), step(2, 'deq', 'b', 'q'), step(0, 'enq_a', 'ok', 'qa')],
        process: 0,
        processes: [{ operation: 'enq_a', team: 'A' }, { operation: 'enq_b', team: 'B' }, { operation: 'deq', team: 'B' }],
        start: 'q',
    };
    const QUEUE = {
        merged: [], name: 'queue_1', refuted: { choices: [CHOICE], count: 24, positions: 126, processes: 3 }, rule: null, signs: null,
        telling: null, with_reads: false, without_read: 2,
        witness: {
            follow_ups: [], looks: [], start: 'qa',
            processes: [of('deq', 'A', sight('a'), sight('empty')), of('deq', 'B', sight('empty'), sight('a'))],
        },
    };

    // The picture of the states, as far as the runs light it up: `seen` holds the states that are lit, one for each run.
    function place(value, language = 'en') {
        const seen = [];
        const light = Cnum.lightUp;
        Cnum.lightUp = (picture, state, move) => (seen[picture.number] = [state, move]);
        Cnum.reveal = () => {};
        const picture = () => Object.assign(new FakeElement('svg'), { number: 0, cloneNode: () => Object.assign(new FakeElement('svg'), { number: 1 }) });
        const made = shownIn(language, it => Cnum.showUnreadExplanation(it, value, { picture, printed: async () => '' }));
        const press = label => made.all('button').find(it => it.textContent === label).onclick();
        const key = name => made.all('div').find(it => it.onkeydown).onkeydown({ key: name, preventDefault() {} });
        const way = number => Object.assign(made.all('select')[0], { value: number }).onchange();
        return { seen, press, key, way, slider: made.all('input')[0], text: () => plain(made.textContent), end: () => (Cnum.lightUp = light) };
    }

    function shown(value, language) {
        const made = place(value, language);
        made.end();
        return made.text();
    }

    it('has a witness, and two runs of the adversary', () => {
        const text = shown(QUEUE);
        has(text, 'Why 2: by its responses', 'starts in qa; A: p0 does deq; B: p1 does deq.', 'p0 deq got a got empty p1 deq got empty got a');
        has(text, 'Why not 3: in each of 24 ways', 'Start q; A: p0 does enq_a; B: p1 does enq_b, p2 does deq.', 'with different decisions');
        has(text, 'A first q p0 enq_a answers ok qa', 'B first q p1 enq_b answers ok qb p2 deq answers b q p0 enq_a answers ok qa');
        has(text, 'p0 (A) enq_a: ok enq_a: ok p1 (B) enq_b: ok p2 (B) deq: b');
        has(text, 'p0 gets the same in both runs, and the object is in state qa after each.', 'So it decides the same in both.');
        has(text, '126 positions', 'count as one. Ways in which an operation leaves the start state unchanged', 'for 3 without reads: this is proved.');
        has(shown(QUEUE, 'de'), 'Warum 2: ', 'Warum nicht 3: bei jeder von 24 Weisen', 'p0 bekommt in beiden Läufen dasselbe', 'ohne Lesen: das ist bewiesen');
    });

    it('lets one step the two runs', () => {
        const made = place(QUEUE);
        const lit = () => made.seen.map(([state]) => state);
        assert.deepEqual(lit(), ['qa', 'qa']);
        made.press('Start over');
        assert.deepEqual([lit(), made.slider.value], [['q', 'q'], 0]);
        has(made.text(), '0 of 3', 'A first q Run 2 B first q Process', 'p0 (A) p1 (B) p2 (B)');
        assert.ok(!made.text().includes('p0 gets the same'));
        made.press('Next');
        assert.deepEqual(made.seen, [['qa', { operation: 'enq_a', before: 'q', after: 'qa' }], ['qb', { operation: 'enq_b', before: 'q', after: 'qb' }]]);
        has(made.text(), 'B first q p1 enq_b answers ok qb Process', 'Run 1: p0 does enq_a, ok, state qa. Run 2: p1 does enq_b, ok, state qb.');
        made.key('ArrowRight');
        assert.deepEqual([lit(), made.slider.value], [['qa', 'q'], 2]);
        has(made.text(), '2 of 3', 'A first q p0 enq_a answers ok qa Run 2');
        made.slider.value = 3;
        made.slider.oninput();
        has(made.text(), '3 of 3', 'Run 2: p0 does enq_a, ok, state qa. p0 gets the same in both runs');
        made.press('Back');
        assert.ok(!made.text().includes('p0 gets the same'));
        for (const [name, at] of [['ArrowLeft', 1], ['ArrowLeft', 0], ['ArrowLeft', 0], ['Home', 0]]) {
            made.key(name);
            assert.equal(made.slider.value, at);
        }
        made.end();
    });

    it('of runs without an end says so', () => {
        const endless = { ...QUEUE, refuted: { ...QUEUE.refuted, choices: [{ ...CHOICE, a_first: [], b_first: [], process: null }], count: 1 } };
        const text = shown(endless);
        has(text, 'in the 1 way to choose', 'Start q; A: ', 'the adversary can go on for ever');
        assert.ok(!text.includes('Next') && !text.includes('Which of the ways'));
    });

    it('has each of the ways that are told', () => {
        // By hand: p1 gets nothing, and the queue is empty in the end.
        const other = {
            a_first: [step(0, 'enq_a', 'ok', 'qa'), step(2, 'deq', 'a', 'q')],
            b_first: [step(2, 'deq', 'empty', 'q')],
            process: 1,
            processes: [{ operation: 'enq_a', team: 'A' }, { operation: 'enq_a', team: 'B' }, { operation: 'deq', team: 'B' }],
            start: 'q',
        };
        const made = place({ ...QUEUE, refuted: { ...QUEUE.refuted, choices: [CHOICE, other] } });
        has(made.text(), 'Which of the ways: 1 of 24 2 of 24 Start q; A: p0 does enq_a; B: p1 does enq_b, p2 does deq.');
        made.way(1);
        has(made.text(), 'Start q; A: p0 does enq_a; B: p1 does enq_a, p2 does deq.', '2 of 2', 'p1 gets nothing in either run, and the object is in state q');
        assert.deepEqual(made.seen.map(([state]) => state), ['q', 'q']);
        made.end();
    });

    it('tells what processes do next, and states that are one', () => {
        const looked = { ...QUEUE.witness, looks: ['peek'], processes: [of('enq_a', 'A', sight('ok', ['peek', 'a']), sight('ok', ['peek', 'b']))] };
        has(shown({ ...QUEUE, witness: looked }), 'Then each process does peek, in this order.', 'got ok, then peek: a', 'got ok, then peek: b');
        const followed = { ...QUEUE.witness, follow_ups: [{ further: 'cas21', operation: 'cas02', response: 'no' }] };
        has(shown({ ...QUEUE, witness: followed }), 'After cas02 with no a process does cas21.', 'got empty');
        const merged = [{ state: 'q', class: 'q' }, { state: 'qa', class: 'qa' }, { state: 'qb', class: 'qa' }];
        const text = shown({ ...QUEUE, merged });
        has(text, 'No operations tell qb from qa, so they are one state here.');
        assert.ok(!text.includes('tell qa from qa'));
    });

    it('of more processes than the witness is for says so', () => {
        const sticky = { ...QUEUE, refuted: null, telling: 'responses', without_read: 'infinite' };
        has(shown(sticky), 'Each response tells the state', 'For 2 processes, say:', 'Why 2: ', 'It is so for each number of processes');
    });

    it('of no greatest number has signs', () => {
        const signs = { further: ['peek'], many: 'enq_b', side: 'A', signs: [{ operation: 'peek', response: 'a' }], single: 'enq_a', start: 'q' };
        const text = shown({ ...QUEUE, refuted: null, signs, witness: null, without_read: 'infinite' });
        has(text, 'one process of team A does enq_a, and any number of others in team B do enq_b', 'does peek until a response is a sign of team A: peek: a.');
        has(text, 'It is so for each number of processes: this is proved.');
    });

    it('by the number with reads has its rule', () => {
        const text = shown({ ...QUEUE, refuted: null, rule: 'two_states', telling: 'responses', with_reads: true });
        has(text, 'Each response tells the state', 'Why not 3: not even if these states can be read', 'The type has two states.', 'without reads: this is proved');
    });

    it('of a number that is open says what is known', () => {
        has(shown({ ...QUEUE, refuted: null, without_read: { at_least: 2 } }), 'No upper bound was found. What is known of the number: at least 2, no upper bound found.');
        const range = shown({ ...QUEUE, refuted: { ...QUEUE.refuted, processes: 4 }, without_read: { at_least: 1, at_most: 3 }, witness: null });
        has(range, 'One process alone', 'Why not 4: ', 'for 4 without reads: this is proved. What is known of the number: at least 1, at most 3, not decided.');
    });

    // The values that the schema permits, once there is one.
    const VALUES = path.join(WEB, '../tests/texts/schemas/unread_explanation.json');
    it('is there for each kind of value', { skip: !fs.existsSync(VALUES) }, () => {
        for (const value of JSON.parse(fs.readFileSync(VALUES, 'utf8')).right) has(shown(value), 'As the program prints it');
    });

    it('that the program does not give is none', () => assert.equal(shown(null), 'No reasons are shown for this number.'));
});

describe('the explanation of a certificate by stocks', () => {
    const tableOf = path => Cnum.examples.flatMap(group => group.types).find(it => it.path === path).text;
    const of = (least, most, by, joins) => ({ at_least: least, at_most: most, least: by, most: joins });

    function shown(path, certificate, language = 'en') {
        const made = shownIn(language, it => Cnum.showStockExplanation(it, certificate, tableOf(path), async () => ''));
        return plain(made.textContent);
    }

    it('has a line for each join', () => {
        const joins = [[0, [0], 0, [1, 0], 1], [1, [0, 1], 1, [1], 0]];
        const register = of(1, 1, null, joins);
        const told = shown('types/binary_register', register);
        has(told, 'One process alone', 'Why not 2: 2 joins;', 'done twice in a row', 'whose runs 2 processes can do', 'for 2: this is proved.');
        has(told, 'from zero: write0* and write1 write0* leave the same state: write0 and write1 are in one team');
        has(told, 'from one: write0 write1* and write1* leave the same state: write0 and write1 are in one team');
        const german = shown('types/binary_register', register, 'de');
        has(german, 'von one aus: write0 write1* und write1* enden in demselben Zustand: write0 und write1 sind in einem Team');
        has(shown('types/binary_register', of(1, 2, null, joins.slice(1))), 'Why not 3: 1 join;', 'a third one sees the same');
    });

    it('has the witness, or the states of two operations that last', () => {
        const witness = { witness: [0, [0], [0]] };
        has(shown('types/test_and_set', of(2, 2, witness, [])), '2-discerning', 'It starts in zero; A: p0 does tas; B: p1 does tas', 'Why not 3: no join');
        has(shown('types/test_and_set', of(2, null, witness, null)), 'whether more can is not decided', 'The certificate shows no upper bound.');
        const sticky = of(null, null, { lasting: [0, 0, 1, [1, 0], [1], [2]] }, null);
        const told = shown('types/sticky_bit', sticky);
        has(told, 'one process does put1, and any number of others do put0', 'It is so for each number of processes', 'As the program prints it');
        const cases = ['put1 first: the state is one of one', 'put1 not yet: the state is one of unset, zero', 'put1 behind put0: the state is one of zero'];
        has(told, ...cases);
        has(shown('types/sticky_bit', sticky, 'de'), 'put1 hinter put0: der Zustand ist einer von zero', 'Wie das Programm es ausgibt');
    });
});

describe('the layout', () => {
    const box = (x, y, width, height) => ({ left: x - width / 2, right: x + width / 2, top: y - height / 2, bottom: y + height / 2 });
    const meets = (a, b) => a.left < b.right && b.left < a.right && a.top < b.bottom && b.top < a.bottom;

    it('has no label on another or on a node', () => {
        for (const count of [1, 2, 3, 6, 12]) {
            const nodes = Array.from({ length: count }, () => ({ width: 50, height: 32 }));
            const ends = nodes.flatMap((_, from) => [[from, (from + 1) % count], [from, (from * 2) % count]]);
            const arrows = [...new Map(ends.map(it => [it.join(), it])).values()].map(([from, to]) => ({ from, to, width: 60, height: 34 }));
            const laid = Cnum.layOut({ nodes, arrows, start: 0 });
            const boxes = [...laid.nodes.map(it => box(it.x, it.y, it.width, it.height)), ...laid.arrows.map(it => it.label)];
            const pairs = boxes.flatMap((a, i) => boxes.slice(0, i).map(b => [a, b]));
            assert.deepEqual(pairs.filter(([a, b]) => meets(a, b)), [], `${count} nodes`);
        }
    });
});

describe('the texts', () => {
    const { en, de } = Cnum.languages;
    const pieces = text => [...new Set(text.match(/\{\w+\}|<[^>]*>|\]\(word_\w+\)/g))].sort();

    it('are the same ones in each language, with the same words in them', () => {
        assert.deepEqual(Object.keys(de.texts).sort(), Object.keys(en.texts).sort());
        for (const key of Object.keys(en.texts)) assert.deepEqual(pieces(de.texts[key]), pieces(en.texts[key]), key);
    });

    it('are all used, and no other', () => {
        const files = fs.readdirSync(path.join(WEB, 'page')).filter(it => !it.startsWith('texts_'));
        const sources = [...files.map(it => `page/${it}`), 'index.html'].map(it => fs.readFileSync(path.join(WEB, it), 'utf8')).join('\n');
        const families = ['fault_', 'log_', 'kind_', 'kinds_', 'save_', 'word_', 'rule_', 'telling_', 'screen_', 'flaw_', 'fail_', 'sheet_'];
        const isUsed = key => sources.includes(`'${key}'`) || sources.includes(`"${key}"`) || families.some(it => key.startsWith(it));
        assert.deepEqual(Object.keys(en.texts).filter(key => !isUsed(key)), []);
        const asked = [...sources.matchAll(/\b(?:say|marked|paragraph|head)\('(\w+)'|data-(?:text|label|placeholder)="(\w+)"/g)].map(it => it[1] || it[2]);
        assert.deepEqual(asked.filter(key => !(key in en.texts)), []);
        const explained = Object.values(en.texts).flatMap(text => [...text.matchAll(/\]\((\w+)\)/g)].map(it => it[1]));
        assert.deepEqual(explained.filter(key => !(key in en.texts)), []);
        assert.deepEqual(Object.keys(en.texts).filter(it => it.startsWith('word_') && !explained.includes(it)), []);
    });
});

// Each pattern of the page. None reads what the program prints for people, but that of its version. Texts of TOML, DOT
// and JSON, links, names, keys and what the reader types are no such texts.
const PATTERNS = {
    'answers.js': [/"(?:[^"\\]|\\.)*"|\d+/g], // JSON
    'dot.js': [/\s*("(?:[^"\\]|\\.)*"|->|\w+|[^\s\w"])/y], // DOT
    'dropped_file.js': [/\.toml(\.txt)?$/i], // the name of a file
    'example_search.js': [/[-_/\s]+/g], // what the reader looks for
    'flaw_texts.js': [/^[a-z0-9_]{1,32}$/], // a name
    'link.js': [/\+/g, /\//g, /=+$/, /-/g, /_/g, /^[2-8]$/, /^[xc]?[0-7]$/, /^\d{1,20}$/], // links
    'page.js': [/^(.*?), proved (by .*)\n$/, /^\w+$/, / /g], // the version; a name of a type; a number for a name of a file

    'run_keys.js': [/^(?:Digit|Numpad)([0-7])$/], // a key
    'table_edits.js': [/^[^\n]*\n?/], // TOML
    'table_text.js': [
        /[ \t\r\n]*(?:#[^\n]*[ \t\r\n]*)*/y, /[ \t]*/y, /[^\n]*\n?/y, /[A-Za-z0-9_-]+|"(?:[^"\\\n]|\\.)*"|'[^'\n]*'/y,
        /"""[^]*?(?:[^\\]"""|$)/y, /'''[^]*?(?:'''|$)/y, /"(?:[^"\\\n]|\\.)*"?/y, /'[^'\n]*'?/y, /[^\s,\]}#]+/y,
        /\]*/y, /[ \t]*(?:\.[^=\]\n]*)?/y, /^("""|'''|["'])/,
    ], // TOML
    'texts.js': [/\[([^\]]+)\]\((word_\w+)\)/g, /\{(\w+)\}/g], // the texts of the page
};

describe('the page', () => {
    const LITERAL = /(?:[=(,:[!&|?{;]|=>|return)\s*(\/(?![/*])(?:[^/\\\n[]|\\.|\[(?:[^\]\\\n]|\\.)*\])+\/[a-z]*)/g;
    const files = fs.readdirSync(path.join(WEB, 'page'));

    for (const file of files) {
        it(`has no other pattern in ${file}`, () => {
            const text = fs.readFileSync(path.join(WEB, 'page', file), 'utf8');
            assert.deepEqual([...text.matchAll(LITERAL)].map(found => found[1]), (PATTERNS[file] || []).map(String));
            assert.ok(!text.includes('RegExp'));
        });
    }

    it('has each of these files', () => assert.deepEqual(Object.keys(PATTERNS).filter(file => !files.includes(file)), []));
});
