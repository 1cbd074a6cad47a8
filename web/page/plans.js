// Plans of protocols in the one form that the page shows: { processes, comeBack, reads, steps, most, nodes, paths }.
// Without a crash, a process takes at most its number of `steps` before it has decided, and `most` is the greatest of these
// numbers, as the program tells both; `reads` says whether some process reads the state of an object. Each node has a start state, the names of its teams,
// its roles, each operation with its team, once, and `look`, the operation that changes nothing by which its processes look
// behind their own, if they do so. A path has the node, the team and the operation of each place of a process, from its first
// node to the root.
var Cnum = globalThis.Cnum || {};

(() => {
    'use strict';

    const NAMES = ['A', 'B', 'C', 'D', 'E', 'F', 'G', 'H'];
    const TWO_TEAMS = NAMES.slice(0, 2);
    const LONG = 64; // more steps than a process of a certificate's plan takes
    const { say } = Cnum;

    // The kinds of plans that a reader can choose.
    const SHORTEST = 'shortest';
    const CERTIFICATE = 'certificate';
    const WITHOUT_READS = 'without_reads';
    const KINDS = [SHORTEST, CERTIFICATE, WITHOUT_READS];
    // Those that are plan trees, with the options that ask for them.
    const OPTIONS = { [SHORTEST]: '--shortest', [WITHOUT_READS]: '--without-read' };

    // The name of a team. A plan tree has numbers in place of names.
    const teamName = team => (Number.isInteger(team) ? NAMES[team] : team);

    // Each operation at a node with its team, once.
    function rolesAt(node, paths) {
        const all = paths.flat().filter(it => it.node === node).map(({ operation, team }) => ({ operation, team }));
        const isSame = (a, b) => a.operation === b.operation && a.team === b.team;
        return all.filter((it, place) => all.findIndex(other => isSame(it, other)) === place);
    }

    // A plan in which two teams meet at each node, all objects start in the same state, and a process reads. `steps` are those
    // of its processes, of which the greatest is `most`.
    function chainOf({ start, nodes: count, roles }, { comeBack, steps, most, placesOf }) {
        const placeOf = ({ node, team, role }) => ({ node, team, operation: roles[role].operation });
        const paths = placesOf.map(places => places.map(placeOf));
        const nodes = Array.from({ length: count }, (_, node) => ({ start, teams: TWO_TEAMS, roles: rolesAt(node, paths) }));
        return { processes: paths.length, comeBack, reads: true, steps, most, nodes, paths };
    }

    // The plan of a certificate, of what `show --as json` tells, and of the steps of a run in which each process goes alone: it
    // takes as many in each run.
    function ofCertificate(told, { steps: run }) {
        const steps = told.paths.map((_, process) => run.filter(it => it.process === process && it.action !== 'none').length);
        return chainOf(told, { comeBack: false, steps, most: Math.max(...steps), placesOf: told.paths });
    }

    // The schedule of such a run of so many processes.
    const oneByOne = processes => Array.from({ length: processes }, (_, process) => Array(LONG).fill(process)).join(',');

    // The plan of processes that come back, of what `show --recoverable --as json` tells. Its steps are those of one life.
    function ofLives(told) {
        const { paths, steps: most } = told;
        return chainOf(told, { comeBack: true, steps: paths.map(it => it.steps), most, placesOf: paths.map(it => it.places) });
    }

    // A plan tree, of what `show --shortest --as json` or `show --without-read --as json` tells.
    function ofTree({ processes, steps: most, nodes, paths }) {
        const operationOf = (node, process) => nodes[node].processes.find(it => it.process === process).operation;
        const pathOf = ({ process, places }) =>
            places.map(({ node, team }) => ({ node, team: teamName(team), operation: operationOf(node, process) }));
        const placed = paths.map(pathOf);
        const nodeOf = ({ start, teams, look }, node) => ({
            start,
            teams: teams.map((_, team) => teamName(team)),
            roles: rolesAt(node, placed),
            ...(look !== undefined && { look }),
        });
        const reads = nodes.some(it => it.reads);
        return { processes, comeBack: false, reads, steps: paths.map(it => it.steps), most, nodes: nodes.map(nodeOf), paths: placed };
    }

    // The start and the operations of the teams of a certificate's witness, by the text of its table.
    function ofWitness([start, ...teams], text) {
        const table = new Cnum.TableText(text);
        const operations = table.operations.map(it => it.name.text);
        const rolesOfTeam = (team, place) => team.map(it => ({ operation: operations[it], team: NAMES[place] }));
        return { start: table.items('states')[start].text, roles: teams.flatMap(rolesOfTeam) };
    }

    // The words that show the plan tree of this kind, and those that run it, for so many processes or for as many as it can.
    function commandsOf(kind, processes) {
        const options = [OPTIONS[kind], ...(processes ? ['--processes', String(processes)] : [])];
        return { show: ['show', ...options, '--as', 'json', '-'], agree: ['agree', ...options, '--steps', '--as', 'json', '-'] };
    }

    // What a process does at a place: its operation, and that by which it looks.
    function taskAt({ nodes }, { node, operation }) {
        const { look } = nodes[node];
        return look === undefined ? operation : say('task_looks', { operation, look });
    }

    const looks = ({ nodes }) => nodes.some(it => it.look !== undefined);

    // Why there is no plan without reads for so many processes, by what the program says.
    function whyNone(answer) {
        const fault = Cnum.faultOf(answer.stderr);
        return Cnum.inWords(answer, fault.name === 'table_no_plan_tree' ? { name: 'no_plan_without_reads' } : fault);
    }

    // Of what a plan is the shortest, if it is, as the key of a text.
    const leastOf = kind => ({ [SHORTEST]: 'plan_least', [WITHOUT_READS]: 'plan_least_unread' })[kind];

    const kinds = { SHORTEST, CERTIFICATE, WITHOUT_READS, KINDS };
    Cnum.plans = { NAMES, kinds, teamName, ofCertificate, oneByOne, ofLives, ofTree, ofWitness, commandsOf, taskAt, looks, whyNone, leastOf };
})();
