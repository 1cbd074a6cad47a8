// The run as a space-time diagram: a line for each process, from left to right a mark for each step with what
// it did, a cross where a process stops, a bolt where it crashes, and its decision.
var Cnum = globalThis.Cnum || {};

(() => {
    'use strict';

    const { say, svgElement } = Cnum;
    const LEFT = 16;
    const TALL = { apart: 78, top: 44, bottom: 44 }; // between two lines, above and below them
    const SHORT = { apart: 54, top: 32, bottom: 14 }; // of lines with texts above them alone
    const DOUBTS = ['doubts', 'wavers']; // what has a text or a band below
    const GAP = 18; // between the texts of two steps
    const LEAST = 62; // the width of a step
    const EMPTY = 260; // the length of a line before the first step
    const MARK = 6;
    const TEAM_MARK = 9; // of a mark with the letter of a team

    // What a step did, and where, as two short texts.
    const TEXTS = {
        writes: it => [say('st_writes', it), say('st_register', it)],
        applies: it => [say('st_applies', it), say('st_node', it)],
        looks: it => [say('st_reads', it), say('st_node', it)],
        reads: it => [say('st_reads', it), say('st_node', it)],
        sees: it => [say('st_sees', it), say('st_node', it)],
        misses: it => [say('st_misses'), say('st_register', it)],
        doubts: it => [say('st_reads', it), say('st_doubts')],
        wavers: () => [say('st_doubts'), ''],
        takes: it => [say('st_takes', it), say('st_register', it)],
        decides: it => [say('st_decides', it), ''],
        stops: () => [say('st_stops'), ''],
        crashes: it => [say('st_crashes'), forgottenText(it.forgot)],
    };

    // What a process forgets: its decision, or else its place.
    const forgottenText = ({ decision }) => (decision === undefined ? say('st_forgets_place') : say('st_forgets', { value: decision }));

    // What a step did, as one short text.
    Cnum.shortText = event => TEXTS[event.kind](event)[0];

    // Whether a process with a greater number writes right behind another one.
    const isWriteBehind = ({ kind, process }, before) => Boolean(before) && kind === 'writes' && before.kind === 'writes' && process > before.process;

    // The places of a run: for each event its point and texts, and for each process its line. `widthOf` gives
    // the width of a text. Where all is at one node, the texts need not say so, the lines can be nearer, and the proposals
    // that processes write one after the other stand one above the other.
    Cnum.placeRun = function (events, inputs, widthOf, { isShort = false } = {}) {
        const { apart, top, bottom } = isShort ? SHORT : TALL;
        const heads = inputs.map((input, process) => say('st_head', { process, input }));
        const begin = LEFT + Math.max(...heads.map(widthOf)) + GAP;
        let [left, right] = [begin, begin];
        const marks = events.map((event, index) => {
            const texts = isShort && event.kind !== 'doubts' ? [TEXTS[event.kind](event)[0], ''] : TEXTS[event.kind](event);
            const width = Math.max(LEAST, ...texts.map(it => widthOf(it) + GAP));
            if (!(isShort && isWriteBehind(event, events[index - 1]))) left = right;
            right = Math.max(right, left + width);
            return { event, texts, right, x: left + width / 2, y: top + apart * event.process };
        });
        const lines = heads.map((head, process) => {
            const last = marks.filter(it => it.event.process === process).pop();
            const hasEnded = last && ['decides', 'stops'].includes(last.event.kind);
            return { head, from: begin, to: hasEnded ? last.x : Math.max(right, begin + EMPTY) + GAP, y: top + apart * process };
        });
        const last = inputs.length - 1;
        const below = events.some(it => it.process === last && DOUBTS.includes(it.kind)) ? top : bottom;
        return { marks, lines, width: Math.max(right, begin + EMPTY) + 2 * GAP, height: top + apart * last + below };
    };

    // The parts of a run, each no wider than this: where each begins and ends. It ends between two steps.
    Cnum.partsOfRun = function ({ marks, lines }, width) {
        const begin = lines[0].from;
        const room = width - begin;
        const parts = [];
        let from = begin;
        marks.forEach(({ right }, index) => {
            const before = index ? marks[index - 1].right : begin;
            if (right - from <= room || before === from) return;
            parts.push({ from, to: before });
            from = before;
        });
        return [...parts, { from, to: Math.max(marks.length ? marks[marks.length - 1].right : begin, lines[0].to) + GAP }];
    };

    // A run in rows for paper, one below the other: the picture of each part, with the names of the processes before it.
    Cnum.rowsOfRun = function (picture, placed, width) {
        const begin = placed.lines[0].from;
        return Cnum.partsOfRun(placed, width).map(({ from, to }) => {
            const copy = picture.cloneNode(true);
            const left = from - begin;
            Cnum.setAll(copy, { viewBox: `${left} 0 ${to - left} ${placed.height}`, width: to - left });
            copy.removeAttribute('style');
            copy.querySelector('.heads').setAttribute('transform', `translate(${left},0)`);
            return copy;
        });
    };

    const square = (x, y, half, more) => svgElement('rect', { x: x - half, y: y - half, width: 2 * half, height: 2 * half, ...more });

    const openCircle = ({ x, y }) => svgElement('circle', { cx: x, cy: y, r: MARK, class: 'open' });
    const openSquare = ({ x, y }) => square(x, y, MARK - 1, { class: 'open' });

    // The shape of each kind of step.
    const SHAPES = {
        writes: ({ x, y }, team) => square(x, y, TEAM_MARK - 1, { class: `team-${team}` }),
        applies: ({ x, y }, team) => svgElement('circle', { cx: x, cy: y, r: TEAM_MARK, class: `team-${team}` }),
        looks: openCircle,
        reads: openCircle,
        sees: openCircle,
        misses: openSquare,
        doubts: openCircle,
        wavers: openCircle,
        takes: openSquare,
        decides: ({ x, y }) => svgElement('circle', { cx: x, cy: y, r: MARK + 2, class: 'end' }),
        stops: ({ x, y }) => svgElement('path', { d: `M${x - 7},${y - 7}l14,14m0,-14l-14,14`, class: 'cross' }),
        crashes: ({ x, y }) => svgElement('path', { d: `M${x + 3},${y - 10}l-9,11h5l-3,9l9,-12h-5z`, class: 'bolt' }),
    };

    // The kinds of steps whose marks have the letter of the team.
    const LETTERED = ['writes', 'applies'];

    function mark(it, teamOf) {
        const { event, texts, x, y } = it;
        const team = teamOf(event);
        const middle = { x, 'text-anchor': 'middle' };
        const above = svgElement('text', { ...middle, y: y - 14, class: event.kind }, texts[0]);
        const below = svgElement('text', { ...middle, y: y + 24, class: 'where' }, texts[1]);
        const letter = svgElement('text', { ...middle, y: y + 4, class: 'badge' }, team);
        const more = [...(texts[1] ? [below] : []), ...(LETTERED.includes(event.kind) ? [letter] : [])];
        return svgElement('g', { class: 'mark-of-step' }, SHAPES[event.kind](it, team), above, ...more);
    }

    const line = ({ from, to, y }) => svgElement('path', { class: 'world-line', d: `M${from},${y}H${to}` });

    // What lies behind the line of a process that stands out.
    const band = ({ y }, width) => svgElement('rect', { class: 'band', x: 0, y: y - 30, width, height: 60 });

    // The names of the processes, over what is behind them: they stay in view if the diagram scrolls.
    function heads(lines, height) {
        const ground = svgElement('rect', { x: -LEFT, y: 0, width: LEFT + lines[0].from - GAP / 2, height });
        return svgElement('g', { class: 'heads' }, ground, ...lines.map(({ head, y }) => svgElement('text', { x: LEFT, y: y + 4 }, head)));
    }

    // Holds the names at the left edge of what scrolls.
    Cnum.holdHeads = function (place) {
        const names = place.querySelector('.heads');
        if (names) names.setAttribute('transform', `translate(${place.scrollLeft},0)`);
    };

    // The diagram as an element. A process has the team of its place at the node of the event. The one that cannot tell stands
    // out, if there is one.
    Cnum.spaceTime = function (events, inputs, plan, { doubting = null, isShort = false } = {}) {
        const { marks, lines, width, height } = Cnum.placeRun(events, inputs, Cnum.widthOf, { isShort });
        const teamOf = ({ process, node }) => (plan.paths[process].find(it => it.node === node) || {}).team;
        const size = { viewBox: `0 0 ${Math.ceil(width)} ${height}`, width: Math.ceil(width), height };
        const about = say('st_about', { processes: inputs.length, steps: events.length });
        const bands = doubting === null ? [] : [band(lines[doubting], width)];
        const parts = [...bands, ...lines.map(line), ...marks.map(it => mark(it, teamOf)), heads(lines, height)];
        return svgElement('svg', { class: 'space-time', role: 'img', 'aria-label': about, ...size }, ...parts);
    };
})();
