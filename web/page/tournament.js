// The tournament as a picture: at the bottom the processes, above them the nodes where they meet, at the top
// the root. On each way up stands who goes it, and what it does at the node above.
var Cnum = globalThis.Cnum || {};

(() => {
    'use strict';

    const { say, svgElement } = Cnum;
    const SLOPE = 40; // the height of the ways below a node, before they go down to their lower ends
    const ABOVE = 6; // between a text and the box below it
    const GAP = 22;
    const APART = 16; // between two ways
    const LINE = 17;
    const MARGIN = 20;
    const BOX = 28;
    const WIDEST = 1180; // of a picture: it fits into the page of a window of 1280 points

    // The node with its children: first the nodes below it, each with the team and the places of those who
    // come up from there, then the processes that begin at it.
    function treeOf(plan, node) {
        const comers = plan.paths.map((path, process) => ({ path, process, at: path.findIndex(it => it.node === node) })).filter(it => it.at >= 0);
        const ways = new Map();
        for (const { path, process, at } of comers) {
            const { team, operation } = path[at];
            const below = at > 0 ? `node ${path[at - 1].node}` : `process ${process}`;
            const way = ways.get(below) || { team, lines: [] };
            way.lines.push({ process, who: `${team} ${process}: `, operation });
            way.child = at > 0 ? way.child || treeOf(plan, path[at - 1].node) : { process, ways: [] };
            ways.set(below, way);
        }
        return { node, ways: [...ways.values()] };
    }

    const nameOf = ({ node, process }) => (node === undefined ? say('t_process', { process }) : say('t_node', { node }));
    const leavesOf = tree => tree.ways.reduce((sum, it) => sum + leavesOf(it.child), 0) || 1;
    const mostOf = numbers => Math.max(0, ...numbers);

    // A name in parts of at most so many letters. A part ends with an underscore, if it can.
    function partsOf(name, most) {
        if (name.length <= most) return [name];
        const end = name.lastIndexOf('_', most - 1) + 1 || most;
        return [name.slice(0, end), ...partsOf(name.slice(end), most)];
    }

    // What stands on a way, a list of rows for each process: one row, if it has no more than so many letters.
    function rowsOf({ lines, child }, letters) {
        const most = letters * leavesOf(child);
        return lines.map(({ who, operation }) => (who.length + operation.length <= most ? [who + operation] : [who, ...partsOf(operation, most)]));
    }

    // Gives each way its rows, and each part its width.
    function measure(tree, letters, widthOf) {
        for (const way of tree.ways) {
            measure(way.child, letters, widthOf);
            way.rows = rowsOf(way, letters);
            const own = mostOf([...way.rows.flat().map(widthOf), widthOf(nameOf(way.child)) + GAP]) + APART;
            way.width = Math.max(own, way.child.width);
        }
        tree.width = tree.ways.reduce((sum, it) => sum + it.width, 0);
    }

    // Gives each part its width. Texts that would make the picture too wide stand in several rows.
    function measureToFit(tree, widthOf) {
        measure(tree, Infinity, widthOf);
        const room = WIDEST - 2 * MARGIN;
        if (tree.width > room) measure(tree, Math.floor((room / leavesOf(tree) - APART) / widthOf('m')), widthOf);
    }

    // Gives each part its point, from this left edge on.
    function place(tree, left, floor) {
        Object.assign(tree, { x: left + tree.width / 2, floor });
        let at = left;
        for (const { child, width } of tree.ways) {
            place(child, at + (width - child.width) / 2, floor + 1);
            at += width;
        }
    }

    // How many rows the ways that begin at each floor have at most, from the root down.
    function rowsOfFloors(tree) {
        const below = tree.ways.map(it => rowsOfFloors(it.child));
        const own = mostOf(tree.ways.map(it => it.rows.flat().length));
        const deeper = Array.from({ length: mostOf(below.map(it => it.length)) }, (_, floor) => mostOf(below.map(it => it[floor] || 0)));
        return tree.ways.length ? [own, ...deeper] : [];
    }

    // The middle of each floor, and where the ways that begin there leave it.
    function heightsOf(tree) {
        const heights = [{ y: MARGIN + BOX / 2 }];
        for (const rows of rowsOfFloors(tree)) {
            const turn = heights[heights.length - 1].y + BOX / 2 + SLOPE;
            heights.push({ turn, y: turn + LINE * rows + ABOVE + BOX / 2 });
        }
        return heights;
    }

    function box(tree, heights, widthOf) {
        const width = widthOf(nameOf(tree)) + GAP;
        const { y } = heights[tree.floor];
        const rx = tree.node === undefined ? 3 : BOX / 2;
        const frame = svgElement('rect', { x: tree.x - width / 2, y: y - BOX / 2, width, height: BOX, rx });
        return svgElement('g', { class: 'node' }, frame, svgElement('text', { x: tree.x, y: y + 4, 'text-anchor': 'middle' }, nameOf(tree)));
    }

    // A text in rows, of which the first one has this height.
    function textOf(rows, x, y, more) {
        const [only] = rows;
        const parts = rows.length === 1 ? [only] : rows.map((row, index) => svgElement('tspan', { x, y: y + LINE * index }, row));
        return svgElement('text', { x, y, 'text-anchor': 'middle', ...more }, ...parts);
    }

    // The way from a child up, with its team and who goes it. The texts stand at its lower end, on the box of the child.
    function way(tree, { child, team, lines, rows }, heights) {
        const { turn, y } = heights[child.floor];
        let top = y - BOX / 2 - ABOVE - LINE * rows.flat().length;
        const path = svgElement('path', { class: `way way-${team}`, d: `M${child.x},${top}V${turn}L${tree.x},${heights[tree.floor].y + BOX / 2}` });
        const labels = lines.map(({ process }, index) => {
            const whose = { class: `way-${team}`, 'data-process': process, 'data-node': tree.node };
            const label = textOf(rows[index], child.x, top + LINE, whose);
            top += LINE * rows[index].length;
            return label;
        });
        return svgElement('g', { class: 'label' }, path, ...labels);
    }

    function parts(tree, heights, widthOf) {
        const ways = tree.ways.flatMap(it => [way(tree, it, heights), ...parts(it.child, heights, widthOf)]);
        return [...ways, box(tree, heights, widthOf)];
    }

    // Lights up in a tournament at which node a process is, and marks the node that it forgot when it last crashed, which is
    // null if there is none.
    Cnum.showPlace = function (picture, process, node, forgotten) {
        for (const it of picture.querySelectorAll(`[data-process="${process}"]`)) {
            const isAt = place => it.dataset.node === String(place);
            it.classList.toggle('lit', isAt(node));
            it.classList.toggle('forgotten', isAt(forgotten) && !isAt(node));
        }
    };

    // The tree of a plan with the point of each part, and its size. `widthOf` gives the width of a text.
    Cnum.placeTournament = function (plan, widthOf) {
        const tree = treeOf(plan, 0);
        measureToFit(tree, widthOf);
        place(tree, MARGIN, 0);
        const heights = heightsOf(tree);
        return { tree, heights, width: Math.ceil(tree.width + 2 * MARGIN), height: heights[heights.length - 1].y + BOX / 2 + MARGIN };
    };

    // The tournament of a plan, as an element.
    Cnum.tournamentOf = function (plan) {
        const { tree, heights, width, height } = Cnum.placeTournament(plan, Cnum.widthOf);
        const about = say('t_about', { processes: plan.processes, nodes: plan.nodes.length });
        const size = { viewBox: `0 0 ${width} ${height}`, width, height };
        return svgElement('svg', { class: 'tournament', role: 'img', 'aria-label': about, ...size }, ...parts(tree, heights, Cnum.widthOf));
    };
})();
