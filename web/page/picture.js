// The picture of the states of a type, as SVG: draws the graph that `draw` tells.
var Cnum = globalThis.Cnum || {};

(() => {
    'use strict';

    const { say, svgElement } = Cnum;
    const SIZE = 13;
    const LINE = 17;
    const FONT = `${SIZE}px ui-monospace, "DejaVu Sans Mono", Menlo, Consolas, monospace`;
    const TIP = 'M1,0L-10,-4.2L-10,4.2z';
    const BADGE = 17; // the width that the letter of a team takes before a line of a label

    let measuring = null;

    // The width of a text in a picture.
    function widthOf(text) {
        measuring = measuring || document.createElement('canvas').getContext('2d');
        measuring.font = FONT;
        return measuring.measureText(text).width;
    }

    // The teams that do the operation of a line, by the roles of the witness.
    function teamsOf({ operation }, roles) {
        return Cnum.plans.NAMES.filter(team => roles.some(it => it.team === team && it.operation === operation));
    }

    function badge(team, x, y) {
        const mark = svgElement('rect', { class: `team-${team}`, x, y: y - 11, width: BADGE - 3, height: 14, rx: team === 'A' ? 7 : 2 });
        return [mark, svgElement('text', { class: 'badge', x: x + (BADGE - 3) / 2, y, 'text-anchor': 'middle' }, team)];
    }

    function label({ label: box, lines, ends }, roles) {
        const parts = lines.flatMap((line, index) => {
            const y = box.top + LINE * index + SIZE;
            const teams = teamsOf(line, roles);
            const badges = teams.flatMap((team, place) => badge(team, box.left + BADGE * place, y));
            const text = svgElement('text', { x: box.left + BADGE * teams.length, y, 'data-operation': line.operation, ...ends }, line.text);
            return [...badges, text];
        });
        const frame = svgElement('rect', { x: box.left, y: box.top, width: box.right - box.left, height: box.bottom - box.top });
        return svgElement('g', { class: 'label' }, frame, ...parts);
    }

    function node(it, name, isStart) {
        const { x, y, width, height } = it;
        const frame = svgElement('rect', { x: x - width / 2, y: y - height / 2, width, height, rx: height / 2 });
        const text = svgElement('text', { x, y: y + 4, 'text-anchor': 'middle' }, name);
        return svgElement('g', { class: isStart ? 'node start' : 'node', 'data-state': it.name }, frame, text);
    }

    const point = ([x, y]) => `${x.toFixed(1)},${y.toFixed(1)}`;

    // An arrow, with its tip as a shape of its own: so it keeps its form in every scheme of colours.
    function arrow({ curve: [first, ...rest], ends }) {
        const d = `M${point(first)} ${rest.length === 2 ? 'Q' : 'C'}${rest.map(point).join(' ')}`;
        const [end, before] = [rest[rest.length - 1], rest[rest.length - 2]];
        const turn = (Math.atan2(end[1] - before[1], end[0] - before[0]) * 180) / Math.PI;
        const tip = svgElement('path', { class: 'tip', d: TIP, transform: `translate(${point(end)}) rotate(${turn.toFixed(1)})` });
        return svgElement('g', { class: 'way-of-operation', ...ends }, svgElement('path', { class: 'arrow', d }), tip);
    }

    // The picture of a graph, as an element. The plan of a witness, as `show --as json` writes it, adds the start
    // state and the operations of the teams, if there is one.
    Cnum.pictureOf = function ({ names, arrows }, plan) {
        const roles = plan ? plan.roles : [];
        const start = plan ? names.indexOf(plan.start) : -1;
        const sized = arrows.map(it => ({
            ...it,
            ends: { 'data-from': names[it.from], 'data-to': names[it.to] },
            width: Math.max(...it.lines.map(line => widthOf(line.text) + BADGE * teamsOf(line, roles).length)),
            height: LINE * it.lines.length,
        }));
        const shown = names.map((name, index) => (index === start ? `▶ ${name}` : name));
        const nodes = shown.map((it, index) => ({ name: names[index], width: widthOf(it) + 26, height: 32 }));
        const laid = Cnum.layOut({ nodes, arrows: sized, start: Math.max(start, 0) });
        const { left, top, right, bottom } = laid.bounds;
        const [width, height] = [right - left, bottom - top].map(Math.ceil);
        const about = plan ? say('picture_about_start', plan) : say('picture_about');
        const viewBox = `${left.toFixed(1)} ${top.toFixed(1)} ${width} ${height}`;
        return svgElement(
            'svg',
            { class: 'states', viewBox, width, height, role: 'img', 'aria-label': about },
            ...laid.arrows.map(arrow),
            ...laid.nodes.map((it, index) => node(it, shown[index], index === start)),
            ...laid.arrows.map(it => label(it, roles)),
        );
    };

    // Lights up the state in which an object is in a picture of the states, and the arrow of the operation that
    // led there, if there is one.
    Cnum.lightUp = function (picture, state, operation) {
        const isOfOperation = ({ dataset }) => dataset.from === operation.before && dataset.to === operation.after;
        for (const it of picture.querySelectorAll('.node')) it.classList.toggle('lit', it.dataset.state === state);
        for (const it of picture.querySelectorAll('.way-of-operation')) it.classList.toggle('lit', Boolean(operation) && isOfOperation(it));
        for (const it of picture.querySelectorAll('.label text')) {
            it.classList.toggle('lit', Boolean(operation) && isOfOperation(it) && it.dataset.operation === operation.operation);
        }
    };

    Object.assign(Cnum, { FONT, widthOf });
})();
