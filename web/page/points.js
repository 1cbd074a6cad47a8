// Places for the states of a picture, in ways that suit different graphs. A graph is a number of nodes and a
// list of arrows [from, to]. Each way gives a point [x, y] for each node. The nearest two points are at least
// one unit apart.
var Cnum = globalThis.Cnum || {};

(() => {
    'use strict';

    const SWEEPS = 12;
    const PULLS = 300;

    const range = count => Array.from({ length: count }, (_, index) => index);
    const sum = numbers => numbers.reduce((all, one) => all + one, 0);
    const apart = (a, b) => Math.hypot(a[0] - b[0], a[1] - b[1]);

    function neighbours(count, arrows, isBothWays) {
        const found = range(count).map(() => new Set());
        for (const [from, to] of arrows) {
            if (from === to) continue;
            found[from].add(to);
            if (isBothWays) found[to].add(from);
        }
        return found.map(it => [...it].sort((a, b) => a - b));
    }

    // The number of steps from these nodes to each node, and the nodes in the order in which they are met.
    function walk(next, begin) {
        const steps = new Map(begin.map(it => [it, 0]));
        const order = [...begin];
        for (const node of order) {
            for (const it of next[node]) {
                if (steps.has(it)) continue;
                steps.set(it, steps.get(node) + 1);
                order.push(it);
            }
        }
        return { steps, order };
    }

    // All nodes, from the start on along the arrows. A node that cannot be reached begins anew.
    function wholeWalk(count, arrows, start) {
        const next = neighbours(count, arrows, false);
        const steps = new Map();
        const order = [];
        for (const node of [start, ...range(count)]) {
            if (steps.has(node)) continue;
            const left = next.map(its => its.filter(it => !steps.has(it)));
            const found = walk(left, [node]);
            found.steps.forEach((value, key) => steps.set(key, value));
            order.push(...found.order);
        }
        return { steps, order };
    }

    // The points, larger or smaller, so that the nearest two are one unit apart.
    function spread(points) {
        const pairs = points.flatMap((a, i) => points.slice(i + 1).map(b => apart(a, b)));
        const least = Math.max(Math.min(1e9, ...pairs), 1e-3);
        return pairs.length ? points.map(([x, y]) => [x / least, y / least]) : points;
    }

    // On a circle, in an order in which few chords cross.
    function onCircle(count, arrows, start) {
        const order = wholeWalk(count, arrows, start).order;
        const chords = arrows.filter(([from, to]) => from !== to);
        const crossings = () => {
            const place = [];
            order.forEach((node, index) => (place[node] = index));
            const ends = chords.map(([from, to]) => [Math.min(place[from], place[to]), Math.max(place[from], place[to])]);
            const lengths = ends.map(([a, b]) => Math.min(b - a, count - b + a));
            const crossing = ([a, b], [c, d]) => (a < c && c < b && b < d) || (c < a && a < d && d < b);
            return sum(ends.map((it, index) => ends.slice(index + 1).filter(other => crossing(it, other)).length)) + sum(lengths) / 100;
        };
        let least = crossings();
        for (let isBetter = true; isBetter; ) {
            isBetter = false;
            for (let i = 1; i < count; i++) {
                for (let j = i + 1; j < count; j++) {
                    [order[i], order[j]] = [order[j], order[i]];
                    const now = crossings();
                    if (now < least) [least, isBetter] = [now, true];
                    else [order[i], order[j]] = [order[j], order[i]];
                }
            }
        }
        const points = [];
        order.forEach((node, index) => {
            const angle = Math.PI + (2 * Math.PI * index) / count;
            points[node] = [Math.cos(angle), Math.sin(angle)];
        });
        return points;
    }

    // In layers, by the number of steps from the start. In each layer the order follows the places of the
    // neighbours.
    function inLayers(count, arrows, start) {
        const { steps, order } = wholeWalk(count, arrows, start);
        const beside = neighbours(count, arrows, true);
        const layers = [];
        for (const node of order) (layers[steps.get(node)] = layers[steps.get(node)] || []).push(node);
        const across = [];
        const settle = layer => layer.forEach((node, index) => (across[node] = index - (layer.length - 1) / 2));
        layers.forEach(settle);
        for (let sweep = 0; sweep < SWEEPS; sweep++) {
            for (const layer of sweep % 2 ? [...layers].reverse() : layers) {
                const middle = node => {
                    const others = beside[node].filter(it => steps.get(it) !== steps.get(node));
                    return others.length ? sum(others.map(it => across[it])) / others.length : across[node];
                };
                const middles = new Map(layer.map(it => [it, middle(it)]));
                layer.sort((a, b) => middles.get(a) - middles.get(b) || a - b);
                settle(layer);
            }
        }
        return range(count).map(node => [across[node], steps.get(node)]);
    }

    // The distance of two nodes comes near to the number of steps between them.
    function byDistance(count, arrows, start) {
        const beside = neighbours(count, arrows, true);
        const far = Math.ceil(Math.sqrt(count)) + 1;
        const wanted = range(count).map(node => {
            const { steps } = walk(beside, [node]);
            return range(count).map(it => (steps.has(it) ? steps.get(it) : far));
        });
        const points = onCircle(count, arrows, start).map(([x, y]) => [x * far, y * far]);
        for (let pull = 0; pull < PULLS; pull++) {
            for (const i of range(count)) {
                const others = range(count).filter(it => it !== i);
                const weights = others.map(j => wanted[i][j] ** -2);
                const wished = others.map(j => {
                    const share = wanted[i][j] / Math.max(apart(points[i], points[j]), 1e-6);
                    return [0, 1].map(axis => points[j][axis] + (points[i][axis] - points[j][axis]) * share);
                });
                const whole = sum(weights);
                if (whole) points[i] = [0, 1].map(axis => sum(wished.map((it, index) => it[axis] * weights[index])) / whole);
            }
        }
        return points;
    }

    const turned = points => points.map(([x, y]) => [y, x]);

    // All ways, each for this graph and its start.
    Cnum.pointsOf = function (count, arrows, start) {
        const layers = inLayers(count, arrows, start);
        return [layers, turned(layers), byDistance(count, arrows, start), onCircle(count, arrows, start)].map(spread);
    };
})();
