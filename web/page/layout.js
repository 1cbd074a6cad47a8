// Lays out a picture of nodes and arrows, so that no label lies on another label or on a node.
//
// A picture is { nodes, arrows, start }. Each node has a width and a height, each arrow the numbers of its
// two nodes and the width and height of its label, and start is the number of the first node. The layout
// tries each way of web/page/points.js, widens it until all labels find a place, and takes the best one.
var Cnum = globalThis.Cnum || {};

(() => {
    'use strict';

    const GAP = 6; // between a label and what is near
    const MARGIN = 14; // around the whole
    const FOR_LAYERS = 20; // the worth of a picture that reads downwards, in layers
    const LOOP = { half: 11, reach: 34 }; // of an arrow from a node to itself
    const WIDER = 1.22;
    const MOST_TRIES = 24;
    const MOST_SHEETS = 3; // how many widths with room for all labels are compared
    const SAMPLES = 20;
    const BOWS = [0, 0.14, -0.14, 0.26, -0.26, 0.42, -0.42, 0.65, -0.65];
    const BOWS_OF_PAIR = [0.13, 0.24, 0.38, 0.6, 0.85];
    const ALONG = [0.5, 0.43, 0.57, 0.36, 0.64, 0.29, 0.71, 0.22, 0.78];

    const mixed = (a, b, share) => [a[0] + (b[0] - a[0]) * share, a[1] + (b[1] - a[1]) * share];
    const boxAt = ([x, y], width, height) => ({ left: x - width / 2, right: x + width / 2, top: y - height / 2, bottom: y + height / 2 });
    const meets = (a, b, gap) => a.left < b.right + gap && b.left < a.right + gap && a.top < b.bottom + gap && b.top < a.bottom + gap;
    const holds = (box, [x, y], gap) => x > box.left - gap && x < box.right + gap && y > box.top - gap && y < box.bottom + gap;

    // A Bezier curve by its three or four points: the point and the direction at a share of it, and a part of
    // a curve of three points.
    function pointOn(curve, share) {
        const rest = 1 - share;
        const weights = curve.length === 3
            ? [rest * rest, 2 * rest * share, share * share]
            : [rest ** 3, 3 * rest * rest * share, 3 * rest * share * share, share ** 3];
        let [x, y] = [0, 0];
        for (let index = 0; index < curve.length; index++) {
            x += weights[index] * curve[index][0];
            y += weights[index] * curve[index][1];
        }
        return [x, y];
    }

    function directionOn(curve, share) {
        const [a, b] = [pointOn(curve, Math.max(0, share - 0.01)), pointOn(curve, Math.min(1, share + 0.01))];
        const length = Math.hypot(b[0] - a[0], b[1] - a[1]) || 1;
        return [(b[0] - a[0]) / length, (b[1] - a[1]) / length];
    }

    function partOf([a, b, c], from, to) {
        const at = (s, t) => mixed(mixed(a, b, s), mixed(b, c, s), t);
        return [at(from, from), at(from, to), at(to, to)];
    }

    // The least box that holds these points.
    function boxAround(points) {
        const box = { left: Infinity, right: -Infinity, top: Infinity, bottom: -Infinity };
        for (const [x, y] of points) {
            box.left = Math.min(box.left, x);
            box.right = Math.max(box.right, x);
            box.top = Math.min(box.top, y);
            box.bottom = Math.max(box.bottom, y);
        }
        return box;
    }

    const samplesOf = curve => Array.from({ length: SAMPLES + 1 }, (_, index) => pointOn(curve, index / SAMPLES));

    // Whether a point lies in a node. Nodes have round ends.
    function isIn(node, [x, y]) {
        const radius = node.height / 2;
        const straight = Math.max(0, node.width / 2 - radius);
        return Math.hypot(Math.max(0, Math.abs(x - node.x) - straight), y - node.y) < radius;
    }

    // The share of a curve at which it leaves a node or reaches one.
    function edgeShare(curve, node, inside, outside) {
        for (let turn = 0; turn < 12; turn++) {
            const middle = (inside + outside) / 2;
            if (isIn(node, pointOn(curve, middle))) inside = middle;
            else outside = middle;
        }
        return outside;
    }

    class Sheet {
        // The nodes at their points, this far apart.
        constructor(picture, points, scale) {
            this.nodes = picture.nodes.map((it, index) => ({ ...it, x: points[index][0] * scale * 1.2, y: points[index][1] * scale }));
            this.boxes = this.nodes.map(it => boxAt([it.x, it.y], it.width, it.height));
            this.arrows = picture.arrows;
            this.labels = []; // the box of each
            this.bows = 0;
            this.covers = 0;
        }

        hasRoom() {
            return this.boxes.every((box, index) => this.boxes.slice(index + 1).every(it => !meets(box, it, 24)));
        }

        // Draws all arrows, and answers whether each label has a place.
        draw() {
            this.curves = this.arrows.map(it => (it.from === it.to ? null : this.curve(it)));
            this.samples = this.curves.map(it => it && samplesOf(it));
            this.extents = this.samples.map(it => it && boxAround(it));
            const straight = this.arrows.map((_, index) => index).filter(it => this.curves[it]);
            const free = it => this.length(this.samples[it]) - this.arrows[it].width;
            straight.sort((a, b) => free(a) - free(b));
            const loops = this.arrows.map((_, index) => index).filter(it => !this.curves[it]);
            return straight.every(it => this.placeLabel(it)) && loops.every(it => this.placeLoop(it));
        }

        length(points) {
            return points.slice(1).reduce((sum, it, index) => sum + Math.hypot(it[0] - points[index][0], it[1] - points[index][1]), 0);
        }

        // An arrow between two nodes: straight, or bowed if another arrow comes back or a node is in the way.
        curve(arrow) {
            const [from, to] = [this.nodes[arrow.from], this.nodes[arrow.to]];
            const comesBack = this.arrows.some(it => it.from === arrow.to && it.to === arrow.from);
            const others = this.boxes.filter((_, index) => index !== arrow.from && index !== arrow.to);
            let best = null;
            for (const bow of comesBack ? BOWS_OF_PAIR : BOWS) {
                const [dx, dy] = [to.x - from.x, to.y - from.y];
                const middle = [(from.x + to.x) / 2 - dy * bow * 2, (from.y + to.y) / 2 + dx * bow * 2];
                const whole = [[from.x, from.y], middle, [to.x, to.y]];
                const curve = partOf(whole, edgeShare(whole, from, 0, 0.5), edgeShare(whole, to, 1, 0.5));
                const points = samplesOf(curve);
                const hits = others.reduce((sum, box) => sum + points.filter(it => holds(box, it, 5)).length, 0);
                if (!best || hits < best.hits) best = { curve, hits, bow };
                if (!hits) break;
            }
            this.bows += Math.abs(best.bow) + 5 * best.hits;
            return best.curve;
        }

        isFree(box) {
            return !this.boxes.some(it => meets(box, it, GAP)) && !this.labels.some(it => it && meets(box, it, GAP));
        }

        // How many points of arrows lie under a box.
        covered(box, but) {
            let count = 0;
            this.samples.forEach((points, index) => {
                if (points && index !== but && meets(box, this.extents[index], 2)) count += points.filter(it => holds(box, it, 2)).length;
            });
            return count;
        }

        placeLabel(index) {
            const { width, height } = this.arrows[index];
            const curve = this.curves[index];
            let best = null;
            for (const share of ALONG) {
                const [x, y] = pointOn(curve, share);
                const [dx, dy] = directionOn(curve, share);
                const away = Math.abs(dy) * (width / 2) + Math.abs(dx) * (height / 2) + 3;
                for (const side of [-1, 1]) {
                    const box = boxAt([x - dy * away * side, y + dx * away * side], width, height);
                    if (!this.isFree(box)) continue;
                    const cost = 4 * this.covered(box, -1) + Math.abs(share - 0.5) * 10 + (side > 0 ? 0.5 : 0);
                    if (!best || cost < best.cost) best = { box, cost };
                }
            }
            if (!best) return false;
            this.labels[index] = best.box;
            this.covers += best.cost;
            return true;
        }

        // An arrow from a node to itself, at the side of the node where it disturbs least.
        placeLoop(index) {
            const { from, width, height } = this.arrows[index];
            const node = this.nodes[from];
            let best = null;
            for (const [dx, dy] of [[0, -1], [0, 1], [1, 0], [-1, 0]]) {
                const [out, along] = [dx ? node.width / 2 : node.height / 2, LOOP.half];
                const at = (far, side) => [node.x + dx * (out + far) - dy * side, node.y + dy * (out + far) + dx * side];
                const curve = [at(-1, -along), at(LOOP.reach, -2 * along), at(LOOP.reach, 2 * along), at(-1, along)];
                const far = LOOP.reach * 0.75 + 3;
                const box = boxAt([node.x + dx * (out + far + width / 2), node.y + dy * (out + far + height / 2)], width, height);
                const points = samplesOf(curve);
                const whole = boxAt(at(LOOP.reach / 2, 0), dx ? LOOP.reach : 3 * along, dx ? 3 * along : LOOP.reach);
                const others = [...this.boxes.filter((_, other) => other !== from), ...this.labels.filter(Boolean)];
                if (!this.isFree(box) || others.some(it => meets(whole, it, 0))) continue;
                const cost = this.covered(box, index) + 2 * this.covered(whole, index) + (dx ? 0.5 : 0);
                if (!best || cost < best.cost) best = { curve, points, box, cost };
            }
            if (!best) return false;
            [this.curves[index], this.samples[index], this.labels[index]] = [best.curve, best.points, best.box];
            this.extents[index] = boxAround(best.points);
            this.covers += best.cost;
            return true;
        }

        crossings() {
            const lines = this.samples.map(points => points.filter((_, index) => index % 4 === 0));
            let count = 0;
            for (let i = 0; i < lines.length; i++) {
                for (let j = 0; j < i; j++) {
                    if (meets(this.extents[i], this.extents[j], 0)) count += crossingsOf(lines[i], lines[j]);
                }
            }
            return count;
        }

        bounds() {
            const boxes = [...this.boxes, ...this.labels, ...this.extents];
            const { left, right, top, bottom } = boxAround(boxes.flatMap(it => [[it.left, it.top], [it.right, it.bottom]]));
            return { left: left - MARGIN, right: right + MARGIN, top: top - MARGIN, bottom: bottom + MARGIN };
        }

        // The share of the arrows that lead down.
        down() {
            const between = this.arrows.filter(it => it.from !== it.to);
            const leading = between.filter(it => this.nodes[it.to].y > this.nodes[it.from].y + 1);
            return leading.length / Math.max(1, between.length);
        }

        // A smaller number is a better picture. It counts crossings (of many, one more hardly counts), bows,
        // labels on arrows, size, and how much longer the picture is than wide.
        cost() {
            const { left, top, right, bottom } = this.bounds();
            const [width, height] = [right - left, bottom - top];
            const slender = Math.max(width / height, height / width);
            const shape = (width * height) / 25000 + 30 * Math.max(0, slender - 1.9);
            return 8 * Math.sqrt(this.crossings()) + 4 * this.bows + this.covers / 3 + shape;
        }
    }

    function crossingsOf(a, b) {
        const turn = ([px, py], [qx, qy], [rx, ry]) => Math.sign((qx - px) * (ry - py) - (qy - py) * (rx - px));
        let count = 0;
        for (let i = 1; i < a.length; i++) {
            for (let j = 1; j < b.length; j++) {
                const [p, q, r, s] = [a[i - 1], a[i], b[j - 1], b[j]];
                if (turn(p, q, r) * turn(p, q, s) < 0 && turn(r, s, p) * turn(r, s, q) < 0) count++;
            }
        }
        return count;
    }

    // The picture with its nodes at these points, as near to each other as the labels permit, and somewhat
    // wider.
    function drawn(picture, points) {
        const sheets = [];
        for (let tries = 0, scale = 70; tries < MOST_TRIES && sheets.length < MOST_SHEETS; tries++, scale *= WIDER) {
            const sheet = new Sheet(picture, points, scale);
            if (sheet.hasRoom() && sheet.draw()) sheets.push(sheet);
        }
        return sheets;
    }

    // The nodes with their places, and for each arrow its curve and the box of its label; and the bounds.
    Cnum.layOut = function (picture) {
        const ways = Cnum.pointsOf(picture.nodes.length, picture.arrows.map(it => [it.from, it.to]), picture.start);
        const [layers, ...others] = ways.map(points => drawn(picture, points));
        const sheets = [...layers, ...others.flat()];
        const costs = sheets.map((it, index) => it.cost() - (index < layers.length ? FOR_LAYERS * it.down() : 0));
        const best = sheets[costs.indexOf(Math.min(...costs))];
        const arrows = picture.arrows.map((it, index) => ({ ...it, curve: best.curves[index], label: best.labels[index] }));
        return { nodes: best.nodes, arrows, bounds: best.bounds() };
    };
})();
