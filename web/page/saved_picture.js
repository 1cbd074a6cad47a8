// Pictures as files of their own: SVG with its own look, in light colours, and PNG made of it.
var Cnum = globalThis.Cnum || {};

(() => {
    'use strict';

    const LARGER = 2; // points of a PNG for one of the SVG
    const MOST = 8192; // points of a PNG across or down
    const TEAMS = ['#0060a8', '#b34700', '#00403b', '#8100f2', '#8c0070', '#4c3d00', '#8c5b68', '#171799'];
    const INK = '#1a1a1a';
    const filled = fill => ({ fill });
    const stroked = (stroke, width) => ({ fill: 'none', stroke, 'stroke-width': width });
    // The look of a picture when it is saved, in light colours, as attributes: a plain renderer knows no style sheet. Of two
    // looks of one part the later one holds. On the page, the style sheet has other colours for the dark.
    const LOOKS = [
        ['text', { ...filled(INK), 'font-family': 'DejaVu Sans Mono, Menlo, Consolas, monospace', 'font-size': 13 }],
        ['.node rect', { fill: '#fff', stroke: '#444', 'stroke-width': 1.3 }],
        ['.start rect', { 'stroke-width': 3 }],
        ['.arrow', stroked('#666', 1.3)],
        ['.tip', filled('#666')],
        ['.label rect', filled('none')],
        ['text.badge', { ...filled('#fff'), 'font-weight': 'bold', 'font-size': 11 }],
        ['.world-line', stroked('#444', 1.5)],
        ['.cross', stroked('#a3131a', 2.5)],
        ['.bolt', filled('#a3131a')],
        ['.heads rect', filled('#fff')],
        ['.open', { fill: '#fff', stroke: '#444', 'stroke-width': 1.5 }],
        ['.end', { fill: '#fff', stroke: '#6a3fb5', 'stroke-width': 3 }],
        ['.decides', { 'font-weight': 'bold' }],
        ['.where', filled('#555')],
        ...TEAMS.flatMap((color, place) => {
            const name = Cnum.plans.NAMES[place];
            return [[`.team-${name}`, filled(color)], [`path.way-${name}`, stroked(color, 1.5)], [`text.way-${name}`, filled(color)]];
        }),
    ];

    // White behind the letters of a label, where lines may cross them.
    function putHalo(text) {
        const halo = text.cloneNode(true);
        Cnum.setAll(halo, { fill: '#fff', stroke: '#fff', 'stroke-width': 4, 'stroke-linejoin': 'round', 'aria-hidden': 'true' });
        text.before(halo);
    }

    // The text of an SVG file. What a run lights up is left out.
    Cnum.svgText = function (picture) {
        const copy = picture.cloneNode(true);
        for (const it of copy.querySelectorAll('.lit')) it.classList.remove('lit');
        for (const it of copy.querySelectorAll('.heads')) it.removeAttribute('transform');
        for (const [selector, look] of LOOKS) for (const it of copy.querySelectorAll(selector)) Cnum.setAll(it, look);
        for (const it of copy.querySelectorAll('.label text:not(.badge)')) putHalo(it);
        copy.removeAttribute('style');
        copy.setAttribute('xmlns', 'http://www.w3.org/2000/svg');
        return `${copy.outerHTML}\n`;
    };

    function loaded(address) {
        return new Promise((settle, fail) => {
            const image = new Image();
            image.onload = () => settle(image);
            image.onerror = fail;
            image.src = address;
        });
    }

    // The same as a PNG.
    Cnum.pngOf = async function (picture) {
        const [width, height] = ['width', 'height'].map(it => Number(picture.getAttribute(it)));
        const scale = Math.min(LARGER, MOST / width, MOST / height);
        const image = await loaded(`data:image/svg+xml;charset=utf-8,${encodeURIComponent(Cnum.svgText(picture))}`);
        const canvas = Cnum.element('canvas', { width: Math.round(width * scale), height: Math.round(height * scale) });
        const pen = canvas.getContext('2d');
        pen.fillStyle = '#fff';
        pen.fillRect(0, 0, canvas.width, canvas.height);
        pen.drawImage(image, 0, 0, canvas.width, canvas.height);
        return new Promise(settle => canvas.toBlob(settle, 'image/png'));
    };
})();
