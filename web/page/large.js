// The large view of a run: pictures as large as their places, so that all fits one screen and can be read from the last row.
var Cnum = globalThis.Cnum || {};

(() => {
    'use strict';

    const LETTER = 13; // of a picture, in its own points
    const LEAST = 22 / 1080; // a letter, for the height of the window
    const MOST = 3; // the scale of a picture

    const sizeOf = picture => ['width', 'height'].map(it => Number(picture.getAttribute(it)));

    // The scale at which a picture of this size fits its place. Its letters are as large as can be read, if its height
    // permits: one that is too wide then scrolls.
    Cnum.scaleOfRun = function ([width, height], [across, down], window) {
        const least = Math.min((LEAST * window) / LETTER, down / height);
        return Math.min(MOST, down / height, Math.max(least, across / width));
    };

    // The same for a picture that must not scroll.
    Cnum.scaleToFit = ([width, height], [across, down]) => Math.min(MOST, across / width, down / height);

    function scaled(picture, scale) {
        const [width, height] = sizeOf(picture).map(it => Math.floor(it * scale));
        Object.assign(picture.style, { width: `${width}px`, height: `${height}px` });
    }

    // Fits the pictures in these places, those of runs and others; outside the large view they have their own size.
    Cnum.fitLarge = function (runs, others) {
        const isLarge = document.body.classList.contains('large');
        const fit = (place, scaleOf) => {
            const picture = place.querySelector('svg');
            if (!picture) return;
            picture.style.width = picture.style.height = '';
            const room = [place.clientWidth, place.clientHeight];
            if (isLarge && room[0] && room[1]) scaled(picture, scaleOf(sizeOf(picture), room, innerHeight));
        };
        for (const it of runs) {
            fit(it, Cnum.scaleOfRun);
            it.scrollLeft = it.scrollWidth;
        }
        for (const it of others) fit(it, Cnum.scaleToFit);
    };
})();
