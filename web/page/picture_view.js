// The picture of the states with its controls: larger and smaller, the whole screen, and which operations it
// shows. Its letters are never too small to read: a picture that is too wide scrolls.
var Cnum = globalThis.Cnum || {};

(() => {
    'use strict';

    const { button, element, say } = Cnum;
    const LEAST = 11 / 13; // letters of 13 points are then 11 points high
    const MOST = 4;
    const STEP = 1.25;
    const OF_SCREEN = 0.74; // how much of the height a picture alone takes

    // Scrolls a place so that a part of its picture is in the middle.
    Cnum.reveal = function (place, selector) {
        const part = place.querySelector(selector);
        if (!part) return;
        const [box, whole] = [part.getBoundingClientRect(), place.getBoundingClientRect()];
        const across = box.left + box.width / 2 - whole.left - place.clientWidth / 2;
        const down = box.top + box.height / 2 - whole.top - place.clientHeight / 2;
        place.scrollTo(place.scrollLeft + across, place.scrollTop + down);
    };

    class PictureView {
        // Shows pictures in this place, with its controls in `tools` and the choice of operations in
        // `choice`. `part` is what fills the screen. `afterDrawing` is called with each picture.
        constructor({ place, tools, choice, part }, afterDrawing) {
            Object.assign(this, { place, choice, part, afterDrawing, hidden: new Set(), zoom: null, graph: null });
            const whole = button(say('full_screen'), () => this.fillScreen());
            whole.hidden = !document.fullscreenEnabled;
            const tool = (text, key, act) => button(text, act, { 'aria-label': say(key), title: say(key) });
            tools.append(
                tool('−', 'smaller', () => this.scaleTo(this.scale / STEP)),
                tool('+', 'larger', () => this.scaleTo(this.scale * STEP)),
                button(say('fit'), () => this.scaleTo(null)),
                whole,
            );
            new ResizeObserver(() => this.fit()).observe(place);
            this.listenToDrags();
        }

        picture() {
            return this.place.firstElementChild;
        }

        show(graph, plan) {
            Object.assign(this, { graph, plan, zoom: null });
            this.offerOperations();
            this.draw();
            Cnum.reveal(this.place, plan ? '.start' : '.node');
        }

        draw() {
            this.place.replaceChildren(Cnum.pictureOf(Cnum.graphWith(this.graph, it => !this.hidden.has(it)), this.plan));
            this.fit();
            this.afterDrawing();
        }

        clear() {
            this.place.replaceChildren();
            this.choice.replaceChildren();
        }

        // The operations to choose from, if there are several.
        offerOperations() {
            const names = Cnum.operationsOf(this.graph);
            this.hidden = new Set(names.filter(it => this.hidden.has(it)));
            const boxes = names.map(name => {
                const box = element('input', { type: 'checkbox' });
                box.checked = !this.hidden.has(name);
                box.addEventListener('change', () => {
                    if (box.checked) this.hidden.delete(name);
                    else this.hidden.add(name);
                    this.draw();
                });
                return element('label', {}, box, ` ${name}`);
            });
            const summary = element('summary', {}, say('operations_shown'));
            this.choice.replaceChildren(...(names.length > 1 ? [element('details', {}, summary, ...boxes)] : []));
        }

        // The scale at which the picture fits, with letters that can be read.
        fitting() {
            const [width, height] = ['width', 'height'].map(it => Number(this.picture().getAttribute(it)));
            const isAlone = this.part.classList.contains('shown') || document.fullscreenElement === this.part;
            const most = isAlone ? Math.min(MOST, (OF_SCREEN * innerHeight) / height) : 1;
            return Math.max(LEAST, Math.min(most, this.place.clientWidth / width));
        }

        fit() {
            const picture = this.picture();
            if (!picture) return;
            this.scale = this.zoom || this.fitting();
            picture.style.width = `${Math.ceil(this.scale * Number(picture.getAttribute('width')))}px`;
        }

        // Another scale, or the one that fits if there is none.
        scaleTo(zoom) {
            this.zoom = zoom && Math.min(MOST, Math.max(LEAST / 2, zoom));
            this.fit();
            Cnum.reveal(this.place, '.lit, .start, .node');
        }

        async fillScreen() {
            if (document.fullscreenElement) await document.exitFullscreen();
            else await this.part.requestFullscreen();
            this.scaleTo(null);
        }

        // A mouse draws the picture along.
        listenToDrags() {
            const { place } = this;
            let from = null;
            place.addEventListener('pointerdown', event => {
                if (event.pointerType === 'mouse') from = [event.clientX + place.scrollLeft, event.clientY + place.scrollTop];
            });
            window.addEventListener('pointermove', event => {
                if (from) place.scrollTo(from[0] - event.clientX, from[1] - event.clientY);
            });
            window.addEventListener('pointerup', () => (from = null));
        }
    }

    Cnum.PictureView = PictureView;
})();
