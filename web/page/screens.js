// The screens of the page, one at a time, and the bar that leads to each; and one part of the page alone, for a slide or a
// frame. The table stands beside each screen, and on a phone is a screen of its own.
var Cnum = globalThis.Cnum || {};

(() => {
    'use strict';

    const { button, say } = Cnum;
    const { SCREENS } = Cnum.links;
    // The parts that can be shown alone, by their names in a link.
    const VIEWS = { number: 'number-part', why: 'why-part', states: 'picture-part', run: 'protocol-part', pairs: 'compare-part', changes: 'compare-part' };
    const SHEETS = ['exercise', 'solution'];
    const LARGE = 'run'; // the view that fits one screen

    const at = id => document.getElementById(id);

    class Screens {
        // `changed` is called when the reader has chosen something.
        constructor(changed) {
            this.changed = changed;
            document.body.classList.toggle('framed', window.top !== window);
            this.buttons = SCREENS.map(name => button(say(`screen_${name}`), () => this.choose(name), { 'data-screen': name }));
            at('screens').append(...this.buttons);
            at('large').addEventListener('click', () => this.toggleLarge());
            document.addEventListener('keydown', event => this.key(event));
            this.open(SCREENS[0]);
        }

        // Shows a screen.
        open(name) {
            this.screen = name;
            document.body.dataset.screen = name;
            for (const it of this.buttons) {
                if (it.dataset.screen === name) it.setAttribute('aria-current', 'page');
                else it.removeAttribute('aria-current');
            }
            this.afterwards();
        }

        choose(name) {
            this.open(name);
            if (document.documentElement.scrollTop > at('bar').offsetTop) at('bar').scrollIntoView();
            this.changed();
        }

        // Shows this part alone, or the whole page if there is none.
        showView(view) {
            const part = SHEETS.includes(view) ? 'sheet-part' : VIEWS[view];
            this.view = view;
            at('trouble').replaceChildren();
            at('content').hidden = false;
            document.body.classList.toggle('one-part', Boolean(view));
            document.body.classList.toggle('large', view === LARGE);
            for (const it of document.querySelectorAll('.part')) it.classList.toggle('shown', it.id === part);
            at('whole').hidden = !view;
            at('large').textContent = say(view === LARGE ? 'large_off' : 'large');
            this.afterwards();
        }

        // What fits its picture into its place does so anew.
        afterwards() {
            window.dispatchEvent(new Event('resize'));
        }

        toggleLarge() {
            const isLarge = this.view === LARGE;
            this.open('run');
            this.showView(isLarge ? '' : LARGE);
            if (isLarge) at('large').focus();
            this.changed();
        }

        // The letter l leads to the large view and back, and Escape back.
        key(event) {
            if (!Cnum.isPlainKey(event)) return;
            const isEnd = event.key === 'Escape' && this.view === LARGE;
            if (event.code !== 'KeyL' && !isEnd) return;
            event.preventDefault();
            this.toggleLarge();
        }
    }

    // Whether a key is for the page: it has no other key with it, and no field takes it.
    Cnum.isPlainKey = ({ ctrlKey, altKey, metaKey, target, defaultPrevented }) =>
        !(ctrlKey || altKey || metaKey || defaultPrevented) && !target.matches?.('select, textarea, input:not([type=range], [type=checkbox], [type=radio])');

    Cnum.Screens = Screens;
})();
