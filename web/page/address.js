// The address of the page: it shows what the address says, keeps in it what is shown, and hands it on as a link
// or as a file. What the reader changes is one more entry of the browser's history, so that its back button undoes it.
var Cnum = globalThis.Cnum || {};

(() => {
    'use strict';

    const { element, say } = Cnum;
    const BEFORE_KEEPING = 150;
    const FIRST = '#example=types/test_and_set';

    const at = id => document.getElementById(id);

    class Address {
        // `pageWith` gives the page as a file with a link in it, if it can be saved so.
        constructor(page, pageWith) {
            Object.assign(this, { page, pageWith, link: null, turn: 0, kept: Promise.resolve() });
            at('copy-link').addEventListener('click', () => this.copy());
            at('save-page').addEventListener('click', () => this.savePage());
            at('save-page').hidden = !pageWith;
            at('language').addEventListener('change', () => this.speak(at('language').value));
            for (const event of ['popstate', 'hashchange']) window.addEventListener(event, () => this.follow());
        }

        // Shows what the address says, or else what the file of the page holds.
        async follow() {
            if (location.hash === this.link) return;
            const isFirst = this.link === null;
            this.link = location.hash;
            const turn = ++this.turn;
            clearTimeout(this.keeping);
            const linked = await Cnum.linkedBy(location.hash || Cnum.savedLink());
            if (linked.fault) {
                this.refuse(linked.fault);
            } else if ((linked.lang || Cnum.FIRST_LANGUAGE) !== Cnum.language) {
                location.reload();
            } else {
                this.isFollowing = true; // what is shown now is the entry that the browser is at
                this.page.showScreen(linked);
                await this.page.showLinked(linked, isFirst);
                if (turn !== this.turn) return;
                await this.keep();
                if (turn === this.turn) this.isFollowing = false;
            }
        }

        // Says why a link cannot be shown, and shows nothing else.
        refuse(why) {
            clearTimeout(this.keeping);
            this.page.end();
            this.isFollowing = false;
            this.link = location.hash;
            const first = element('a', { href: FIRST }, say('link_first'));
            at('trouble').replaceChildren(say('link_refused', { why }), ' ', first);
            at('content').hidden = true;
        }

        // Whether the run of a link is one of so many processes. If it is not, the page refuses the link.
        fits({ inputs, acts }, processes) {
            const count = Math.max(inputs.length, ...acts.map(it => it.process + 1));
            const fits = inputs.length ? count === processes : count <= processes;
            if (!fits) this.refuse(say('link_processes', { linked: count, processes }));
            return fits;
        }

        // A browser takes so many addresses at a time, and one can step faster.
        keepSoon() {
            clearTimeout(this.keeping);
            this.keeping = setTimeout(() => this.keep(), BEFORE_KEEPING);
        }

        // What is shown now stands in the address, after what was shown before; but nothing of what was shown before another
        // address came.
        keep() {
            clearTimeout(this.keeping);
            if (at('content').hidden) return this.kept;
            const { turn } = this;
            const { at: place } = this.page.past;
            const { view, ...rest } = this.page.linkContent();
            const shown = { ...rest, lang: Cnum.language };
            this.kept = this.kept.then(async () => {
                const [link, whole] = [await Cnum.linkOf({ ...shown, view }), await Cnum.linkOf(shown)];
                if (turn !== this.turn) return;
                at('whole-link').href = whole;
                this.put(link, { text: shown.text, place });
            });
            return this.kept;
        }

        // A link that says something new is one more entry of the history; letters that are typed one after another make one. A
        // browser that takes no more entries keeps the last.
        put(link, { text, place }) {
            const isTyped = text !== this.text && place === this.place;
            const isSame = link === this.link || this.isFollowing || isTyped;
            Object.assign(this, { link, text, place });
            try {
                if (isSame) history.replaceState(null, '', link);
                else history.pushState(null, '', link);
            } catch {
                this.keepSoon();
            }
        }

        // A link to the solution of the table, for a sheet: none, if the page is a file, or if it would be too long to type.
        ofSheet() {
            const { example } = this.page.linkContent();
            if (location.protocol === 'file:' || !example) return '';
            return `${location.origin}${location.pathname}#example=${example}&view=solution`;
        }

        async copy() {
            await this.keep();
            let told = say('link_copied');
            try {
                await navigator.clipboard.writeText(location.href);
            } catch {
                told = say('link_address');
            }
            const ofFile = say(this.pageWith ? 'link_of_file' : 'link_of_folder');
            at('link-said').textContent = location.protocol === 'file:' ? `${told} ${ofFile}` : told;
        }

        async savePage() {
            await this.keep();
            this.page.offer('html', this.pageWith(this.link, this.page.nameOfType()), 'text/html');
        }

        // Shows the same in another language.
        async speak(lang) {
            Cnum.useLanguage(lang);
            if (at('content').hidden) history.replaceState(null, '', `#lang=${lang}`);
            else await this.keep();
            location.reload();
        }
    }

    Cnum.Address = Address;
})();
