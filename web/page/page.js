// The page: hands what a person types or chooses to the program, and the answers of the program to the parts
// that show them. Every number and reason comes from a command of the program, as a value.
var Cnum = globalThis.Cnum || {};

(() => {
    'use strict';

    const { element, say } = Cnum;
    const AFTER_TYPING = 150;
    const BEFORE_TEAMS = 400;
    const FIRST_EXAMPLE = 'types/test_and_set';
    const PROVED = /^(.*?), proved (by .*)\n$/;
    const { SHORTEST, CERTIFICATE } = Cnum.plans.kinds;
    const WITHOUT_READS = '--without-read';
    const MOST_PROCESSES = Cnum.sizes.MOST;
    // The part with which each screen begins.
    const FIRST_PARTS = { why: 'number-part', change: 'compare-part', run: 'protocol-part', print: 'sheet-part' };

    const at = id => document.getElementById(id);
    const examples = new Map(Cnum.examples.flatMap(group => group.types).map(it => [it.path, it]));

    class Page {
        // `pageWith` gives the page as a file with a link in it, if it can be saved so.
        constructor(module, pageWith) {
            this.quick = new Cnum.Runner(module);
            this.search = new Cnum.Runner(module);
            this.adversary = new Cnum.Runner(module);
            this.unread = new Cnum.Runner(module); // of searches for objects that are not read, which may take long
            this.others = new Cnum.OtherTables(module, { kind: () => this.kind(), notice: text => this.notice(text) });
            this.round = 0;
            this.past = new Cnum.Past();
            this.choice = new Cnum.PlanChoice(this);
            this.reads = true; // whether reasons, comparisons and links are for objects that can be read
            this.numbers = new Cnum.TwoNumbers({ choose: reads => this.chooseReads(reads), openWhy: reads => this.openReasons(reads) });
            this.editor = new Cnum.Editor(at('table'), at('marks'), at('flaws'));
            this.grid = new Cnum.Grid(at('grid'), text => this.edit(text));
            this.picture = new Cnum.PictureView(
                { place: at('picture'), tools: at('picture-tools'), choice: at('operations'), part: at('picture-part') },
                () => this.protocol.relight(),
            );
            this.examples = new Cnum.ExampleSearch(
                { field: at('example'), list: at('examples'), number: at('example-number') },
                { choose: path => this.choose(path), classify: paths => this.others.bothNumbers(paths.map(path => examples.get(path).text)) },
            );
            this.comparison = new Cnum.Comparison(at('comparison'), this.forComparison());
            this.protocol = new Cnum.Protocol(at('protocol'), this.forProtocol());
            this.failing = new Cnum.FailingView(at('failing'), this.forFailing());
            this.sheet = new Cnum.Sheet({ place: at('sheet'), choice: at('sheet-choice') }, { version: () => this.version, address: () => this.address.ofSheet() });
            this.claims = new Cnum.Claims(this.forClaims());
            this.screens = new Cnum.Screens(() => this.address.keepSoon());
            this.address = new Cnum.Address(this, pageWith);
            this.listen();
        }

        // What comparisons need of the page.
        forComparison() {
            return {
                kind: () => this.kind(),
                numbers: texts => this.others.numbersOf(this.others.asked, texts),
                two: texts => this.others.numbersOf(this.others.beside, texts),
                pairs: text => this.others.pairsOf(text),
                changes: (text, ofTwo) => this.others.changesOf(text, ofTwo),
                breakOff: () => this.others.breakOff(),
                breakOffAnswer: () => this.others.asked.breakOff(),
                take: text => this.edit(text),
                openWhy: text => this.openWhy(text),
            };
        }

        // What the protocol needs of the page.
        forProtocol() {
            return {
                agree: words => this.choice.agree(this.quick, words),
                tryOut: words => this.choice.agree(this.adversary, words),
                breakOff: () => this.adversary.breakOff(),
                picture: plan => Cnum.pictureOf(this.graph, plan),
                mainPicture: () => this.mainPicture(),
                changed: () => this.address.keepSoon(),
                say: text => (at('step-said').textContent = text),
                name: () => this.nameOfType(),
                save: (part, picture, form) => this.savePicture(part, picture, form),
            };
        }

        // What the run that fails needs of the page.
        forFailing() {
            return {
                picture: (plan, merged) => Cnum.pictureOf(Cnum.mergedGraph(this.graph, merged), plan),
                name: () => this.nameOfType(),
                close: () => this.leadToTrial(false),
            };
        }

        forClaims() {
            return {
                ask: (words, files) => this.ask(this.quick, words, files),
                take: text => this.edit(text),
                table: () => this.table,
                notice: text => this.notice(text),
                printed,
            };
        }

        // Which number comparisons tell.
        kind() {
            if (!this.reads) return 'without_read';
            return this.choice.comeBack ? 'recoverable' : 'consensus';
        }

        mainPicture() {
            return this.picture.picture();
        }

        get text() {
            return at('table').value;
        }

        set text(text) {
            at('table').value = text;
        }

        listen() {
            let typed;
            at('table').addEventListener('input', () => {
                clearTimeout(typed);
                this.past.put(this.text, { isTyped: true, now: performance.now() });
                typed = setTimeout(() => this.refresh(), AFTER_TYPING);
            });
            at('own').addEventListener('click', () => this.edit(Cnum.FIRST_TABLE));
            at('limit').addEventListener('change', () => this.choice.chooseLimit(Number(at('limit').value)));
            at('come-back').addEventListener('change', () => {
                this.choice.comeBack = at('come-back').checked;
                this.refresh();
            });
            at('plan').addEventListener('change', () => this.choice.choosePlan(at('plan').value));
            at('try-anyway').addEventListener('click', () => this.leadToTrial(true));
            at('skip').addEventListener('click', event => this.skipTo(event, 'why'));
            at('skip-protocol').addEventListener('click', event => this.skipTo(event, 'run'));
            at('skip-table').addEventListener('click', event => this.skipTo(event, this.screens.screen));
            Cnum.listenToRunKeys(this.protocol, () => at('protocol').getClientRects().length > 0);
            this.listenToUndo();
            at('break-off').addEventListener('click', () => this.breakOff());
            at('break-off-without').addEventListener('click', () => this.breakOffUnread());
            for (const it of document.querySelectorAll('.of-choice button')) it.addEventListener('click', () => this.chooseReads(!this.reads));
            at('download').addEventListener('click', () => this.offerCertificate());
            at('download-table').addEventListener('click', () => this.offer('toml', this.text, 'application/toml'));
            for (const form of ['svg', 'png']) {
                at(`picture-${form}`).addEventListener('click', () => this.savePicture('states', this.mainPicture(), form));
            }
            at('notice-close').addEventListener('click', () => this.notice(''));
        }

        // Undo and redo by their buttons, by keys, and as the browser's own commands in the text.
        listenToUndo() {
            at('undo').addEventListener('click', () => this.goBack(-1));
            at('redo').addEventListener('click', () => this.goBack(1));
            const commands = { historyUndo: -1, historyRedo: 1 };
            at('table').addEventListener('beforeinput', event => {
                if (!(event.inputType in commands)) return;
                event.preventDefault();
                this.goBack(commands[event.inputType]);
            });
            document.addEventListener('keydown', event => {
                const by = undoKey(event);
                if (!by || event.target.matches('input:not([type=range]):not([type=file])')) return;
                event.preventDefault();
                this.goBack(by);
            });
        }

        // Tells something where the reader looks, wherever that is on the page.
        notice(text) {
            at('notice-text').textContent = text;
            at('notice').hidden = !text;
        }

        // Offers a file under the name of the type, if the text tells it.
        offer(ending, content, kind) {
            const separator = ending.includes('.') ? '_' : '.';
            Cnum.offer(`${this.nameOfType() || 'type'}${separator}${ending}`, content, kind);
        }

        // The name in the text, if it tells one.
        nameOfType() {
            const name = new Cnum.TableText(this.text).entry('name');
            return name && /^\w+$/.test(name.value.text) ? name.value.text : '';
        }

        // Offers a picture. Its file has the name of the type, its number, and the part that it shows.
        async savePicture(part, picture, form) {
            const { numbers, reads } = this;
            const number = numbers.has(reads) ? [Cnum.numberText(numbers.of(reads)).replace(/ /g, '_')] : [];
            const content = form === 'png' ? await Cnum.pngOf(picture) : Cnum.svgText(picture);
            this.offer(`${[...number, part].join('_')}.${form}`, content, form === 'png' ? 'image/png' : 'image/svg+xml');
        }

        // The example of this text, if it is one.
        example() {
            return [...examples.values()].find(it => it.text === this.text);
        }

        choose(path) {
            return examples.has(path) ? this.edit(examples.get(path).text) : undefined;
        }

        // Another table; it can be undone.
        edit(text) {
            this.notice('');
            this.text = text;
            return this.refresh();
        }

        // Another table, with the reason of its number in view.
        async openWhy(text) {
            this.showScreen({ acts: [], screen: 'why' });
            await this.edit(text);
        }

        // Shows the screen and the view of a link.
        showScreen(linked) {
            this.screens.open(linked.screen || Cnum.links.screenOf(linked));
            this.screens.showView(linked.view);
            this.sheet.show({ kind: linked.view === 'solution' ? 'solution' : 'exercise' });
        }

        // Leads to a screen. The address holds the link, and so has no place for the name of a part.
        skipTo(event, screen) {
            event.preventDefault();
            this.screens.open(screen);
            at(FIRST_PARTS[screen]).focus();
        }

        // Leads to the run that fails if one process more tries it, or back to the protocol.
        tryAnyway(isTried) {
            this.showAnyway(isTried);
            if (this.isTried) this.screens.open('run');
            this.screens.afterwards();
            this.address.keepSoon();
        }

        // The same by a button that is then gone: the focus goes to one that is there.
        leadToTrial(isTried) {
            this.tryAnyway(isTried);
            if (this.isTried) this.failing.focus();
            else at('try-anyway').focus();
        }

        // Shows the run that fails in the place of the protocol, if it is wanted and there is one.
        showAnyway(isTried) {
            this.isTried = isTried && this.failing.isThere();
            at('protocol').hidden = at('choices').hidden = this.isTried;
            at('failing').hidden = !this.isTried;
            if (this.isTried) this.failing.draw();
        }

        // The certificate for as many processes as the program can, or as were chosen.
        async certificateText() {
            const limit = this.choice.limit && this.choice.limit < this.certified ? ['--limit', String(this.choice.limit)] : [];
            const find = await this.ask(this.search, ['find', ...limit]);
            return find && find.status === 0 ? find.stdout : '';
        }

        async offerCertificate() {
            const text = await this.certificateText();
            if (text) this.offer('json', text, 'application/json');
        }

        // The table before the last change, or after it. The cursor goes to the place of the change.
        async goBack(by) {
            if (!this.past.canMove(by)) return;
            const before = this.text;
            this.text = this.past.move(by);
            const end = Cnum.endOfChange(this.text, before);
            at('table').setSelectionRange(end, end);
            await this.refresh();
        }

        // Shows what a link says. If it has no limit, there are as many processes as it has inputs, and if it has neither but a
        // run, as many as can be. Those that come back may be fewer. A run with no plan is of the certificate: older pages made
        // such links. If only the run is another one, nothing is searched anew.
        async showLinked(linked, isFirst) {
            const comeBack = Boolean(linked.comeBack);
            const plan = linked.plan || (comeBack || !linked.acts.length ? SHORTEST : CERTIFICATE);
            const text = linked.text === undefined ? examples.get(linked.example || FIRST_EXAMPLE).text : linked.text;
            const ofRun = linked.inputs.length > 1 ? linked.inputs.length : linked.acts.length ? MOST_PROCESSES : null;
            const limit = linked.limit || (comeBack ? null : ofRun);
            const reads = linked.reads !== false;
            const isSame = !isFirst && text === this.table && comeBack === this.choice.comeBack && plan === this.choice.plan && reads === this.reads;
            const willTry = Boolean(linked.isTried);
            Object.assign(this.choice, { comeBack, plan, limit });
            this.reads = reads;
            at('come-back').checked = comeBack;
            at('plan').value = plan;
            if (isSame && this.told) {
                this.choice.offerLimits();
                await this.choice.showChosen(linked);
            } else {
                this.past.goTo(text);
                this.text = text;
                await this.refresh(linked);
            }
            this.tryAnyway(willTry);
        }

        // What a link says of what is shown.
        linkContent() {
            const example = this.example();
            const { inputs } = this.protocol;
            const { text, reads, isTried } = this;
            const { limit, comeBack, plan } = this.choice;
            const { screen, view } = this.screens;
            const acts = this.protocol.actsSoFar();
            return { example: example && example.path, text, limit, comeBack, reads, plan, inputs, acts, isTried, screen, view };
        }

        // Ends what runs, so that nothing is shown any more.
        end() {
            this.round++;
            for (const it of [this.search, this.adversary, this.unread, this.others]) it.breakOff();
            this.protocol.end();
        }

        // Runs a command on the table that is shown, or on one that is made of it. The answer is null if another table has come since.
        async ask(runner, words, files, table = this.table) {
            const round = this.round;
            const answer = await runner.run(words, table, files);
            return round === this.round && !answer.isBrokenOff ? answer : null;
        }

        // Shows all anew: the flaws, the picture, the number, why, and the protocol, after this run of it.
        async refresh(linked = { inputs: [], acts: [] }) {
            this.end();
            this.table = this.text;
            const example = this.example();
            this.past.put(this.text);
            this.tellName();
            at('undo').disabled = !this.past.canMove(-1);
            at('redo').disabled = !this.past.canMove(1);
            this.examples.show(example && example.path);
            at('about').textContent = example ? example.about : '';
            this.grid.show(this.text);
            const lint = await this.ask(this.quick, ['lint', '--as', 'json']);
            if (!lint) return;
            const isTable = lint.status === 0;
            const told = lint.stdout ? JSON.parse(lint.stdout) : { flaws: [] };
            this.editor.show(told.flaws);
            at('fault').textContent = isTable ? '' : Cnum.inWords(lint);
            at('notes').replaceChildren(...(isTable ? Cnum.notesOf(this.table, told) : []).map(it => element('li', {}, it)));
            this.forget(isTable ? '' : say('no_number'));
            this.comparison.show(isTable ? this.table : '');
            if (isTable && this.screens.view === 'pairs') this.comparison.pair();
            if (isTable && linked.view === 'changes') this.comparison.changeEntries();
            this.tellChoice();
            if (isTable) await this.find(linked);
            await this.address.keep();
        }

        // The name of the type, as a heading and as the title of the page.
        tellName() {
            const name = this.nameOfType();
            at('type-name').textContent = name;
            document.title = name ? say('title_of_type', { name }) : say('title');
        }

        // Takes away what was said of another table.
        forget(why) {
            clearTimeout(this.early);
            this.told = null; // what `why` tells of objects that can be read
            this.certified = 1; // for how many processes there is a certificate
            this.recoverable = null;
            this.numbers.clear(why);
            this.reasons = new Map(); // what `why` told of the numbers, by whether the object can be read
            this.refused = ''; // why there is no evidence, if there is none
            this.choice.forget();
            this.graph = null;
            at('running').hidden = at('running-without').hidden = true;
            at('why').replaceChildren();
            this.picture.clear();
            this.claims.clear();
            for (const id of ['recoverable', 'bound', 'certificate-said', 'come-back-said', 'plan-said', 'limit-said']) at(id).textContent = '';
            for (const id of ['plan-part', 'limit-part', 'try-part', 'legend']) at(id).hidden = true;
            at('download').disabled = at('picture-svg').disabled = at('picture-png').disabled = true;
            this.protocol.clear(why);
            this.failing.clear();
            this.sheet.show({ told: null, text: this.table });
            this.tryAnyway(false);
        }

        async find(linked) {
            const draw = await this.ask(this.quick, ['draw']);
            if (!draw) return;
            this.graph = Cnum.graphOf(draw.stdout);
            // If the search takes long, the picture comes before it, without teams.
            this.early = setTimeout(() => this.draw(null), BEFORE_TEAMS);
            await this.showNumber(linked);
        }

        // Finds the number with its reasons, and shows them, and then the protocol. Beside that, another worker finds the other
        // numbers.
        async showNumber(linked) {
            this.numbers.say(true, say('searching'));
            const others = this.showOthers();
            const why = await this.found(['why', '--as', 'json', '-']);
            if (!why) return;
            this.tellNumber(JSON.parse(why.stdout));
            if (!(await this.choice.findWithoutReads())) return;
            this.choice.offerLimits();
            const example = await this.exampleOf(this.told);
            if (!example) return;
            this.reasons.set(true, example);
            this.sheet.show({ told: example, text: this.table });
            if (this.reads) this.showReasons();
            await this.choice.showChosen(linked);
            if (!this.reads) await others;
        }

        // Takes what `why` tells of objects that can be read.
        tellNumber(told) {
            this.told = told;
            this.certified = told.witness ? told.witness.processes.length : 1;
            at('download').disabled = false;
            at('certificate-said').textContent = this.certified < Math.min(MOST_PROCESSES, Cnum.leastOf(told.number)) ? say('evidence_apart', this) : '';
            this.numbers.tell(true, told.number);
            this.tellBound();
            if (this.reads || !this.reasons.has(false)) this.tellFailing();
            else this.showUnreadReasons();
        }

        // Offers the run that fails for one process more, of the number that is chosen, if its reasons are known and have one.
        tellFailing() {
            const { told, reads } = this;
            this.failing.show(reads ? Cnum.failingWithReads(told) : Cnum.failingUnread(told, this.reasons.get(false)));
            at('try-part').hidden = !this.failing.isThere();
            at('try-anyway').textContent = this.failing.title();
            this.showAnyway(this.isTried);
        }

        // What the number with reads says of objects that cannot be read: nothing more can agree through them.
        tellBound() {
            const number = this.told && this.told.number;
            at('bound').textContent = typeof number === 'number' && number > 1 ? say('bound', { number }) : '';
        }

        // Finds the number without reads, with the recoverable one, in a worker of its own, since that may take long. Shows
        // both, and why, if the number without reads is chosen.
        async showOthers() {
            this.numbers.say(false, say('searching'));
            const answer = await this.askUnread(['classify', '--recoverable']);
            if (!answer) return;
            if (answer.status !== 0) {
                this.numbers.say(false, Cnum.inWords(answer));
                return;
            }
            const { recoverable, without_read: unread } = JSON.parse(answer.stdout);
            this.numbers.tell(false, unread);
            this.tellRecoverable(recoverable);
            if (!this.reads) await this.showUnreadReasons();
        }

        // What a command tells without reads, as JSON.
        askUnread(words) {
            return this.timed(this.ask(this.unread, [...words, WITHOUT_READS, '--as', 'json', '-']), at('running-without'));
        }

        // Finds the recoverable number alone, as it is wanted at once. If there is none, the answer is null.
        async findRecoverable() {
            const answer = await this.timed(this.ask(this.search, ['classify', '--recoverable', '--as', 'json', '-']));
            if (!answer) return null;
            if (answer.status === 0) return this.tellRecoverable(JSON.parse(answer.stdout).recoverable);
            this.choice.refuseLives(Cnum.inWords(answer));
            return null;
        }

        tellRecoverable(recoverable) {
            this.recoverable = recoverable;
            at('recoverable').textContent = say('recoverable', { number: Cnum.numberText(recoverable) });
            return recoverable;
        }

        // The answer of a search. If it is a fault, the page says so, and there is no answer.
        async found(words, table) {
            const answer = await this.timed(this.ask(this.search, words, {}, table));
            if (!answer || answer.status === 0) return answer;
            this.refuse(Cnum.inWords(answer));
            return null;
        }

        // Shows why the number for objects that can be read is what it is.
        showReasons() {
            const example = this.reasons.get(true);
            const more = { all: () => this.explainAll(), printed: () => this.printedWhy(), tryAnyway: () => this.leadToTrial(true) };
            Cnum.showExplanation(at('why'), example, { ...more, anyway: this.failing.title() });
            Cnum.explainWords(at('why'));
        }

        // An explanation that has no greatest number has the witness of few processes as its example, by the operations that last.
        async exampleOf(told) {
            const count = Cnum.sizes.usual(told.number, this.certified);
            if (count === this.certified || !told.witness) return told;
            const table = told.lasting ? Cnum.tableOfLasting(this.table, told.lasting) : this.table;
            const few = await this.found(['why', '--limit', String(count), '--as', 'json', '-'], table);
            return few && { ...told, witness: JSON.parse(few.stdout).witness };
        }

        // The same without reads.
        async showUnreadReasons() {
            if (!this.reasons.has(false)) {
                const why = await this.askUnread(['why', '--all']);
                if (!why) return;
                this.reasons.set(false, why.status === 0 ? JSON.parse(why.stdout) : null);
            }
            if (this.reads) return;
            const told = this.reasons.get(false);
            const graph = told && Cnum.mergedGraph(this.graph, told.merged);
            const picture = ({ start, processes }) => Cnum.pictureOf(graph, { start, roles: processes });
            this.tellFailing();
            const trying = { tryAnyway: () => this.leadToTrial(true), anyway: this.failing.title() };
            Cnum.showUnreadExplanation(at('why'), told, { picture, printed: () => this.printedUnread(), ...trying });
            Cnum.explainWords(at('why'));
            if (told) this.redraw();
        }

        // Takes the choice of a reader: objects that can be read, or not.
        chooseReads(reads) {
            this.reads = reads;
            this.tellChoice();
            this.tellFailing();
            if (at('picture').firstElementChild) this.redraw();
            this.explain();
            if (this.told) this.choice.offerLimits();
            this.comparison.again();
            this.address.keepSoon();
        }

        // Shows why the number that is chosen is what it is, or that this is searched for, or why there are no reasons.
        explain() {
            const { reads } = this;
            const isKnown = reads ? this.reasons.has(true) : this.numbers.has(false);
            const isBusy = (reads ? this.search : this.unread).isBusy();
            this.sayOfReasons(reads && this.refused ? this.refused : say(isKnown || isBusy ? 'searching' : 'search_broken_off'));
            if (isKnown && reads) this.showReasons();
            if (isKnown && !reads) this.showUnreadReasons();
        }

        // Says something in the place of reasons.
        sayOfReasons(text) {
            at('why').replaceChildren(...(this.graph ? [element('p', { class: 'quiet' }, text)] : []));
        }

        // Shows the reasons of one of the two numbers where the reader looks.
        openReasons(reads) {
            if (reads !== this.reads) this.chooseReads(reads);
            at('why-part').scrollIntoView({ block: 'nearest' });
            at('why-part').focus({ preventScroll: true });
        }

        // Says for which of the two numbers the parts of the page are, with a button for the other one.
        tellChoice() {
            const { reads } = this;
            this.numbers.choose(reads);
            this.examples.searchBy(reads);
            for (const it of document.querySelectorAll('.of-choice')) {
                it.firstElementChild.textContent = say(reads ? 'of_readable' : 'of_unread');
                it.lastElementChild.textContent = say(reads ? 'show_unread' : 'show_readable');
                it.classList.toggle('unread', !reads);
            }
            if (this.kind() === 'recoverable') at('compare-of').firstElementChild.textContent = say('of_recoverable');
            at('protocol-of').hidden = reads;
        }

        // Says why there is no evidence, and so no protocol.
        refuse(why) {
            this.draw(null);
            this.refused = why;
            if (this.reads) this.sayOfReasons(why);
            this.protocol.clear(why);
        }

        // The picture, with the start and the teams of this witness, if there is one.
        draw(witness) {
            clearTimeout(this.early);
            this.witness = witness;
            this.redraw();
        }

        // The same for the number that is chosen: without reads, with those of its witness.
        redraw() {
            const witness = this.reads ? this.witness : this.unreadWitness();
            this.picture.show(this.graph, witness);
            at('legend').hidden = !witness;
            at('picture-svg').disabled = at('picture-png').disabled = false;
        }

        unreadWitness() {
            const { witness } = this.reasons.get(false) || {};
            return witness ? { start: witness.start, roles: witness.processes } : null;
        }

        // Shows that a search runs, and for how long, until it ends.
        async timed(search, running = at('running')) {
            const began = performance.now();
            const seconds = () => ((performance.now() - began) / 1000).toFixed(1);
            const tick = setInterval(() => {
                running.hidden = false;
                running.firstElementChild.textContent = say('running', { seconds: seconds() });
            }, 100);
            const round = this.round;
            try {
                return await search;
            } finally {
                clearInterval(tick);
                if (round === this.round) running.hidden = true;
            }
        }

        breakOff() {
            this.search.breakOff();
            if (!this.numbers.has(true)) this.numbers.say(true, say('search_broken_off'));
            else if (this.choice.comeBack) this.choice.refuseLives(say('search_broken_off'));
            else this.refuse(say('search_broken_off'));
        }

        breakOffUnread() {
            this.unread.breakOff();
            if (!this.numbers.has(false)) this.numbers.say(false, say('search_broken_off'));
            else if (!this.reads) this.sayOfReasons(say('search_broken_off'));
        }

        async explainAll() {
            const answer = await this.ask(this.search, ['why', '--all', '--as', 'json', '-']);
            if (!answer || answer.status === 0) return answer && JSON.parse(answer.stdout);
            this.notice(Cnum.inWords(answer));
            return null;
        }

        async printedWhy() {
            return printed(await this.ask(this.search, ['why', '-']));
        }

        async printedUnread() {
            return printed(await this.ask(this.unread, ['why', WITHOUT_READS, '-']));
        }

        async begin() {
            Cnum.explainWords(at('legend'));
            const version = await this.quick.run(['--version']);
            const [, program, proof] = PROVED.exec(version.stdout) || ['', version.stdout.trim(), ''];
            this.version = program;
            at('made-by').textContent = say('made_by', { program, proof });
            await this.address.follow();
        }    }

    // What the program prints, or why it does not.
    const printed = answer => answer && (answer.status === 0 ? answer.stdout : Cnum.inWords(answer));

    // What a key undoes: -1 for undo, 1 for redo, 0 for none.
    function undoKey({ key, ctrlKey, metaKey, shiftKey, altKey }) {
        if (!(ctrlKey || metaKey) || altKey) return 0;
        const letter = key.toLowerCase();
        if (letter === 'z') return shiftKey ? 1 : -1;
        return letter === 'y' ? 1 : 0;
    }

    function offerLanguages() {
        const codes = Object.keys(Cnum.languages);
        at('language').append(...codes.map(it => element('option', { value: it, lang: it }, Cnum.languages[it].name)));
        at('language').value = Cnum.language;
    }

    async function begin() {
        if (document.documentElement.dataset.lacks) return;
        const pageWith = Cnum.pageToSave();
        Cnum.useLanguage(Cnum.languageOf(location.hash || Cnum.savedLink()));
        Cnum.fillTexts();
        let module;
        try {
            module = await Cnum.load();
        } catch (error) {
            at('trouble').textContent = error.message;
            at('content').hidden = true;
            return;
        }
        offerLanguages();
        Cnum.page = new Page(module, pageWith);
        await Cnum.page.begin();
        document.documentElement.dataset.ready = 'yes';
    }

    begin();
})();
