// How a run of the protocol is shown: the buttons and the slider, a column for each process, what happened, the
// space-time diagram, the nodes, the states and the tournament.
var Cnum = globalThis.Cnum || {};

(() => {
    'use strict';

    const { button, element, lives, run, say, tableOf, wide } = Cnum;
    const ON_PAPER = 700; // the width of a sheet, in points of a picture

    // What an event changed, as a text in brackets: the state of an object, or what a process remembers. An event that
    // changed neither has none.
    function changeOf({ before, after, forgot }) {
        if (forgot) return say('log_forgets', { memory: memoryText(forgot) });
        return before ? say('object_change', { before, after }) : '';
    }

    // What a process remembers or forgets, in words.
    function memoryText({ node, value, last, decision }) {
        if (decision !== undefined) return say('memory_decision', { value: decision });
        return last ? say('memory_step', { node, value, step: Cnum.shortText(last) }) : say('memory_place', { node, value });
    }

    // The names of all teams that meet at some node.
    function teamsOf({ nodes }) {
        return Cnum.plans.NAMES.slice(0, Math.max(...nodes.map(it => it.teams.length)));
    }

    class RunView {
        // Shows the run of this protocol in this place.
        constructor(place, protocol) {
            Object.assign(this, { place, protocol, plan: protocol.plan });
            this.columns = this.plan.paths.map((path, process) => this.column(path, process));
            this.trouble = element('p', { class: 'trouble', role: 'alert' });
            this.log = element('ol', { class: 'log', tabindex: 0, 'aria-label': say('log') });
            this.nodes = wide(say('nodes'), '');
            this.diagram = wide(say('diagram'), '');
            this.diagram.addEventListener('scroll', () => Cnum.holdHeads(this.diagram));
            this.diagram.classList.add('diagram');
            this.object = element('p', { class: 'object' });
            this.last = element('h3', { class: 'last-step' });
            const processes = element('div', { class: 'processes', 'data-count': this.columns.length }, ...this.columns.map(it => it.whole));
            place.replaceChildren(
                this.last,
                this.controls(),
                element('div', { class: 'stage' }, processes, this.happened(), this.pictureOfRun(), this.statesOfRun()),
                this.trouble,
                this.figures(),
                this.keys,
            );
            Cnum.explainWords(place);
        }

        controls() {
            const { protocol } = this;
            this.undoButton = button(say('run_undo'), () => protocol.undo());
            this.slider = element('input', { type: 'range', min: 0, max: 0, value: 0, id: 'run-place' });
            this.slider.addEventListener('input', () => protocol.moveTo(Number(this.slider.value)));
            this.slider.addEventListener('change', () => protocol.page.changed());
            this.count = element('output', { for: 'run-place' });
            this.tryButton = button(say('try'), () => protocol.tryToBreak());
            this.endButton = button(say('break_off'), () => protocol.endTrial(), { hidden: '' });
            this.trial = element('p', { class: 'trial', 'aria-live': 'polite' });
            const buttons = [
                this.undoButton,
                button(say('run_anew'), () => protocol.set([])),
                button(say('run_all'), () => protocol.runAll()),
                button(say('run_random'), () => protocol.runRandomly()),
                this.tryButton,
                this.endButton,
            ];
            const label = element('label', { for: 'run-place' }, say('run_place'));
            const place = element('p', { class: 'run-place' }, label, this.slider, this.count);
            const last = this.plan.processes - 1;
            const ofCrashes = this.plan.comeBack ? [' ', say('run_keys_crash')] : [];
            this.keys = element('p', { class: 'quiet hint keys' }, say('run_keys', { last }), ...ofCrashes);
            return element('div', { class: 'controls' }, element('div', { class: 'buttons' }, ...buttons), place, this.trial);
        }

        happened() {
            return element('div', { class: 'happened' }, element('h3', {}, say('log')), this.log);
        }

        pictureOfRun() {
            this.rows = element('div', { class: 'rows-on-paper', 'aria-hidden': 'true' });
            return element('div', { class: 'of-run' }, element('h3', {}, say('diagram')), this.diagram, this.rows);
        }

        // The run for paper, in rows that are not made smaller.
        layOutForPaper() {
            const events = this.protocol.events.slice(0, this.protocol.position);
            const placed = Cnum.placeRun(events, this.protocol.inputs, Cnum.widthOf);
            this.rows.replaceChildren(...Cnum.rowsOfRun(this.diagram.firstElementChild, placed, ON_PAPER));
        }

        // The object on which the last operation was, in the picture of the states.
        statesOfRun() {
            this.pictures = new Map(); // of the states, by the nodes
            this.statesPlace = wide(say('states_of_run'), '');
            this.statesPlace.classList.add('states-of-run');
            return element('div', { class: 'of-object' }, this.object, this.statesPlace);
        }

        // Who meets whom, and what objects and registers hold.
        figures() {
            const kept = this.plan.comeBack ? [element('p', { class: 'quiet' }, say('objects_stay'))] : [];
            const objects = element('div', {}, element('h3', {}, ...Cnum.marked('nodes')), this.nodes, ...kept);
            const isMany = this.plan.processes > 2;
            const figures = element('div', { class: 'figures' }, ...(isMany ? [this.tournament()] : []), objects);
            const saving = this.savings('run', () => this.diagram.firstElementChild);
            return Cnum.disclosure(say(isMany ? 'figures' : 'figures_of_two'), element('p', { class: 'hint' }, say('save_run')), saving, figures);
        }

        // The picture is as wide as its place at most, so that nothing of it is cut.
        tournament() {
            const picture = Cnum.tournamentOf(this.plan);
            this.meetings = picture;
            const head = element('h3', {}, say('tournament'));
            return element('div', {}, head, element('div', { class: 'meetings' }, picture), this.savings('tournament', () => picture));
        }

        // The buttons that save a picture of this part.
        savings(part, picture) {
            const save = form => button(say(`save_${form}`), () => this.protocol.page.save(part, picture(), form));
            return element('div', { class: 'buttons' }, save('svg'), save('png'));
        }

        column(path, process) {
            const { protocol } = this;
            const buttonOf = (does, label, about) => button(label, () => protocol.act(process, does), { 'aria-label': about });
            const step = buttonOf(run.STEP, say('step'), say('step_of', { process }));
            const stop = buttonOf(run.STOP, say('stop'), say('stop_of', { process }));
            const crash = buttonOf(run.CRASH, say('crash'), say('crash_of', { process }));
            const places = path.map(it => {
                const mark = element('span', { class: `team-${it.team}` }, say('team', it));
                return element('li', {}, say('node_of_path', it), mark, `, ${Cnum.plans.taskAt(this.plan, it)}`);
            });
            const decision = element('p', { class: 'decision' });
            const memory = element('p', { class: 'memory' });
            const forgot = element('p', { class: 'forgot' });
            const whole = element(
                'section',
                { class: 'process', 'aria-labelledby': `process-${process}` },
                element('h3', { id: `process-${process}` }, say('process', { process })),
                ' ',
                ...this.proposal(process),
                element('ul', {}, ...places),
                element('div', { class: 'buttons' }, step, stop, ...(this.plan.comeBack ? [crash] : [])),
                decision,
                ...(this.plan.comeBack ? [memory, forgot] : []),
            );
            return { whole, step, stop, crash, decision, memory, forgot };
        }

        // The field for what a process proposes. What is no number is marked, and changes nothing.
        proposal(process) {
            const id = `input-${process}`;
            const value = this.protocol.inputs[process];
            const wrong = element('p', { class: 'trouble', id: `${id}-wrong`, role: 'alert' });
            const kind = { inputmode: 'numeric', size: 6, maxlength: 20, autocomplete: 'off', 'aria-describedby': wrong.id };
            const input = element('input', { id, value, ...kind });
            const onPaper = element('span', { class: 'on-paper' }, value);
            input.addEventListener('change', () => {
                const text = input.value.trim();
                const isRight = Cnum.isInput(text);
                input.setAttribute('aria-invalid', String(!isRight));
                wrong.textContent = isRight ? '' : say('no_input', { text });
                if (!isRight) return;
                onPaper.textContent = text;
                this.protocol.propose(process, text);
            });
            return [element('label', { for: id }, say('proposes')), input, onPaper, wrong];
        }

        // In the large view, the pictures fill their places.
        fit() {
            if (!this.place.getClientRects().length) return;
            Cnum.fitLarge([this.diagram], [this.statesPlace]);
            Cnum.holdHeads(this.diagram);
            if (!document.body.classList.contains('large')) Cnum.reveal(this.statesPlace, '.node.lit');
        }

        fail(why) {
            this.trouble.textContent = why;
        }

        showTrial(text, isRunning) {
            this.trial.textContent = text;
            this.tryButton.hidden = isRunning;
            this.endButton.hidden = !isRunning;
        }

        // Shows a run of `whole` acts after these first events, and what holds there.
        show(events, whole, now) {
            this.trouble.textContent = '';
            this.showTrial('', false);
            this.undoButton.disabled = !events.length;
            this.slider.max = whole;
            this.slider.value = events.length;
            this.count.textContent = say('run_count', { count: events.length, whole });
            this.columns.forEach((column, process) => this.showColumn(column, now.processes[process], this.plan.steps[process]));
            if (this.plan.comeBack) this.showMemories(events);
            this.showLog(events);
            this.showDiagram(events);
            this.showNodes(now.nodes);
            this.showObject(events, now.nodes);
            this.fit();
        }

        // A button that had the focus and cannot be pressed any more hands it to the section, so that the keys
        // still work.
        showColumn({ step, stop, crash, decision, whole }, { steps, decision: value, crashes, hasStopped }, most) {
            const hasDecided = value !== run.UNDECIDED;
            const focused = [step, stop, crash].find(it => it === document.activeElement);
            step.disabled = stop.disabled = hasStopped || hasDecided;
            crash.disabled = hasStopped;
            if (focused && focused.disabled) this.slider.focus();
            whole.classList.toggle('stopped', hasStopped);
            whole.classList.toggle('decided', hasDecided);
            const count = say(this.plan.comeBack ? 'steps_at_most' : 'steps', { steps, most });
            const parts = [count, hasDecided ? say('decides', { value }) : say('undecided'), ...(hasStopped ? [say('stopped')] : [])];
            if (crashes) parts.push(say(crashes === 1 ? 'one_crash' : 'crashes', { crashes }));
            decision.textContent = parts.join(', ');
        }

        // What each process remembers, and what it forgot when it last crashed.
        showMemories(events) {
            this.columns.forEach(({ memory, forgot }, process) => {
                const now = lives.memoryAfter(events, process, this.protocol.inputs[process], this.plan.paths[process]);
                const before = lives.forgottenBy(events, process);
                memory.textContent = say('remembers', { memory: memoryText(now) });
                forgot.textContent = before ? say('forgot', { memory: memoryText(before) }) : '';
                if (this.meetings) Cnum.showPlace(this.meetings, process, now.node, before && before.node);
            });
        }

        showLog(events) {
            const lineOf = it => say(it.kind === 'applies' && it.team ? 'log_tells' : `log_${it.kind}`, it);
            const changes = it => [changeOf(it)].filter(Boolean).map(text => element('span', { class: 'change' }, text));
            this.log.replaceChildren(...events.map(it => element('li', {}, lineOf(it), ...changes(it))));
            this.log.scrollTop = this.log.scrollHeight;
            const last = events[events.length - 1];
            this.protocol.page.say(last ? lineOf(last) : '');
            const name = this.protocol.page.name();
            this.last.textContent = last ? say('last_step', { name, count: events.length, step: lineOf(last) }) : name;
        }

        showDiagram(events) {
            this.diagram.replaceChildren(Cnum.spaceTime(events, this.protocol.inputs, this.plan));
            this.diagram.scrollLeft = this.diagram.scrollWidth;
            Cnum.holdHeads(this.diagram);
        }

        showNodes(nodes) {
            const teams = teamsOf(this.plan);
            const registers = teams.map(team => say('register', { team }));
            const heads = [say('node_head'), say('object_head'), ...registers, say('comers')];
            const objectOf = ({ state, last }) => (last ? say('object_after', last) : say('object_start', { state }));
            const isOf = (team, node) => this.plan.nodes[node].teams.includes(team);
            const held = ({ registers }, node) => teams.map(team => (isOf(team, node) ? registers[team] || '' : say('no_cell')));
            const rows = nodes.map((it, node) => [say('node', { node }), objectOf(it), ...held(it, node), this.comers(node)]);
            this.nodes.replaceChildren(tableOf(heads, rows));
        }

        // The processes that come to a node, each with its team.
        comers(node) {
            const places = this.plan.paths.flatMap((path, process) => path.map(it => ({ ...it, process })));
            return places.filter(it => it.node === node).map(({ process, team }) => say('comer', { process, team })).join(', ');
        }

        // The picture of the states with the start and the teams of a node.
        statesOf(node) {
            if (!this.pictures.has(node)) this.pictures.set(node, this.protocol.page.picture(this.plan.nodes[node]));
            return this.pictures.get(node);
        }

        // Lights up the state of the object on which the last operation was, and the arrow of that operation. The
        // picture of the states shows no run before its first operation.
        showObject(events, nodes) {
            const last = events.filter(it => it.kind === 'applies').pop();
            const node = last ? last.node : 0;
            const { state } = nodes[node];
            const text = last ? say('object_after', last) : say('object_start', { state });
            this.object.textContent = say('object_of_node', { node, text });
            const picture = this.statesOf(node);
            this.statesPlace.replaceChildren(picture);
            Cnum.lightUp(picture, state, last);
            Cnum.lightUp(this.protocol.page.mainPicture(), last ? state : null, last);
            Cnum.reveal(this.statesPlace, '.node.lit');
        }
    }

    Cnum.RunView = RunView;
})();
