// Which protocol the page shows: for how many processes, by which plan, and whether its processes come back. It asks the program
// for the plan, and hands that to the protocol.
var Cnum = globalThis.Cnum || {};

(() => {
    'use strict';

    const { element, say } = Cnum;
    const { SHORTEST, CERTIFICATE, WITHOUT_READS } = Cnum.plans.kinds;

    const at = id => document.getElementById(id);

    class PlanChoice {
        // Of the page it needs its table with what the program told of it, its runs of commands, and its protocol.
        constructor(page) {
            this.page = page;
            this.limit = null; // what was chosen for the processes of the protocol, if another number than the usual one
            this.comeBack = false; // whether the processes of the protocol crash and come back
            this.plan = SHORTEST; // the kind of plan of the protocol
            this.forget();
        }

        // Another table has come.
        forget() {
            this.withoutReads = null; // what `show` answered of the plan without reads for as many processes as it can
        }

        // Shows the protocol for another number of processes. Nothing else changes.
        async chooseLimit(limit) {
            this.limit = limit;
            this.offerLimits();
            await this.showChosen({ inputs: [], acts: [] });
            this.page.address.keepSoon();
        }

        // The protocol for the processes that are chosen.
        async showChosen(linked) {
            if (this.comeBack) {
                const recoverable = this.page.recoverable || (await this.page.findRecoverable());
                if (recoverable) await this.showLives(linked, recoverable);
            } else {
                await this.showProtocol(linked);
            }
        }

        // Whether the protocol is the plan without reads.
        isWithoutReads() {
            return this.plan === WITHOUT_READS && !this.comeBack && this.page.certified > 1;
        }

        // Finds the plan without reads for as many processes as it can, if it is chosen. The answer is false if the search is
        // broken off, or another table has come since.
        async findWithoutReads() {
            if (!this.isWithoutReads() || this.withoutReads) return true;
            const answer = await this.page.timed(this.page.ask(this.page.search, Cnum.plans.commandsOf(this.plan).show));
            if (answer) this.withoutReads = answer;
            return Boolean(answer);
        }

        // For how many processes that plan is, and 1 if there is none.
        mostWithoutReads() {
            const { status, stdout } = this.withoutReads;
            return status === 0 ? JSON.parse(stdout).processes : 1;
        }

        // What the number of processes of the protocol depends on.
        sizes() {
            const { comeBack, limit, plan } = this;
            const { certified, told } = this.page;
            const { number } = told;
            const isWithoutReads = this.isWithoutReads();
            const unread = isWithoutReads && this.withoutReads ? this.mostWithoutReads() : null;
            const most = Cnum.sizes.mostOf({ number, certified, comeBack, isOfCertificate: plan === CERTIFICATE, unread });
            return { number, comeBack, isWithoutReads, most, limit: Cnum.sizes.chosen(limit, number, most) };
        }

        // For how many processes the protocol is.
        count() {
            const { number, most, limit } = this.sizes();
            return limit || Cnum.sizes.usual(number, most);
        }

        // Says for how many processes the protocol is, and lets one choose another number.
        offerLimits() {
            const sizes = this.sizes();
            this.limit = sizes.limit;
            const options = Array.from({ length: Math.max(0, sizes.most - 1) }, (_, index) => element('option', {}, String(index + 2)));
            at('limit').replaceChildren(...options);
            at('limit').value = this.count();
            at('limit-part').hidden = sizes.most < 3;
            at('limit-said').textContent = Cnum.sizes.inWords(sizes);
        }

        // The protocol for as many processes as are chosen: the shortest, that of the certificate's witness, or the shortest
        // without reads.
        async showProtocol(linked) {
            const { witness } = this.page.reasons.get(true) || this.page.told; // that of the reasons, which are shown beside it
            if (!witness) {
                if (!this.page.address.fits(linked, 1)) return;
                this.page.draw(null);
                this.page.protocol.clear(say('nobody'));
                return;
            }
            const { plan } = this;
            const shown = { start: witness.start, roles: witness.processes };
            if (this.isWithoutReads() && this.mostWithoutReads() < 2) {
                if (this.page.address.fits(linked, 1)) this.refusePlan(shown);
                return;
            }
            const made = await (plan === CERTIFICATE ? this.planOfWitness(this.count()) : this.planTree(this.count()));
            if (!made || plan !== this.plan) return;
            this.agreement = made.agreement;
            this.tellPlan(made.plan);
            await this.showPlan(made.plan, linked, shown);
        }

        // Takes the choice of a plan. Nothing else changes, so that the reader stays at the same place.
        async choosePlan(plan) {
            this.plan = plan;
            if (!(await this.findWithoutReads()) || plan !== this.plan) return;
            this.offerLimits();
            await this.showProtocol({ inputs: [], acts: [] });
            this.page.address.keepSoon();
        }

        // Says how long a plan is, of what it is the shortest, whether processes look, and whether it is for objects that can be
        // read only.
        tellPlan(plan) {
            const { most, nodes, reads } = plan;
            at('plan-part').hidden = false;
            const size = say(nodes.length === 1 ? 'plan_of_one' : 'plan_size', { most, objects: nodes.length });
            const least = Cnum.plans.leastOf(this.plan);
            const looks = Cnum.plans.looks(plan) ? [' ', say('plan_looks')] : [];
            at('plan-said').replaceChildren(size, ...(least ? [' ', ...Cnum.marked(least)] : []), ...looks);
            Cnum.explainWords(at('plan-said'));
            at('protocol-of').textContent = say(reads ? 'protocol_reads' : 'protocol_without_reads');
        }

        // Says why there is no plan without reads. The reader can choose another one.
        refusePlan(witness) {
            at('plan-part').hidden = false;
            at('plan-said').textContent = at('protocol-of').textContent = '';
            this.page.draw(witness);
            this.page.protocol.clear(Cnum.plans.whyNone(this.withoutReads));
        }

        // The plan tree for so many processes, with what runs it; or null. That without reads is known for as many as it can.
        async planTree(number) {
            const { show, agree } = Cnum.plans.commandsOf(this.plan, number);
            const isKnown = this.isWithoutReads() && number === this.mostWithoutReads();
            const answer = isKnown ? this.withoutReads : await this.page.found(show);
            const agreement = { words: agree, files: {}, table: this.page.table };
            return answer && { plan: Cnum.plans.ofTree(JSON.parse(answer.stdout)), agreement };
        }

        // The plan of the certificate for this number alone, with what runs it; or null. That certificate has the same witness and
        // no collisions. Each step checks it anew, and so takes no longer if there are many collisions.
        async planOfWitness(number) {
            const find = await this.page.ask(this.page.search, ['find', '--limit', String(number)]);
            if (!find) return null;
            const files = { [CERTIFICATE]: find.stdout };
            const show = await this.page.ask(this.page.search, ['show', '--as', 'json', CERTIFICATE], files);
            const words = ['agree', '--steps', '--as', 'json', CERTIFICATE];
            const alone = [Cnum.firstInputs(number).join(','), Cnum.plans.oneByOne(number)];
            const run = await this.page.ask(this.page.search, [...words, ...alone], files);
            const agreement = { words, files, table: this.page.table };
            return show && run && { plan: Cnum.plans.ofCertificate(JSON.parse(show.stdout), JSON.parse(run.stdout)), agreement };
        }

        // Shows a plan, and in the picture of the states the start and the teams of this witness.
        async showPlan(plan, linked, witness) {
            if (!this.page.address.fits(linked, plan.processes)) return;
            this.page.draw(witness);
            await this.page.protocol.show(plan, linked.inputs, linked.acts);
        }

        // Says why there is no protocol of processes that come back.
        refuseLives(why) {
            this.page.draw(null);
            at('come-back-said').textContent = '';
            this.page.protocol.clear(why);
        }

        // The protocol of processes that crash and come back, as many as a link has or as were chosen, if so many can agree.
        async showLives(linked, recoverable) {
            const most = Math.min(Cnum.sizes.MOST, Cnum.leastOf(recoverable));
            if (most < 2) {
                if (this.page.address.fits(linked, 1)) this.refuseLives(say('nobody_comes_back'));
                return;
            }
            const wanted = linked.inputs.length > 1 ? linked.inputs.length : this.limit;
            const processes = Math.min(most, wanted || Cnum.sizes.usual(recoverable, most));
            at('come-back-said').textContent = say('come_back_said', { count: processes });
            const [options, form] = [['--recoverable', '--processes', String(processes)], ['--as', 'json', '-']];
            this.agreement = { words: ['agree', ...options, '--steps', ...form], files: {}, table: this.page.table };
            const show = await this.page.timed(this.page.ask(this.page.search, ['show', ...options, ...form]));
            if (show && show.status !== 0) this.refuseLives(Cnum.inWords(show));
            if (!show || show.status !== 0) return;
            const plan = Cnum.plans.ofLives(JSON.parse(show.stdout));
            at('protocol-of').textContent = say('protocol_reads');
            await this.showPlan(plan, linked, plan.nodes[0]);
        }

        // What `agree` says of a run, by these further words.
        agree(runner, words) {
            const { words: before, table, files } = this.agreement;
            return runner.run([...before, ...words], table, files);
        }
    }

    Cnum.PlanChoice = PlanChoice;
})();
