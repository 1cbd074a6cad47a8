// What the program tells of tables beside the one that is shown: of those of comparisons, and of all examples.
var Cnum = globalThis.Cnum || {};

(() => {
    'use strict';

    const WITHOUT_READS = '--without-read';
    // For each number that can be chosen the options that ask for it, and its key in what `classify` tells.
    const KINDS = {
        consensus: { options: [], key: 'number' },
        recoverable: { options: ['--recoverable'], key: 'recoverable' },
        without_read: { options: [WITHOUT_READS], key: 'without_read' },
    };

    class OtherTables {
        // `kind` tells which number is chosen, and `notice` tells a fault to the reader. What is asked for in the place of another
        // answer breaks that off, but not the numbers of two tables side by side, which so have a worker of their own.
        constructor(module, { kind, notice }) {
            Object.assign(this, { module, kind, notice, asked: new Cnum.Runner(module), beside: new Cnum.Runner(module) });
        }

        breakOff() {
            for (const it of [this.asked, this.beside]) it.breakOff();
        }

        // What a command prints beside those on the table that is shown. If it ends with a fault, the page says so, and
        // the answer is null, as JSON; so it is if the command is broken off.
        async aside(runner, words, stdin, files) {
            const answer = await runner.run(words, stdin, files);
            if (answer.status === 0) return answer.stdout;
            if (!answer.isBrokenOff) this.notice(Cnum.inWords(answer));
            return 'null';
        }

        // What `classify` tells of these tables, with these options; or null.
        async classified(runner, texts, options) {
            const files = Object.fromEntries(texts.map((text, index) => [String(index), text]));
            const values = Cnum.valuesOf(await this.aside(runner, ['classify', ...options, '--as', 'json', ...Object.keys(files)], '', files));
            return values[0] && values;
        }

        // The numbers of these tables, of the kind that is chosen; or null.
        async numbersOf(runner, texts) {
            const { options, key } = KINDS[this.kind()];
            const values = await this.classified(runner, texts, options);
            return values && values.map(it => it[key]);
        }

        // The numbers of these tables as pairs, for objects that can be read and without reads; or null.
        async bothNumbers(texts) {
            const runner = new Cnum.Runner(this.module);
            const values = await this.classified(runner, texts, [WITHOUT_READS]);
            runner.end();
            return values && values.map(it => ({ read: it.number, unread: it.without_read }));
        }

        // What `pairs` tells of a table, or null. The command has no option for another number, so for that each table with one or
        // two operations is classified.
        async pairsOf(text) {
            if (this.kind() === 'consensus') return JSON.parse(await this.aside(this.asked, ['pairs', '--as', 'json', '-'], text));
            const sets = Cnum.setsUpToTwo(text);
            const numbers = await this.numbersOf(this.asked, [text, ...sets.map(it => it.text)]);
            return numbers && Cnum.pairsToldBy(sets, numbers);
        }

        // What `changes` tells of a table, with changes of two entries too if that is asked for; or null.
        async changesOf(text, ofTwo) {
            const options = [...KINDS[this.kind()].options, ...(ofTwo ? ['--pairs'] : [])];
            return JSON.parse(await this.aside(this.asked, ['changes', ...options, '--as', 'json', '-'], text));
        }
    }

    Cnum.OtherTables = OtherTables;
})();
