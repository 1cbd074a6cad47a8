// The program as the page uses it: unpacks the module, and runs commands in workers. So the page stays alive,
// and a run that takes too long can be broken off.
var Cnum = globalThis.Cnum || {};

(() => {
    'use strict';

    // The answer of a run that was broken off. The caller then forgets it.
    const BROKEN_OFF = 'broken off';

    async function unpacked(packed) {
        const letters = atob(packed);
        const bytes = new Uint8Array(letters.length);
        for (let at = 0; at < letters.length; at++) bytes[at] = letters.charCodeAt(at);
        const stream = new Blob([bytes]).stream().pipeThrough(new DecompressionStream('gzip'));
        return new Response(stream).arrayBuffer();
    }

    // What the program needs and this browser lacks, or an empty text.
    function lack() {
        if (typeof WebAssembly !== 'object') return 'WebAssembly';
        if (typeof DecompressionStream !== 'function') return 'DecompressionStream';
        if (typeof Worker !== 'function') return Cnum.say('workers');
        return '';
    }

    // The compiled module; if that cannot be, an error that says why in a sentence.
    async function load() {
        const lacks = lack();
        if (lacks) throw new Error(Cnum.say('lacks', { what: lacks }));
        try {
            return await WebAssembly.compile(await unpacked(Cnum.packedModule));
        } catch (error) {
            throw new Error(Cnum.say('cannot_run', { why: error.message }));
        }
    }

    // The work of a worker: its first message is the module, each later one a run.
    function work() {
        let run;
        onmessage = ({ data }) => {
            if (data.module) {
                run = Cnum.makeHost(data.module);
                return;
            }
            let answer;
            try {
                answer = run(data.words, data.stdin, data.files);
            } catch (error) {
                answer = { status: null, stdout: new Uint8Array(), stderr: new TextEncoder().encode(`The run failed: ${error.message}\n`) };
            }
            postMessage({ id: data.id, answer });
        };
    }

    // The worker is made of the page's own text, since a page in a file may not load one.
    const TEXT = `var Cnum = {}; Cnum.runModule = ${Cnum.runModule}; Cnum.makeHost = ${Cnum.makeHost}; (${work})();`;
    const PLACE = URL.createObjectURL(new Blob([TEXT], { type: 'text/javascript' }));

    // Runs commands one after the other in a worker of its own.
    class Runner {
        constructor(module) {
            this.module = module;
            this.waiting = new Map();
            this.count = 0;
            this.start();
        }

        start() {
            this.worker = new Worker(PLACE);
            this.worker.onmessage = ({ data }) => {
                const settle = this.waiting.get(data.id);
                this.waiting.delete(data.id);
                settle(data.answer);
            };
            this.worker.postMessage({ module: this.module });
        }

        // The answer of a command: its status and its texts, or that it was broken off.
        async run(words, stdin = '', files = {}) {
            const id = ++this.count;
            const answer = await new Promise(settle => {
                this.waiting.set(id, settle);
                this.worker.postMessage({ id, words, stdin, files });
            });
            if (answer === BROKEN_OFF) return { isBrokenOff: true };
            const textOf = bytes => new TextDecoder().decode(bytes);
            return { status: answer.status, stdout: textOf(answer.stdout), stderr: textOf(answer.stderr) };
        }

        isBusy() {
            return this.waiting.size > 0;
        }

        // Ends the worker, after its last run.
        end() {
            this.worker.terminate();
        }

        // Ends all runs that are running or waiting.
        breakOff() {
            if (!this.waiting.size) return;
            this.worker.terminate();
            const broken = [...this.waiting.values()];
            this.waiting.clear();
            this.start();
            for (const settle of broken) settle(BROKEN_OFF);
        }
    }

    Cnum.load = load;
    Cnum.Runner = Runner;
})();
