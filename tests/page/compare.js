// Compares the program of the page with the native one: runs each job of jobs.py, in a browser's page or in
// Node, and says which jobs differ. In Node, `node compare.js WEB JOBS` prints these and the time.
var Cnum = globalThis.Cnum || {};

// The differing jobs, each with the answer of the page's program: [number of the job, status, standard
// error].
Cnum.compare = async function () {
    'use strict';
    const bytesOf = text => Uint8Array.from(text, letter => letter.charCodeAt(0));
    async function digestOf(bytes) {
        const digest = new Uint8Array(await crypto.subtle.digest('SHA-256', bytes));
        return [...digest].map(it => it.toString(16).padStart(2, '0')).join('');
    }
    const stream = new Blob([bytesOf(atob(Cnum.packedModule))]).stream().pipeThrough(new DecompressionStream('gzip'));
    const run = Cnum.makeHost(await WebAssembly.compile(await new Response(stream).arrayBuffer()));
    const differing = [];
    let spent = 0;
    for (const [number, [words, stdin, files, status, stdout, stderr]] of Cnum.jobs.entries()) {
        const given = Object.fromEntries(Object.entries(files).map(([name, text]) => [name, bytesOf(Cnum.texts[text])]));
        const began = performance.now();
        let answer;
        try {
            answer = run(words, bytesOf(Cnum.texts[stdin]), given);
        } catch (error) {
            answer = { status: `trap: ${error.message}`, stdout: new Uint8Array(), stderr: new Uint8Array() };
        }
        spent += performance.now() - began;
        const isSame = answer.status === status && (await digestOf(answer.stdout)) === stdout && (await digestOf(answer.stderr)) === stderr;
        if (!isSame) differing.push([number, answer.status, new TextDecoder().decode(answer.stderr).slice(0, 200), answer.stdout.length]);
    }
    return { differing, seconds: spent / 1000 };
};

if (typeof process === 'object') {
    const fs = require('fs');
    const vm = require('vm');
    const [web, jobs] = process.argv.slice(2);
    globalThis.Cnum = Cnum;
    for (const file of [`${web}/cnum_wasm.js`, `${web}/page/host.js`, jobs]) vm.runInThisContext(fs.readFileSync(file, 'utf8'), file);
    Cnum.compare().then(answer => console.log(JSON.stringify(answer)));
}
