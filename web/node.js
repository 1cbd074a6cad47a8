#!/bin/sh
':' //; c=; (: 3<&0) 2>/dev/null || c=0; (: 3<&1) 2>/dev/null || c=${c}1; (: 3<&2) || c=${c}2; CNUM_CLOSED=$c exec node "$0" "$@"
// The program cnum on any machine with Node: web/node.js WORDS..
// It runs the module of the page over the words, files and streams of the system. So it answers as the native program
// does, but for `serve`, since a module starts no thread. Node opens streams that are closed; so the line above, which is
// for the shell alone, notes which of the three are.
'use strict';

const fs = require('fs');
const path = require('path');
const vm = require('vm');
const zlib = require('zlib');

const PAUSE = 5; // milliseconds until a stream that is not ready is asked again
const ERRORS = { EIO: 5, EPIPE: 32 }; // the errors that the program tells apart, by their numbers there
const STATUS = { missing: 4, failed: 134 };
const CLOSED = new Set([...(process.env.CNUM_CLOSED || '')].map(Number));
const NAMES = ['stdin', 'stdout', 'stderr'];

// What a call to the system gives; if it fails, its error as a number below 0. A stream that is not ready is asked
// until it is.
function answered(call) {
    for (;;) {
        try {
            return call();
        } catch (error) {
            if (error.code === 'EOF') return 0; // so a closed pipe ends on Windows
            if (error.code !== 'EAGAIN') return -(ERRORS[error.code] || ERRORS.EIO);
            Atomics.wait(new Int32Array(new SharedArrayBuffer(4)), 0, 0, PAUSE);
        }
    }
}

// The same over a stream, unless that is closed.
function asked(number, call) {
    return CLOSED.has(number) ? -ERRORS.EIO : answered(call);
}

// The stream that a name of the system stands for, if it is one.
function streamOf(name) {
    const [, end] = name.match(/^\/(?:dev|proc\/self)\/(?:fd\/)?([012]|std\w+)$/) || [];
    return NAMES.includes(end) ? NAMES.indexOf(end) : Number(end);
}

// The streams of the program are those of the system, by the same numbers.
const streams = {
    open: name => asked(streamOf(Buffer.from(name).toString()), () => fs.openSync(Buffer.from(name), 'r')),
    read: (number, to) => asked(number, () => fs.readSync(number, to, 0, to.length, null)),
    write: (number, from) => asked(number, () => fs.writeSync(number, from, 0, from.length)),
    close: number => answered(() => fs.closeSync(number) || 0),
};

// The words of the command line as bytes. Node puts a mark for what is not UTF-8; Linux keeps the bytes.
function words() {
    const given = process.argv.slice(2);
    const asTexts = given.map(it => Buffer.from(it));
    if (!given.some(it => it.includes('\ufffd'))) return asTexts;
    try {
        const line = fs.readFileSync('/proc/self/cmdline', 'latin1').split('\0').slice(0, -1);
        return line.slice(-given.length).map(it => Buffer.from(it, 'latin1'));
    } catch {
        return asTexts;
    }
}

// The compiled module, and what runs it.
function loaded() {
    globalThis.Cnum = {};
    for (const part of ['cnum_wasm.js', 'page/host.js']) {
        const file = path.join(__dirname, part);
        vm.runInThisContext(fs.readFileSync(file, 'utf8'), file);
    }
    const { packedModule, runModule } = globalThis.Cnum;
    return { runModule, module: new WebAssembly.Module(zlib.gunzipSync(Buffer.from(packedModule, 'base64'))) };
}

// Ends with this status after a line on standard error.
function fail(status, why) {
    streams.write(2, Buffer.from(`cnum: ${why}\n`));
    return status;
}

function main() {
    let program;
    try {
        program = loaded();
    } catch (error) {
        return fail(STATUS.missing, `the module beside web/node.js cannot be loaded: ${error.message}`);
    }
    try {
        return program.runModule(program.module, words(), streams);
    } catch (error) {
        return fail(STATUS.failed, `the module failed: ${error.message}`);
    }
}

process.exitCode = main();
