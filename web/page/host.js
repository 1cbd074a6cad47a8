// Runs the program: this is its side of the words, files and streams that web/host/streams.c asks for. Each run is
// a fresh instance of the module. The texts of these functions also make the worker of web/page/program.js, so they
// name nothing outside themselves but each other.
var Cnum = globalThis.Cnum || {};

// Runs a compiled module with these words, each as bytes, over streams. It answers the exit status. Standard input is
// the stream 0, standard output 1, and standard error 2. Of the streams, `open` takes a name as bytes and gives the
// number of a stream, `read` fills a part of the memory, and `write` takes the bytes of one; both give the count of
// bytes. Each gives a number below 0 if it fails, and `write` the error of the system as that.
Cnum.runModule = function (module, words, streams) {
    'use strict';
    class Exit {
        constructor(status) {
            this.status = status;
        }
    }
    const line = [new TextEncoder().encode('cnum'), ...words];
    let instance;
    // A number that comes as an address or a length has 32 bits and no sign.
    const part = (from, count) => new Uint8Array(instance.exports.memory.buffer, from >>> 0, count >>> 0);
    const page = {
        word(index, to, most) {
            const word = line[index >>> 0];
            if (!word) return -1;
            if (word.length > most >>> 0) return -2;
            part(to, most).set(word);
            return word.length;
        },
        open: (name, length) => streams.open(part(name, length)),
        read: (number, to, most) => streams.read(number, part(to, most)),
        write: (number, from, count) => streams.write(number, part(from, count)),
        close: number => streams.close(number),
        exit(status) {
            throw new Exit(status);
        },
    };
    instance = new WebAssembly.Instance(module, { page });
    try {
        return instance.exports.run();
    } catch (end) {
        if (!(end instanceof Exit)) throw end;
        return end.status;
    }
};

// Gives, for a compiled module, the function that runs it with all that it reads and writes in memory. The function
// takes the words of the command line, standard input, and files by their names, as texts or bytes. It answers the
// exit status, and the bytes of standard output and standard error.
Cnum.makeHost = function (module) {
    'use strict';
    const encoder = new TextEncoder();
    const bytesOf = given => (typeof given === 'string' ? encoder.encode(given) : given);

    function joined(parts) {
        const whole = new Uint8Array(parts.reduce((sum, part) => sum + part.length, 0));
        let at = 0;
        for (const part of parts) {
            whole.set(part, at);
            at += part.length;
        }
        return whole;
    }

    const INPUT_OUTPUT = 5;

    return function run(words, stdin = '', files = {}) {
        const opened = new Map([[0, { bytes: bytesOf(stdin), at: 0 }]]);
        const written = { 1: [], 2: [] };
        const streams = {
            open(name) {
                const file = new TextDecoder().decode(name);
                if (!Object.keys(files).includes(file)) return -1;
                const number = Math.max(2, ...opened.keys()) + 1;
                opened.set(number, { bytes: bytesOf(files[file]), at: 0 });
                return number;
            },
            read(number, to) {
                const file = opened.get(number);
                if (!file) return -1;
                const next = file.bytes.subarray(file.at, file.at + to.length);
                to.set(next);
                file.at += next.length;
                return next.length;
            },
            write(number, from) {
                if (!written[number]) return -INPUT_OUTPUT;
                written[number].push(from.slice());
                return from.length;
            },
            close(number) {
                opened.delete(number);
                return 0;
            },
        };
        const status = Cnum.runModule(module, words.map(bytesOf), streams);
        return { status, stdout: joined(written[1]), stderr: joined(written[2]) };
    };
};
