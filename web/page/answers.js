// What the program answers, as values: its JSON, its numbers in words, and its faults as a sentence of the page with
// the line of the program behind it.
var Cnum = globalThis.Cnum || {};

(() => {
    'use strict';

    const { say } = Cnum;
    const EXACT = 15; // so many digits JavaScript holds exactly

    // The value of a JSON text. A greater number than JavaScript holds stands in it as a text.
    Cnum.exactValueOf = function (text) {
        const quoted = it => (it[0] !== '"' && it.length > EXACT ? `"${it}"` : it);
        return JSON.parse(text.replace(/"(?:[^"\\]|\\.)*"|\d+/g, quoted));
    };

    // The values of JSON texts with a line each.
    Cnum.valuesOf = text => text.split('\n').filter(Boolean).map(it => JSON.parse(it));

    // A number of `classify` in words, or what is known of the number without reads.
    Cnum.numberText = function (number) {
        if (number === 'infinite') return say('infinite');
        if (typeof number !== 'object') return String(number);
        const { at_least: least, at_most: most } = number;
        return most ? say('not_decided', { least, most }) : say('at_least', { least });
    };

    // The least and the greatest that a number can be.
    Cnum.leastOf = number => (number === 'infinite' ? Infinity : number.at_least || number);
    Cnum.mostOf = number => (typeof number === 'number' ? number : number.at_most || Infinity);

    // What a number says in one sentence: with reads, of processes that can read the whole state of an object too, and without
    // reads, of processes that have the operations of the table alone.
    Cnum.sentenceOf = (number, reads) => say(reads ? 'with_reads' : 'without_reads', { can: howManyCan(number) });

    // The question why a number is what it is.
    Cnum.questionOf = function (number) {
        if (number === 'infinite') return say('why_any_number');
        return typeof number === 'object' ? say('why_bounds') : say('why_this_number', { count: number, more: number + 1 });
    };

    function howManyCan(number) {
        const [count, most] = [Cnum.leastOf(number), Cnum.mostOf(number)];
        if (count === Infinity) return say('can_any');
        const more = most + 1;
        if (count === most) return count === 1 ? say('can_alone') : say('can_exactly', { count, more });
        if (most === Infinity) return count === 1 ? say('can_unknown') : say('can_at_least', { count });
        if (count === 1) return say('can_undecided', { more });
        return say('can_between', { count, more });
    }

    // The parts of a fault line: `cnum: SOURCE: NUMBER NAME PLACE`, or `cnum: ` and words. In `classify` the name of
    // standard input stands before them.
    Cnum.faultOf = function (line) {
        const words = line.trim().split(' ').slice(1).filter(it => it !== '-:');
        const [, number, name, place] = words;
        return Number(number) ? { name, place } : { name: words.join('_').split(':').join('') };
    };

    // The words that check a certificate: one by stocks has a version of its own, and so have one without reads and one of a plan.
    Cnum.wordsOfCheck = function (text) {
        const options = { 3: ['--stocks'], 4: ['--without-read'], 5: ['--shortest'] };
        try {
            return ['check', ...(options[JSON.parse(text).version] || [])];
        } catch {
            return ['check'];
        }
    };

    // What an answer of the program says that is a fault, in words. `check` also tells it as a value.
    Cnum.inWords = function ({ status, stderr }, fault = Cnum.faultOf(stderr)) {
        const named = `fault_${fault.name}`;
        const key = status === null ? 'fault_failed' : named in Cnum.texts ? named : 'fault_other';
        const { entry, join, node, operation, process, state } = fault;
        const place = [fault.place, node, process, entry, join, operation, state].find(it => it !== undefined);
        return say('in_words', { sentence: say(key, { place }), line: stderr.trim() });
    };
})();
