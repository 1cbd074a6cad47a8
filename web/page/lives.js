// Processes that crash and come back: what they remember, by the steps that the program tells, and what they forgot.
var Cnum = globalThis.Cnum || {};

(() => {
    'use strict';

    // What a process remembers after these events, by its own steps since its last crash: at which node of its path it is, with
    // which value, its last step there, and its decision if it has one.
    function memoryAfter(events, process, input, path) {
        const own = events.filter(it => it.process === process && it.kind !== 'stops');
        const life = own.slice(own.map(it => it.kind).lastIndexOf('crashes') + 1);
        const taken = life.filter(it => it.kind === 'takes');
        const [here, last = null] = [{ node: path[taken.length].node, value: taken.map(it => it.value).pop() || input }, life.pop()];
        if (last && last.kind === 'decides') return { ...here, decision: last.value };
        return { ...here, last: taken.includes(last) ? null : last };
    }

    // What a process forgot when it last crashed, or null.
    function forgottenBy(events, process) {
        const crash = events.filter(it => it.process === process && it.kind === 'crashes').pop();
        return crash ? crash.forgot : null;
    }

    Cnum.lives = { memoryAfter, forgottenBy };
})();
