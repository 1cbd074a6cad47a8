// The keys of the protocol: they work wherever the focus is, as soon as the page is there, if the run is seen and no field
// takes the key.
var Cnum = globalThis.Cnum || {};

(() => {
    'use strict';

    const { run } = Cnum;

    // A number lets that process take a step, with Shift it stops, and behind a c it crashes. The letter u takes back what
    // came last. `isSeen` tells whether the run is.
    Cnum.listenToRunKeys = function (protocol, isSeen) {
        let isBehindC = false;

        function does(event) {
            return isBehindC ? run.CRASH : event.shiftKey ? run.STOP : run.STEP;
        }

        document.addEventListener('keydown', event => {
            if (!Cnum.isPlainKey(event) || !protocol.plan || !isSeen()) return;
            const digit = /^(?:Digit|Numpad)([0-7])$/.exec(event.code);
            if (digit && Number(digit[1]) < protocol.plan.processes) protocol.act(Number(digit[1]), does(event));
            else if (event.code === 'KeyU') protocol.undo();
            else if (event.code !== 'KeyC' || !protocol.plan.comeBack) return;
            isBehindC = event.code === 'KeyC';
            event.preventDefault();
        });
    };
})();
