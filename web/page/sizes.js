// For how many processes the protocol is, and what the page says of that.
var Cnum = globalThis.Cnum || {};

(() => {
    'use strict';

    const { say } = Cnum;
    const MOST = 8; // processes of a protocol
    const AT_FIRST = 3; // of those of a type with no greatest number

    // The most processes that can be chosen. The shortest plan may be for more than the certificate, and that without reads
    // for fewer; `unread` is how many that is for, or null if it is another plan.
    function mostOf({ number, certified, comeBack, isOfCertificate, unread }) {
        if (unread !== null) return unread;
        return comeBack || isOfCertificate || certified === 1 ? certified : Math.min(MOST, Cnum.leastOf(number));
    }

    // For how many the protocol is if nobody chooses.
    const usual = (number, most) => (number === 'infinite' ? Math.min(AT_FIRST, most) : most);

    // The choice of a reader, or null if it is what is shown anyway.
    function chosen(limit, number, most) {
        const within = limit && Math.min(limit, most);
        return within === usual(number, most) ? null : within;
    }

    // What is said of the number of processes.
    function inWords({ number, most, limit, comeBack, isWithoutReads }) {
        const count = limit || usual(number, most);
        if (most < 2 || comeBack) return '';
        if (isWithoutReads) return say(limit ? 'evidence_chosen' : count < most ? 'evidence_first' : 'evidence_unread', { count, most });
        if (limit) return say('evidence_chosen', { count, most });
        if (count < most) return say('evidence_first', { count, most });
        return say(most < Cnum.leastOf(number) ? 'evidence_most' : 'evidence_whole', { count });
    }

    Cnum.sizes = { MOST, mostOf, usual, chosen, inWords };
})();
