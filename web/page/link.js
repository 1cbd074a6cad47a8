// What the address of the page holds behind its #: the table, the limit, the run of the protocol, and the part
// that is shown alone. A link so shows all of it again.
var Cnum = globalThis.Cnum || {};

(() => {
    'use strict';

    const { run, say } = Cnum;
    const { kinds } = Cnum.plans;
    const FORM = 'deflate'; // with a checksum
    const OLD_FORM = 'deflate-raw'; // of links that older pages made
    const FIRST_BYTE = 0x78; // of a text in the form with a checksum
    const MOST_INPUT = 2n ** 64n - 1n;
    const VIEWS = ['number', 'why', 'states', 'run', 'pairs', 'changes', 'exercise', 'solution'];
    // The screens of the page; the first one is shown if nothing else is said. On a wide window the table is beside each.
    const SCREENS = ['why', 'change', 'run', 'print', 'table'];

    // Why a link cannot be shown.
    class Refused extends Error {}

    function refuse(key, words) {
        throw new Refused(say(key, words));
    }

    async function through(bytes, stream) {
        const answer = new Response(new Blob([bytes]).stream().pipeThrough(stream));
        return new Uint8Array(await answer.arrayBuffer());
    }

    async function packed(text) {
        const bytes = await through(new TextEncoder().encode(text), new CompressionStream(FORM));
        return btoa(String.fromCharCode(...bytes)).replace(/\+/g, '-').replace(/\//g, '_').replace(/=+$/, '');
    }

    async function unpacked(letters) {
        try {
            const bytes = Uint8Array.from(atob(letters.replace(/-/g, '+').replace(/_/g, '/')), it => it.charCodeAt(0));
            const form = bytes[0] === FIRST_BYTE ? FORM : OLD_FORM;
            return new TextDecoder('utf-8', { fatal: true }).decode(await through(bytes, new DecompressionStream(form)));
        } catch {
            return refuse('link_table');
        }
    }

    // A list of processes. Each takes a step, or stops if an x stands before it, or crashes if a c does.
    const SIGNS = { x: run.STOP, c: run.CRASH };
    const signOf = does => Object.keys(SIGNS).find(it => SIGNS[it] === does) || '';
    const wordOf = ({ process, does }) => signOf(does) + process;
    const actOf = word => ({ process: Number(word.slice(-1)), does: SIGNS[word[0]] || run.STEP });

    // How the value of each part is read.
    const READ = {
        example(name) {
            const isThere = Cnum.examples.some(group => group.types.some(it => it.path === name));
            return isThere ? { example: name } : refuse('link_example', { name });
        },
        table: async letters => ({ text: await unpacked(letters) }),
        limit: limit => (/^[2-8]$/.test(limit) ? { limit: Number(limit) } : refuse('link_limit', { limit })),
        inputs(value) {
            const inputs = value.split(',');
            const wrong = inputs.find(it => !Cnum.isInput(it));
            return wrong === undefined ? { inputs } : refuse('link_inputs', { input: wrong });
        },
        run(value) {
            const words = value.split(',').filter(Boolean);
            const wrong = words.find(it => !/^[xc]?[0-7]$/.test(it));
            return wrong === undefined ? { acts: words.map(actOf) } : refuse('link_run', { step: wrong });
        },
        crashes: value => (value === 'yes' ? { comeBack: true } : refuse('link_crashes', { value })),
        reads: value => (value === 'no' ? { reads: false } : refuse('link_reads', { value })),
        plan: plan => (kinds.KINDS.includes(plan) ? { plan } : refuse('link_plan', { plan })),
        lang: lang => (lang in Cnum.languages ? { lang } : refuse('link_language', { lang })),
        view: view => (VIEWS.includes(view) ? { view } : refuse('link_view', { view })),
        screen: screen => (SCREENS.includes(screen) ? { screen } : refuse('link_screen', { screen })),
        try: value => (value === 'yes' ? { isTried: true } : refuse('link_try', { value })),
    };

    // The screens of views, and the screen of a link that names none: that of its view, or of the run, if it has one.
    const OF_VIEWS = { run: 'run', pairs: 'change', changes: 'change', exercise: 'print', solution: 'print' };
    const screenOf = ({ acts, isTried, view }) => OF_VIEWS[view] || (acts.length || isTried ? 'run' : SCREENS[0]);

    // Whether a process can propose what stands in its field.
    Cnum.isInput = text => /^\d{1,20}$/.test(text) && BigInt(text) <= MOST_INPUT;

    // The part of the address for what the page shows: the path of an example or a text, the limit if there is one,
    // whether processes crash and come back, whether objects can be read, the plan if it is not the shortest or if there is a
    // run, the inputs and the acts, whether one process more tries it, the screen, the part that is shown alone, and the language.
    Cnum.linkOf = async function ({ example, text, limit, comeBack, reads = true, plan, inputs, acts, isTried, screen, view, lang }) {
        const parts = [example ? `example=${example}` : `table=${await packed(text)}`];
        if (limit) parts.push(`limit=${limit}`);
        if (comeBack) parts.push('crashes=yes');
        if (!reads) parts.push('reads=no');
        if (plan && !comeBack && (plan !== kinds.SHORTEST || acts.length)) parts.push(`plan=${plan}`);
        if (acts.length) parts.push(`inputs=${inputs.join(',')}`, `run=${acts.map(wordOf).join(',')}`);
        if (isTried) parts.push('try=yes');
        if (screen && screen !== screenOf({ acts, isTried, view })) parts.push(`screen=${screen}`);
        if (view) parts.push(`view=${view}`);
        if (lang && lang !== Cnum.FIRST_LANGUAGE) parts.push(`lang=${lang}`);
        return `#${parts.join('&')}`;
    };

    // The language that such a part asks for, if there are texts in it; else the first one.
    Cnum.languageOf = function (hash) {
        const lang = new URLSearchParams(hash.slice(1)).get('lang');
        return lang in Cnum.languages ? lang : Cnum.FIRST_LANGUAGE;
    };

    async function read(hash) {
        const found = { inputs: [], acts: [] };
        const parts = new URLSearchParams(hash.slice(1));
        if (parts.has('example') && parts.has('table')) refuse('link_twice');
        for (const [key, value] of parts) {
            if (!Object.keys(READ).includes(key)) refuse('link_part', { part: key });
            Object.assign(found, await READ[key](value));
        }
        const crash = found.acts.find(it => it.does === run.CRASH);
        if (crash && !found.comeBack) refuse('link_crash', { step: wordOf(crash) });
        return found;
    }

    Cnum.links = { SCREENS, screenOf };

    // What such a part says; or why it cannot be shown, as its `fault`.
    Cnum.linkedBy = async function (hash) {
        try {
            return await read(hash);
        } catch (error) {
            if (error instanceof Refused) return { fault: error.message };
            throw error;
        }
    };
})();
