// The search over the examples by words of engineers: node --test tests/page/searches.js
const assert = require('node:assert/strict');
const fs = require('node:fs');
const path = require('node:path');
const { describe, it } = require('node:test');
const vm = require('node:vm');

const WEB = path.join(__dirname, '../../web');
globalThis.Cnum = {};
for (const part of ['examples', 'page/texts_en', 'page/texts_de', 'page/texts', 'page/elements', 'page/answers', 'page/example_search']) {
    vm.runInThisContext(fs.readFileSync(path.join(WEB, `${part}.js`), 'utf8'), part);
}
const { Cnum } = globalThis;
const index = Cnum.exampleIndex();
const names = query => Cnum.foundExamples(index, query).map(it => it.name);

// A word, and the first example that it finds.
const FIRST = {
    TAS: 'test_and_set',
    'test-and-set': 'test_and_set',
    spinlock: 'test_and_set_reset',
    mutex: 'trylock_unlock',
    lock: 'trylock_unlock',
    futex: 'cas_3',
    rwlock: 'rwlock_try',
    semaphore: 'semaphore_3',
    CAS: 'cas_3',
    'compare and swap': 'cas_3',
    cmpxchg: 'cas_3',
    compareAndSet: 'cas_3_bool',
    cmpxchg16b: 'dcas_2x2',
    FAA: 'fetch_add_mod4',
    'fetch-and-add': 'fetch_add_mod4',
    xadd: 'fetch_add_mod4',
    LDADD: 'fetch_add_mod4',
    getAndAdd: 'fetch_add_mod4',
    xchg: 'swap_3',
    exchange: 'swap_3',
    fetch_max: 'fetch_max_4',
    bts: 'bit_change_2bit',
    'LL/SC': 'll_sc_2',
    ldxr: 'll_sc_2',
    'lr/sc': 'll_sc_2',
    fifo: 'queue_2',
    lifo: 'stack_2',
    heap: 'priority_queue_2',
    channel: 'mailbox_refuse',
    mailbox: 'mailbox_refuse',
    once: 'once_cell',
    Arc: 'arc_drop_upgrade',
    shared_ptr: 'arc_drop_upgrade',
    overflow: 'wrapping_add_1_2',
    atomicInc: 'cuda_inc_dec_2_2',
    GPU: 'cuda_inc_dec_2_2',
    x86: 'cas_3',
    ARM: 'll_sc_2',
    'RISC-V': 'riscv_amo_3bit',
    crash: 'test_and_set',
    'Plotkin 1989': 'sticky_bit_flush',
    'augmented queue': 'queue_1',
    'max register': 'max_register_4',
    Warteschlange: 'queue_2',
    'load linked': 'll_sc_2',
};

describe('words of engineers', () => {
    for (const [word, first] of Object.entries(FIRST)) {
        it(`${word} finds ${first} first`, () => assert.equal(names(word)[0], first));
    }

    it('finds what each list has, in its order', () => {
        for (const [word, wanted] of Object.entries(Cnum.exampleWords)) {
            const found = names(word).filter(it => wanted.includes(it));
            assert.deepEqual([...new Set(found)], [...wanted].sort((a, b) => (b === word) - (a === word)), word);
        }
    });

    it('finds a word that is not typed to its end', () => assert.equal(names('cmpx')[0], 'cas_3'));

    it('does not find the inside of a word', () => assert.ok(!names('arc').includes('priority_queue_2') && !names('arm').includes('memory_move_2')));

    it('finds by the instructions and calls of the catalogue', () => {
        assert.deepEqual(['ldumax', 'atomicMax', 'putIfAbsent', 'amocas.q'].map(it => names(it)[0]), ['fetch_max_4', 'fetch_max_4', 'swap_if_zero', 'dcas_2x2']);
    });

    it('finds by a language and by an operation', () => {
        assert.ok(names('java').includes('queue_2') && names('c11').includes('swap_4') && names('release').includes('weighted_semaphore_3'));
    });

    it('finds by two words', () => assert.deepEqual(names('x86 xadd')[0], 'fetch_add_mod4'));
});

describe('what is said of examples', () => {
    const examples = Cnum.examples.flatMap(group => group.types);
    const LEANING = ['As with', 'As the ', 'As in', 'Wie bei', 'Wie in', 'below', '{1}'];

    for (const code of Object.keys(Cnum.languages)) {
        it(`stands alone in ${Cnum.languages[code].name}`, () => {
            for (const { path: example, said } of examples) {
                assert.ok(said[code].length > 40 && said[code].endsWith('.'), example);
                assert.deepEqual(LEANING.filter(it => said[code].includes(it)), [], example);
            }
            assert.deepEqual(Cnum.examples.filter(it => !it.names[code]), []);
        });
    }

    it('is in the language of the reader', () => {
        const [{ about }] = examples;
        Cnum.useLanguage('de');
        assert.ok(about.startsWith('A bit') && examples[0].about.startsWith('Ein Bit'));
        assert.equal(Cnum.examples[1].name, 'Zahl 1');
        Cnum.useLanguage();
        assert.equal(examples[0].about, about);
    });
});
