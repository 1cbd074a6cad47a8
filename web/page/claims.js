// Files of other people: a table that is dropped becomes the text, and a certificate is checked by the table.
var Cnum = globalThis.Cnum || {};

(() => {
    'use strict';

    const { say } = Cnum;
    const BY_STOCKS = '--stocks';
    const CERTIFICATE = 'certificate';

    const at = id => document.getElementById(id);

    class Claims {
        // `ask` runs a command with files on the table that is shown, `take` makes a text the table, `table` gives it, and
        // `notice` tells something where the reader looks.
        constructor({ ask, take, table, notice, printed }) {
            Object.assign(this, { ask, takeTable: take, table, notice, printed });
            at('claim-file').addEventListener('change', () => this.check(at('claim-file').files[0]));
            this.listenToDrops();
        }

        // Takes away what was said of another table.
        clear() {
            at('claim-said').textContent = '';
            at('claim-told').replaceChildren();
            at('claim-file').value = '';
        }

        listenToDrops() {
            for (const [name, isOver] of [['dragover', true], ['dragleave', false], ['drop', false]]) {
                document.body.addEventListener(name, event => {
                    event.preventDefault();
                    document.body.classList.toggle('over', isOver);
                    if (name === 'drop') this.take(event.dataTransfer.files[0]);
                });
            }
        }

        async take(file) {
            if (!file) return;
            if (Cnum.isTableName(file.name)) {
                const table = Cnum.textOf(new Uint8Array(await file.arrayBuffer()));
                const editing = this.takeTable(table);
                this.notice(say('table_taken', { name: file.name }));
                await editing;
            } else {
                await this.check(file);
            }
        }

        // Checks a certificate of somebody else by this table.
        async check(file) {
            if (!file) return;
            const claim = new Uint8Array(await file.arrayBuffer());
            const words = Cnum.wordsOfCheck(new TextDecoder().decode(claim));
            const answer = await this.ask([...words, '--as', 'json', CERTIFICATE], { [CERTIFICATE]: claim });
            if (!answer) return;
            const { name } = file;
            const { ok, fault } = answer.stdout ? JSON.parse(answer.stdout) : {};
            const told = ok ? say('certificate_ok', { name }) : say('certificate_wrong', { name, why: Cnum.inWords(answer, fault) });
            at('certificate-tools').open = true;
            at('claim-said').textContent = told;
            this.notice(told);
            at('claim-told').replaceChildren();
            if (ok && words.includes(BY_STOCKS)) this.tell(claim);
        }

        // Tells why a certificate by stocks that is right has its bounds. One of another kind tells of the number what why does.
        tell(claim) {
            const printed = async () => this.printed(await this.ask(['explain', BY_STOCKS, '--all', CERTIFICATE], { [CERTIFICATE]: claim }));
            Cnum.showStockExplanation(at('claim-told'), JSON.parse(new TextDecoder().decode(claim)), this.table(), printed);
        }
    }

    Cnum.Claims = Claims;
})();
