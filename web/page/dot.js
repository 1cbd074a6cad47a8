// Reads the language DOT, as far as `draw` writes it: nodes, and arrows with a label of lines `operation/response`.
var Cnum = globalThis.Cnum || {};

(() => {
    'use strict';

    const TOKEN = /\s*("(?:[^"\\]|\\.)*"|->|\w+|[^\s\w"])/y;

    function tokensOf(text) {
        const found = [];
        TOKEN.lastIndex = 0;
        for (let token = TOKEN.exec(text); token; token = TOKEN.exec(text)) found.push(token[1]);
        return found;
    }

    // The statements between the braces, each as its tokens.
    function statementsOf(tokens) {
        const statements = [[]];
        for (const token of tokens.slice(tokens.indexOf('{') + 1, tokens.lastIndexOf('}'))) {
            if (token === ';') statements.push([]);
            else statements[statements.length - 1].push(token);
        }
        return statements;
    }

    const isName = token => token.startsWith('"');
    const nameOf = token => token.slice(1, -1);

    // The lines of a label, each with its operation.
    function linesOf(tokens) {
        const label = nameOf(tokens[tokens.indexOf('label') + 2]);
        return label.split('\\l').filter(Boolean).map(text => ({ text, operation: text.split('/')[0] }));
    }

    // The graph in a text: the names of its nodes, and its arrows, each { from, to, lines } with the places of its
    // nodes. A line is { text, operation }.
    Cnum.graphOf = function (text) {
        const names = [];
        const arrows = [];
        for (const tokens of statementsOf(tokensOf(text))) {
            if (!tokens.length || !isName(tokens[0])) continue;
            if (tokens[1] !== '->') names.push(nameOf(tokens[0]));
            else arrows.push({ from: nameOf(tokens[0]), to: nameOf(tokens[2]), lines: linesOf(tokens) });
        }
        const placed = it => ({ ...it, from: names.indexOf(it.from), to: names.indexOf(it.to) });
        return { names, arrows: arrows.map(placed) };
    };

    // The same graph with the lines of these operations alone.
    Cnum.graphWith = function ({ names, arrows }, isShown) {
        const kept = arrows.map(it => ({ ...it, lines: it.lines.filter(({ operation }) => isShown(operation)) }));
        return { names, arrows: kept.filter(it => it.lines.length) };
    };

    // The same graph with some states as one. Of each { state, class } the class stands for the state, which may be itself, and
    // no operation tells the two apart.
    Cnum.mergedGraph = function ({ names, arrows }, merged) {
        const classes = new Map(merged.map(it => [it.state, it.class]));
        const classOf = name => classes.get(name) || name;
        const kept = names.filter(it => classOf(it) === it);
        const placeOf = name => kept.indexOf(classOf(name));
        const joined = new Map();
        for (const { from, to, lines } of arrows.filter(it => kept.includes(names[it.from]))) {
            const ends = { from: placeOf(names[from]), to: placeOf(names[to]) };
            const key = `${ends.from} ${ends.to}`;
            joined.set(key, { ...ends, lines: [...(joined.has(key) ? joined.get(key).lines : []), ...lines] });
        }
        return { names: kept, arrows: [...joined.values()] };
    };

    // The operations that a graph names, each once.
    Cnum.operationsOf = ({ arrows }) => [...new Set(arrows.flatMap(it => it.lines.map(({ operation }) => operation)))].sort();
})();
