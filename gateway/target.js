// The target of a request: the segments of its path, and its parameters.

import reads from 'reads.js';

// Parameters that change the meaning of a response, in lower case, with the values that change nothing.
const MEANINGFUL = {verbose: /^false$/i, deletedonly: /^(false)?$/i, subjectprefix: /^$/, latestonly: /^(false)?$/i, offset: /^0$/, limit: /^(-1|0)$/};

function decoded(text) {
    try {
        return decodeURIComponent(text.replace(/\+/g, ' '));
    } catch (e) {
        throw reads.fault(40001, 'Malformed request');
    }
}

/** A pair of form data. nginx has rejected names with an escape. */
function pair_of(text) {
    const at = text.indexOf('=');
    return at < 0 ? {name: text, value: ''} : {name: text.substring(0, at), value: text.substring(at + 1)};
}

function Target(text) {
    const at = text.indexOf('?');
    this.path = at < 0 ? text : text.substring(0, at);
    this.parts = this.path.split('/');
    this.pairs = at < 0 ? [] : text.substring(at + 1).split('&').map(pair_of);
}

/** The first value of a parameter, as in avroreg; '' if there is none. */
Target.prototype.text = function (name) {
    for (let i = 0; i < this.pairs.length; i++) {
        if (this.pairs[i].name === name) {
            return decoded(this.pairs[i].value);
        }
    }
    return '';
};

Target.prototype.flag = function (name) {
    const value = this.text(name).toLowerCase();
    if (value !== 'true' && value !== 'false' && value !== '') {
        throw reads.fault(422, name + ' is neither true nor false');
    }
    return value === 'true';
};

Target.prototype.number = function (name, missing) {
    const value = this.text(name);
    if (value === '') {
        return missing;
    }
    if (!/^-?[0-9]{1,9}$/.test(value)) {
        throw reads.fault(422, name + ' is not a number');
    }
    return Number(value);
};

/** The page of a list that offset and limit select. As in Confluent's registry, only a positive limit is one. */
Target.prototype.page = function (list) {
    const offset = Math.max(0, this.number('offset', 0));
    const limit = this.number('limit', -1);
    return list.slice(offset, limit > 0 ? offset + limit : list.length);
};

/** Rejects a parameter that a route would ignore, although it would change the response of Confluent's registry. */
Target.prototype.allow_only = function (names) {
    for (let i = 0; i < this.pairs.length; i++) {
        const pair = this.pairs[i];
        const harmless = MEANINGFUL[pair.name.toLowerCase()];
        if (harmless && names.indexOf(pair.name) < 0 && !harmless.test(pair.value)) {
            throw reads.fault(422, pair.name + ' is not supported here');
        }
    }
};

export default {Target};
