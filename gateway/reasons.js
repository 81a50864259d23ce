// Why two schemas are incompatible: a second opinion for people, by the cases of docs/avro-registry-profile.md, Schema resolution.
// The messages have the form of Confluent's registry.

import nodes from 'nodes.js';

const MOST_VISITS = 5000;  // pairs of types: nginx's only thread examines them
const MOST_TEXT = 262144;  // bytes of a schema
const MOST_REASONS = 20;   // of one direction
const PROMOTED = {int: ['long', 'float', 'double'], long: ['float', 'double'], float: ['double'], string: ['bytes'], bytes: ['string']};

const capital = (text) => text.charAt(0).toUpperCase() + text.substring(1);
const last_part = (name) => name.substring(name.lastIndexOf('.') + 1);

function reason(type, description, additional) {
    return {type: type, description: description, additional: additional};
}

/** Finds the reasons why a reader can't read what a writer wrote. The names, `new` or `old`, are for the messages. */
function Walk(reader_name, writer_name) {
    this.reader_schema = 'the ' + reader_name + ' schema';
    this.writer_schema = 'the ' + writer_name + ' schema';
    this.assumed = {};
    this.failed = {};
    this.open = [];
    this.visits = 0;
}

/** The reasons for a pair of nodes. A pair that is being examined counts as compatible until one of its parts fails. */
Walk.prototype.reasons = function (reader, writer, path) {
    const pair = reader.place + ' ' + writer.place;
    if (this.assumed[pair]) {
        return [];
    }
    if (this.failed[pair]) {
        return [reason('TYPE_MISMATCH', "The type (path '" + path + "') does not match, as at its first place", '')];
    }
    if (++this.visits > MOST_VISITS) {
        throw new Error('too many pairs of types');
    }
    const from = this.open.length;
    this.assumed[pair] = true;
    this.open.push(pair);
    const found = this.examine(reader, writer, path);
    if (found.length) {
        this.fail(pair, from);
    }
    return found;
};

/** What was assumed since this pair may depend on it. */
Walk.prototype.fail = function (pair, from) {
    while (this.open.length > from) {
        delete this.assumed[this.open.pop()];
    }
    this.failed[pair] = true;
};

Walk.prototype.examine = function (reader, writer, path) {
    if (writer.kind === 'union') {
        return this.every_branch(reader, writer, path);
    }
    if (reader.kind === 'union') {
        return this.some_branch(reader, writer, path);
    }
    if (reader.kind !== writer.kind) {
        const is_promoted = PROMOTED[writer.kind] && PROMOTED[writer.kind].indexOf(reader.kind) >= 0;
        return is_promoted ? [] : [this.mismatch(reader, writer, path)];
    }
    if (nodes.PRIMITIVE[reader.kind]) {
        return [];
    }
    if (reader.items) {
        return this.reasons(reader.items, writer.items, path + (reader.kind === 'array' ? '/items' : '/values'));
    }
    if (last_part(reader.name) !== last_part(writer.name) && reader.aliases.indexOf(writer.name) < 0) {
        return [reason('NAME_MISMATCH', "The name of the schema has changed (path '" + path + "')", 'expected: ' + writer.name)];
    }
    return reader.fields ? this.fields(reader, writer, path) : reader.symbols ? this.symbols(reader, writer, path) : this.size(reader, writer, path);
};

Walk.prototype.mismatch = function (reader, writer, path) {
    return reason('TYPE_MISMATCH', "The type (path '" + path + "') of a field in " + this.reader_schema + ' does not match with ' +
        this.writer_schema, 'reader type: ' + reader.kind.toUpperCase() + ' not compatible with writer type: ' + writer.kind.toUpperCase());
};

Walk.prototype.every_branch = function (reader, writer, path) {
    let found = [];
    for (let i = 0; i < writer.branches.length; i++) {
        found = found.concat(this.reasons(reader, writer.branches[i], path + '/' + i));
    }
    return found;
};

/** If the reader has a branch of the writer's name, the reasons in that branch say more than a missing branch. */
Walk.prototype.some_branch = function (reader, writer, path) {
    let named = null;
    for (let i = 0; i < reader.branches.length; i++) {
        const branch = reader.branches[i];
        const each = this.reasons(branch, writer, path + '/' + i);
        if (each.length === 0) {
            return [];
        }
        if (writer.name && branch.kind === writer.kind && last_part(branch.name) === last_part(writer.name)) {
            named = each;
        }
    }
    return named || [reason('MISSING_UNION_BRANCH', capital(this.reader_schema) + " is missing a type inside a union field at path '" + path +
        "' in " + this.writer_schema, 'reader union lacking writer type: ' + writer.kind.toUpperCase())];
};

/** The writer's field with the reader's name, otherwise with the first of its aliases that names one. */
function source_of(field, sources) {
    let source = sources['f ' + field.name];
    for (let i = 0; !source && i < field.aliases.length; i++) {
        source = sources['f ' + field.aliases[i]];
    }
    return source;
}

Walk.prototype.fields = function (reader, writer, path) {
    const sources = {};
    let found = [];
    for (let i = 0; i < writer.fields.length; i++) {
        sources['f ' + writer.fields[i].name] = writer.fields[i];
    }
    for (let i = 0; i < reader.fields.length; i++) {
        const field = reader.fields[i], at = path + '/fields/' + i, source = source_of(field, sources);
        if (source) {
            found = found.concat(this.reasons(field.type, source.type, at + '/type'));
        } else if (!field.has_default) {
            found.push(reason('READER_FIELD_MISSING_DEFAULT_VALUE', "The field '" + field.name + "' at path '" + at +
                "' in " + this.reader_schema + ' has no default value and is missing in ' + this.writer_schema, field.name));
        }
    }
    return found;
};

Walk.prototype.symbols = function (reader, writer, path) {
    const missing = reader.has_default ? [] : writer.symbols.filter((symbol) => reader.symbols.indexOf(symbol) < 0);
    const names = '[' + missing.join(', ') + ']';
    return missing.length ? [reason('MISSING_ENUM_SYMBOLS', capital(this.reader_schema) + " is missing enum symbols '" + names +
        "' at path '" + path + "/symbols' in " + this.writer_schema, names)] : [];
};

Walk.prototype.size = function (reader, writer, path) {
    return reader.size !== writer.size ? [reason('FIXED_SIZE_MISMATCH', "The size of FIXED type field at path '" + path + "' in " +
        this.reader_schema + ' does not match with ' + this.writer_schema, 'expected: ' + writer.size + ', found: ' + reader.size)] : [];
};

function message(type, description, additional) {
    return "{errorType:'" + type + "', description:'" + description + "', additionalInfo:'" + additional + "'}";
}

/** A message without a reason. */
function general(description) {
    return message('INCOMPATIBLE', description, '');
}

/** The messages of one direction. */
function of_direction(reader, writer, reader_name, writer_name) {
    return new Walk(reader_name, writer_name).reasons(reader, writer, '').slice(0, MOST_REASONS).map((each) =>
        message(each.type, each.description, each.additional));
}

/** The messages for a new and an old schema under a level. */
function of(level, new_text, old_text) {
    if (new_text.length > MOST_TEXT || old_text.length > MOST_TEXT) {
        return [general('The schema is too large for a search of reasons')];
    }
    try {
        const new_tree = nodes.tree_of(new_text), old_tree = nodes.tree_of(old_text);
        const backward = /^(BACKWARD|FULL)/.test(level) ? of_direction(new_tree, old_tree, 'new', 'old') : [];
        const forward = /^(FORWARD|FULL)/.test(level) ? of_direction(old_tree, new_tree, 'old', 'new') : [];
        return backward.concat(forward);
    } catch (e) {
        return [general('The reasons are not known: ' + e.message)];
    }
}

export default {of, general};
