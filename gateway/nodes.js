// A schema as a tree of nodes with full names. avroreg has accepted the schema, so only its shape matters here.

const PRIMITIVE = {null: 1, boolean: 1, int: 1, long: 1, float: 1, double: 1, bytes: 1, string: 1};

const full_name = (name, space) => name.indexOf('.') >= 0 || !space ? name : space + '.' + name;
const namespace_of = (name) => name.indexOf('.') < 0 ? '' : name.substring(0, name.lastIndexOf('.'));

function Builder() {
    this.names = {};
    this.count = 0;
}

Builder.prototype.node = function (kind) {
    return {kind: kind, place: this.count++};
};

/** The node of a primitive type's name or of a reference. */
Builder.prototype.named = function (name, space) {
    if (PRIMITIVE[name]) {
        return this.node(name);
    }
    const found = this.names['n ' + full_name(name, space)] || this.names['n ' + name];
    if (!found) {
        throw new Error('undefined name ' + name);
    }
    return found;
};

Builder.prototype.union = function (branches, space) {
    const node = this.node('union');
    node.branches = [];
    for (let i = 0; i < branches.length; i++) {
        node.branches.push(this.build(branches[i], space));
    }
    return node;
};

Builder.prototype.fields = function (fields, space) {
    const built = [];
    for (let i = 0; i < fields.length; i++) {
        const type = this.build(fields[i].type, space);
        built.push({name: fields[i].name, aliases: fields[i].aliases || [], has_default: fields[i].default !== undefined, type: type});
    }
    return built;
};

/** The node of a record, enum or fixed type. Its name is known inside it. */
Builder.prototype.definition = function (json, space) {
    const node = this.node(json.type);
    const own_space = json.name.indexOf('.') < 0 && typeof json.namespace === 'string' ? json.namespace : space;
    node.name = full_name(json.name, own_space);
    this.names['n ' + node.name] = node;
    const inner = namespace_of(node.name);
    node.aliases = (json.aliases || []).map((alias) => full_name(alias, inner));
    node.symbols = json.symbols;
    node.has_default = json.default !== undefined;
    node.size = json.size;
    if (json.type === 'record') {
        node.fields = this.fields(json.fields, inner);
    }
    return node;
};

Builder.prototype.build = function (json, space) {
    if (typeof json === 'string') {
        return this.named(json, space);
    }
    if (Array.isArray(json)) {
        return this.union(json, space);
    }
    if (json.type === 'record' || json.type === 'enum' || json.type === 'fixed') {
        return this.definition(json, space);
    }
    if (json.type !== 'array' && json.type !== 'map') {
        return this.build(json.type, space);
    }
    const node = this.node(json.type);
    node.items = this.build(json.type === 'array' ? json.items : json.values, space);
    return node;
};

/** The root of a schema's tree. */
function tree_of(text) {
    return new Builder().build(JSON.parse(text), '');
}

export default {tree_of, PRIMITIVE};
