// The routes that need one or two reads.

import reads from 'reads.js';

const parameter = (deleted) => deleted ? '?deleted=true' : '';

/** Reports whether the registry responds, for load balancers. */
async function root(r, target) {
    await reads.read(r, '/config');
    return '{}';
}

async function contexts(r, target) {
    return JSON.stringify(target.page(['.']));
}

async function text_of_id(r, target) {
    const found = await reads.read(r, '/schemas/ids/' + target.parts[3]);
    return found.schema;
}

async function uses_of_id(r, target) {
    const uses = await reads.read(r, '/schemas/ids/' + target.parts[3] + '/versions' + parameter(target.flag('deleted')));
    return uses;
}

async function versions_of_id(r, target) {
    const uses = await uses_of_id(r, target);
    return JSON.stringify(target.page(uses));
}

async function subjects_of_id(r, target) {
    const uses = await uses_of_id(r, target);
    const names = [];
    for (let i = 0; i < uses.length; i++) { // in order of subjects
        if (names[names.length - 1] !== uses[i].subject) {
            names.push(uses[i].subject);
        }
    }
    return JSON.stringify(target.page(names));
}

/** avroreg accepts no schema that refers to another one. So nothing refers to a version, if the version exists. */
async function referenced_by(r, target) {
    await reads.read(r, target.parts.slice(0, 5).join('/') + '?deleted=true');
    return '[]';
}

/** `:*:` means all contexts, and `:.:` the default one, the only one here. */
function without_context(prefix) {
    return /^:[*.]:/.test(prefix) ? prefix.substring(3) : prefix;
}

function difference(all, live) {
    const names = {};
    for (let i = 0; i < live.length; i++) {
        names['n ' + live[i]] = true;
    }
    return all.filter((each) => !names['n ' + each]);
}

/** The subjects of which every version is deleted. In this order of the two reads, each of them was soft-deleted at some moment
    between the reads. In the other order a live subject could be among them. */
async function deleted_names(r) {
    const all = await reads.read(r, '/subjects?deleted=true');
    const live = await reads.read(r, '/subjects');
    return difference(all, live);
}

async function names_of(r, target) {
    const prefix = without_context(target.text('subjectPrefix'));
    let names;
    if (target.flag('deletedOnly')) {
        names = await deleted_names(r);
    } else {
        names = await reads.read(r, '/subjects' + parameter(target.flag('deleted')));
    }
    return prefix === '' ? names : names.filter((name) => name.startsWith(prefix));
}

async function subjects(r, target) {
    const names = await names_of(r, target);
    return JSON.stringify(target.page(names));
}

async function deleted_versions(r, path) {
    const all = await reads.read(r, path + '?deleted=true');
    const live = await reads.ask(r, path); // 404 if no version is live
    const list = difference(all, live.status === 404 ? [] : JSON.parse(reads.passed(live).responseText));
    if (list.length === 0) {
        throw reads.fault(40401, 'Subject not found');
    }
    return list;
}

async function versions(r, target) {
    const path = target.parts.slice(0, 4).join('/');
    let list;
    if (target.flag('deletedOnly')) {
        list = await deleted_versions(r, path);
    } else {
        list = await reads.read(r, path + parameter(target.flag('deleted')));
    }
    return JSON.stringify(target.page(list));
}

export default {root, contexts, text_of_id, versions_of_id, subjects_of_id, referenced_by, subjects, versions, names_of, parameter};
