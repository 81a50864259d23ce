// The list of all versions with their schemas. Each entry is avroreg's own response, byte for byte.
//
// The list isn't one transaction. It has each version that existed from the first read to the last one. A version that comes or
// goes meanwhile may be in it.

import reads from 'reads.js';
import lists from 'lists.js';

const MOST_ENTRIES = 1000;           // then the client has to page
const MOST_BYTES = 32 * 1024 * 1024; // of one list

function Page(target) {
    const limit = target.number('limit', -1);
    this.deleted = target.flag('deleted');
    this.latest = target.flag('latestOnly');
    this.to_skip = Math.max(0, target.number('offset', 0));
    this.most = limit > 0 ? Math.min(limit, MOST_ENTRIES) : MOST_ENTRIES;
    this.entries = [];
    this.bytes = 0;
}

Page.prototype.is_full = function () {
    return this.entries.length >= this.most;
};

Page.prototype.add = function (entry) {
    this.entries.push(entry);
    this.bytes += entry.length;
    if (this.bytes > MOST_BYTES) {
        throw reads.fault(422, 'the list is too large; use limit, latestOnly or subjectPrefix');
    }
};

/** The versions of a subject. There are none if somebody deletes the subject meanwhile. */
async function versions_of(r, path, page) {
    if (page.latest) {
        return ['latest'];
    }
    const listed = await reads.ask(r, path + lists.parameter(page.deleted));
    return listed.status === 404 ? [] : JSON.parse(reads.passed(listed).responseText);
}

async function add_subject(r, name, page) {
    const path = '/subjects/' + encodeURIComponent(name) + '/versions';
    const versions = await versions_of(r, path, page);
    for (let i = 0; i < versions.length && !page.is_full(); i++) {
        if (page.to_skip > 0) {
            page.to_skip--;
            continue;
        }
        const version = await reads.ask(r, path + '/' + versions[i] + lists.parameter(page.deleted));
        if (version.status !== 404) {
            page.add(reads.passed(version).responseText);
        }
    }
}

async function schemas(r, target) {
    const page = new Page(target);
    const names = await lists.names_of(r, target);
    for (let i = 0; i < names.length && !page.is_full(); i++) {
        await add_subject(r, names[i], page);
    }
    return '[' + page.entries.join(',') + ']';
}

export default {schemas};
