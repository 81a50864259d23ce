// Compatibility checks with messages.
//
// The verdict is avroreg's one response to the client's own request. Messages come from later reads, and never change it. There is
// at least one message if avroreg refuses the schema, and none if it doesn't.

import reads from 'reads.js';
import reasons from 'reasons.js';

const MOST_REFUSALS = 5;        // versions that are named
const MOST_CHECKS = 50;         // versions that are checked
const MOST_MILLISECONDS = 2000; // of the reads after the verdict

/** The versions of a subject that the level compares with, from the last one on. */
async function compared_versions(r, path, level) {
    const versions = await reads.read(r, path);
    versions.reverse();
    return /_TRANSITIVE$/.test(level) ? versions.slice(0, MOST_CHECKS) : versions.slice(0, 1);
}

async function refusing_versions(r, target, level) {
    const path = '/' + target.parts.slice(2, 5).join('/'); // /subjects/S/versions
    if (target.parts[5] !== undefined) {
        const only = await reads.read(r, path + '/' + target.parts[5]);
        return [only];
    }
    const versions = await compared_versions(r, path, level);
    const found = [], end = Date.now() + MOST_MILLISECONDS;
    for (let i = 0; i < versions.length && found.length < MOST_REFUSALS && Date.now() < end; i++) {
        const compatible = await reads.check(r, '/compatibility' + path + '/' + versions[i]);
        if (!compatible) {
            const refusing = await reads.read(r, path + '/' + versions[i]);
            found.push(refusing);
        }
    }
    return found;
}

async function messages_of(r, target) {
    const config = await reads.read(r, '/config/' + target.parts[3] + '?defaultToGlobal=true');
    const level = config.compatibilityLevel;
    const text = JSON.parse(r.requestText).schema;
    const refusing = await refusing_versions(r, target, level);
    let messages = [];
    for (let i = 0; i < refusing.length; i++) {
        messages = messages.concat(reasons.of(level, text, refusing[i].schema));
        messages.push('{oldSchemaVersion: ' + refusing[i].version + '}', "{oldSchema: '" + refusing[i].schema + "'}");
    }
    messages.push("{compatibility: '" + level + "'}");
    return messages;
}

/** The messages of a refused check. The verdict remains if a read fails, or if somebody changes the registry meanwhile. */
async function messages_or_general(r, target) {
    let messages = [];
    try {
        messages = await messages_of(r, target);
    } catch (e) {
        r.log('gateway: no reasons: ' + (e.body || e.message || e));
    }
    if (messages.length < 2) {
        messages.unshift(reasons.general('The registry refuses the schema'));
    }
    return messages;
}

async function check(r, target) {
    const compatible = await reads.check(r, target.path);
    if (compatible) {
        return '{"is_compatible":true,"messages":[]}';
    }
    const messages = await messages_or_general(r, target);
    return JSON.stringify({is_compatible: false, messages: messages});
}

export default {check};
