// The gateway: responds to requests that tools send to Confluent's registry, from reads that avroreg serves.
//
// It sends avroreg GET, and POST of compatibility checks. It sends no write. If avroreg refuses a read, the client gets that
// refusal. maps.conf chooses the route of a request.

import reads from 'reads.js';
import requests from 'target.js';
import lists from 'lists.js';
import schemas from 'schemas.js';
import checks from 'checks.js';

const PAGES = ['offset', 'limit'];

// The function of each route, and the parameters that it supports, of those that change the meaning of a response.
const ROUTES = {
    root: {body: lists.root, parameters: []},
    contexts: {body: lists.contexts, parameters: PAGES},
    text_of_id: {body: lists.text_of_id, parameters: []},
    subjects_of_id: {body: lists.subjects_of_id, parameters: PAGES},
    versions_of_id: {body: lists.versions_of_id, parameters: PAGES},
    referenced_by: {body: lists.referenced_by, parameters: PAGES},
    subjects: {body: lists.subjects, parameters: PAGES.concat('subjectPrefix', 'deletedOnly')},
    versions: {body: lists.versions, parameters: PAGES.concat('deletedOnly')},
    schemas: {body: schemas.schemas, parameters: PAGES.concat('subjectPrefix', 'latestOnly')},
    check: {body: checks.check, parameters: ['verbose']},
};

function send(r, status, body) {
    r.headersOut['Content-Type'] = 'application/vnd.schemaregistry.v1+json';
    r.return(status, body);
}

/** Responds to a request. After a fault of the gateway the status is 502, and never a verdict. */
async function respond(r) {
    const route = ROUTES[r.variables.gateway_route];
    try {
        const requested = new requests.Target(r.variables.registry_target);
        requested.allow_only(route.parameters);
        const body = await route.body(r, requested);
        send(r, 200, body);
    } catch (e) {
        if (e instanceof reads.Refusal && e.body) {
            send(r, e.status, e.body);
        } else {
            r.error('gateway: ' + r.variables.gateway_route + ': ' + (e.stack || e.message || 'avroreg did not respond'));
            r.return(e instanceof reads.Refusal ? e.status : 502);
        }
    }
}

export default {respond};
