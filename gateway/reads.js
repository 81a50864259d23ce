// Reads of avroreg, and the refusals that end a request.
//
// All files here are for njs 0.7.9 of Debian 12. It has no for-of, no spread, no destructuring, no default parameters, and no
// `await` in an argument.

const MOST_READS = 5000; // of one request

/** Ends a request with this status and body. */
function Refusal(status, body) {
    this.status = status;
    this.body = body;
}

/** A refusal with an error code and a message, as avroreg's. */
function fault(code, message) {
    return new Refusal(Number(String(code).substring(0, 3)), JSON.stringify({error_code: code, message: message}));
}

/** Returns a response with 200. If avroreg refused the read, the client gets that refusal. */
function passed(reply) {
    if (reply.status === 200) {
        return reply;
    }
    // nginx made its own 502 and 504. With an empty body, the client gets nginx's response to it.
    const is_own = reply.status < 500 || /^\{"error_code":5/.test(reply.responseText);
    throw new Refusal(reply.status, is_own ? reply.responseText : '');
}

function count_read(r) {
    const count = Number(r.variables.gateway_reads) + 1;
    if (count > MOST_READS) {
        throw fault(422, 'this request needs more than ' + MOST_READS + ' reads; use limit, latestOnly or subjectPrefix');
    }
    r.variables.gateway_reads = String(count);
}

/** Sends a GET, and returns the response. */
async function ask(r, target) {
    count_read(r);
    return await r.subrequest('/.registry/read', {args: target, method: 'GET'});
}

/** Sends a GET, and returns the JSON of a response with 200. */
async function read(r, target) {
    const reply = await ask(r, target);
    return JSON.parse(passed(reply).responseText);
}

/** Sends the client's body to a compatibility check, and returns the verdict. */
async function check(r, target) {
    count_read(r);
    const reply = await r.subrequest('/.registry/check', {args: target, method: 'POST', body: r.requestBuffer});
    return JSON.parse(passed(reply).responseText).is_compatible;
}

export default {Refusal, fault, passed, ask, read, check};
