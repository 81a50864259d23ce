// Sends the requests of the JavaScript client @kafkajs/confluent-schema-registry with fetch, and compares each response.
// The methods, paths, fields and bodies come from the client's documentation and source; the client itself isn't run.
//
//   node examples/clients/node/kafkajs.mjs URL [PREFIX]     PREFIX of the subjects, which must be unused
import { deepStrictEqual } from "node:assert";

const [url, prefix = ""] = process.argv.slice(2);
const FIELDS = { "Content-Type": "application/vnd.schemaregistry.v1+json" };
const ORDER = { type: "record", name: `${prefix}Order`, namespace: "shop", fields: [{ name: "id", type: "long" }] };
const INCOMPATIBLE = { ...ORDER, fields: [...ORDER.fields, { name: "total", type: "double" }] };
const COMPATIBLE = { ...ORDER, fields: [...ORDER.fields, { name: "note", type: "string", default: "" }] };

async function call(method, path, body) {
  const response = await fetch(url + path, { method, headers: FIELDS, body: body && JSON.stringify(body) });
  return [response.status, await response.json()];
}

const encoded = encodeURIComponent;
const config = (subject) => call("GET", `/config/${encoded(subject)}`);
const setConfig = (subject, compatibility) => call("PUT", `/config/${encoded(subject)}`, { compatibility });
const registerCall = (subject, schema) =>
  call("POST", `/subjects/${encoded(subject)}/versions`, { schemaType: "AVRO", schema: JSON.stringify(schema) });

/** The client's `register`: it reads the subject's level and registers the schema. If the subject had no level, it sets one. */
async function register(subject, schema, compatibility = "BACKWARD") {
  const [status, level] = await config(subject);
  if (status === 200 && level.compatibilityLevel !== compatibility) throw new Error("Compatibility does not match the configuration");
  const registered = await registerCall(subject, schema);
  if (status === 404 && registered[0] === 200) deepStrictEqual(await setConfig(subject, compatibility), [200, { compatibility }]);
  return registered;
}

const subject = `${prefix}orders-value`;
deepStrictEqual(await call("PUT", "/config", { compatibility: "FULL" }), [200, { compatibility: "FULL" }]);

deepStrictEqual((await config(subject))[1].error_code, 40408);
const [status, { id }] = await register(subject, ORDER);
deepStrictEqual([status, typeof id], [200, "number"]);
// the subject now has its own level, which replaces the stricter global one
deepStrictEqual(await config(subject), [200, { compatibilityLevel: "BACKWARD" }]);
deepStrictEqual(await register(subject, ORDER), [200, { id }]);
deepStrictEqual((await register(subject, INCOMPATIBLE))[1].error_code, 409);
const [, second] = await register(subject, COMPATIBLE);

// if the given level isn't the subject's, the client registers nothing
let message = "";
await register(subject, COMPATIBLE, "FULL").catch((error) => (message = error.message));
deepStrictEqual(message, "Compatibility does not match the configuration");

// the client's `getSchema`, `getLatestSchemaId`, `getRegistryId` and `getRegistryIdBySchema`
const [, byId] = await call("GET", `/schemas/ids/${second.id}`);
deepStrictEqual(JSON.parse(byId.schema).name, `shop.${prefix}Order`);
deepStrictEqual((await call("GET", `/subjects/${encoded(subject)}/versions/latest`))[1].id, second.id);
deepStrictEqual((await call("GET", `/subjects/${encoded(subject)}/versions/1`))[1].id, id);
deepStrictEqual((await call("POST", `/subjects/${encoded(subject)}`, { schemaType: "AVRO", schema: JSON.stringify(ORDER) }))[1].id, id);
deepStrictEqual((await call("POST", `/subjects/${encoded(subject)}`, { schemaType: "AVRO", schema: JSON.stringify(INCOMPATIBLE) }))[1].error_code, 40403);
deepStrictEqual((await call("GET", "/schemas/ids/2147483647"))[1].error_code, 40403);
deepStrictEqual(await call("PUT", "/config", { compatibility: "BACKWARD" }), [200, { compatibility: "BACKWARD" }]);
console.log("@kafkajs/confluent-schema-registry, replayed with fetch: each response is right");
