import java.io.ByteArrayOutputStream;
import java.io.IOException;
import java.io.InputStream;
import java.io.OutputStream;
import java.net.HttpURLConnection;
import java.net.URI;
import java.net.URL;
import java.net.http.HttpClient;
import java.net.http.HttpRequest;
import java.net.http.HttpResponse;
import java.nio.ByteBuffer;
import java.nio.charset.StandardCharsets;
import java.util.Collections;
import org.apache.avro.Schema;
import org.apache.avro.SchemaCompatibility;
import org.apache.avro.generic.GenericData;
import org.apache.avro.generic.GenericDatumReader;
import org.apache.avro.generic.GenericDatumWriter;
import org.apache.avro.generic.GenericRecord;
import org.apache.avro.io.BinaryEncoder;
import org.apache.avro.io.DecoderFactory;
import org.apache.avro.io.EncoderFactory;
import org.codehaus.jackson.JsonNode;
import org.codehaus.jackson.map.ObjectMapper;
import org.codehaus.jackson.node.DoubleNode;

/**
 * Sends the requests of Confluent's Java client with the HTTP library that the client uses, and compares each response. The
 * methods, paths, parameters, fields and bodies come from the client's documentation and source; the client itself isn't run.
 * Avro's own Java library makes and parses the schemas, and encodes and decodes the messages.
 *
 * <pre>java -cp avro.jar:jackson-core-asl.jar:jackson-mapper-asl.jar:slf4j-api.jar examples/clients/java/Confluent.java URL [PREFIX [nginx|gateway]]</pre>
 */
public final class Confluent {
    private static final String TYPE = "application/vnd.schemaregistry.v1+json";
    private static final ObjectMapper JSON = new ObjectMapper();

    private final String url;
    private final String front;

    /** `front` is `nginx`, `gateway`, or empty for avroreg alone. */
    private Confluent(String url, String front) {
        this.url = url;
        this.front = front;
    }

    /** A response: its status and its body as JSON. */
    private record Response(int status, JsonNode json) {
        int code() {
            return json.get("error_code").asInt();
        }
    }

    private static void checkEqual(Object wanted, Object found) {
        if (!wanted.equals(found)) {
            throw new AssertionError("wanted " + wanted + ", found " + found);
        }
    }

    /** Sends a request as the client's `RestService` does. */
    private Response call(String method, String path, String body) throws IOException {
        HttpURLConnection connection = (HttpURLConnection) new URL(url + path).openConnection();
        connection.setConnectTimeout(60_000);
        connection.setReadTimeout(60_000);
        connection.setRequestMethod(method);
        connection.setDoInput(true);
        connection.setRequestProperty("Content-Type", TYPE);
        connection.setUseCaches(false);
        if (body != null) {
            connection.setDoOutput(true);
            try (OutputStream out = connection.getOutputStream()) {
                out.write(body.getBytes(StandardCharsets.UTF_8));
                out.flush();
            }
        }
        int status = connection.getResponseCode();
        try (InputStream in = status < 400 ? connection.getInputStream() : connection.getErrorStream()) {
            return new Response(status, JSON.readTree(in.readAllBytes()));
        }
    }

    /** The body of a registration, a lookup or a check. */
    private static String bodyOf(Schema schema) throws IOException {
        return JSON.writeValueAsString(Collections.singletonMap("schema", schema.toString()));
    }

    private static Schema order(String prefix, String otherFields) {
        return new Schema.Parser().parse("{\"type\":\"record\",\"name\":\"" + prefix
            + "Order\",\"fields\":[{\"name\":\"id\",\"type\":\"long\"}" + otherFields + "]}");
    }

    private int register(String subject, Schema schema) throws IOException {
        Response response = call("POST", "/subjects/" + subject + "/versions?normalize=false", bodyOf(schema));
        checkEqual(200, response.status());
        return response.json().get("id").asInt();
    }

    private void checkRejected(int code, Response response) {
        checkEqual(code, response.code());
        checkEqual(Integer.parseInt(String.valueOf(code).substring(0, 3)), response.status());
    }

    /** The calls of serializers (register or look up a schema, encode a message) and of deserializers (get a schema by its id). */
    private void checkMessages(String subject, Schema first, Schema second) throws IOException {
        checkRejected(40401, call("POST", "/subjects/" + subject + "?normalize=false&deleted=false", bodyOf(first)));
        int one = register(subject, first);
        int two = register(subject, second);
        checkEqual(one, register(subject, first));
        Response found = call("POST", "/subjects/" + subject + "?normalize=false&deleted=true", bodyOf(first));
        checkEqual("1 " + one, found.json().get("version").asInt() + " " + found.json().get("id").asInt());

        GenericRecord order = new GenericData.Record(second);
        order.put("id", 7L);
        order.put("note", "paid");
        ByteArrayOutputStream message = new ByteArrayOutputStream();
        message.write(0);
        message.write(ByteBuffer.allocate(4).putInt(two).array());
        BinaryEncoder encoder = EncoderFactory.get().directBinaryEncoder(message, null);
        new GenericDatumWriter<GenericRecord>(second).write(order, encoder);

        ByteBuffer received = ByteBuffer.wrap(message.toByteArray());
        checkEqual((byte) 0, received.get());
        int id = received.getInt();
        Response schema = call("GET", "/schemas/ids/" + id + "?fetchMaxId=false&subject=" + subject, null);
        Schema writer = new Schema.Parser().parse(schema.json().get("schema").asText());
        byte[] encoded = new byte[received.remaining()];
        received.get(encoded);
        GenericRecord read = new GenericDatumReader<GenericRecord>(writer, first)
            .read(null, DecoderFactory.get().binaryDecoder(encoded, null));
        checkEqual(7L, read.get("id"));
        checkRejected(40403, call("GET", "/schemas/ids/2147483647?fetchMaxId=false&subject=" + subject, null));
    }

    /** The calls of tools: versions, compatibility checks, levels, modes and deletions. */
    private void checkAdministration(String subject, Schema first, Schema second, Schema incompatible) throws IOException {
        checkEqual("[1,2]", call("GET", "/subjects/" + subject + "/versions", null).json().toString());
        checkEqual(2, call("GET", "/subjects/" + subject + "/versions/latest", null).json().get("version").asInt());
        String check = "/compatibility/subjects/" + subject + "/versions";
        for (Schema schema : new Schema[] {first, second, incompatible}) {
            // Avro's own library must agree
            boolean isCompatible = SchemaCompatibility.checkReaderWriterCompatibility(schema, second).getType()
                == SchemaCompatibility.SchemaCompatibilityType.COMPATIBLE;
            JsonNode response = call("POST", check + "/latest?normalize=false&verbose=false", bodyOf(schema)).json();
            checkEqual(isCompatible, response.get("is_compatible").asBoolean());
            checkVerbose(check, schema, isCompatible);
        }
        if (front.equals("gateway")) {
            checkReads(subject);
        } else {
            checkRejected(404, call("POST", check + "/?normalize=false&verbose=false", bodyOf(second)));
        }
        checkRejected(409, call("POST", "/subjects/" + subject + "/versions?normalize=false", bodyOf(incompatible)));

        checkEqual("FULL", call("PUT", "/config/" + subject, "{\"compatibility\":\"FULL\"}").json().get("compatibility").asText());
        checkEqual("FULL", call("GET", "/config/" + subject, null).json().get("compatibilityLevel").asText());
        checkEqual("READONLY", call("PUT", "/mode/" + subject + "?force=false", "{\"mode\":\"READONLY\"}").json().get("mode").asText());
        // the schema is registered already, but READONLY comes first
        checkRejected(42205, call("POST", "/subjects/" + subject + "/versions?normalize=false", bodyOf(first)));
        checkEqual(200, call("POST", "/subjects/" + subject + "?normalize=false&deleted=false", bodyOf(first)).status());
        checkEqual("READWRITE", call("PUT", "/mode/" + subject + "?force=false", "{\"mode\":\"READWRITE\"}").json().get("mode").asText());
        checkEqual("1", call("DELETE", "/subjects/" + subject + "/versions/1?permanent=false", null).json().toString());
        checkEqual("[2]", call("GET", "/subjects/" + subject + "/versions?deleted=false", null).json().toString());
        checkEqual("[1,2]", call("GET", "/subjects/" + subject + "/versions?deleted=true", null).json().toString());
        checkEqual("[2]", call("DELETE", "/subjects/" + subject + "?permanent=false", null).json().toString());
        checkEqual("[1,2]", call("DELETE", "/subjects/" + subject + "?permanent=true", null).json().toString());
    }

    /**
     * The client's `testCompatibilityVerbose`, which the Maven plugin calls too: a schema is compatible if there are no messages.
     * avroreg alone sends none, so the client would accept every schema. nginx rejects such a check.
     */
    private void checkVerbose(String check, Schema schema, boolean isCompatible) throws IOException {
        Response response = call("POST", check + "?normalize=false&verbose=true", bodyOf(schema));
        if (front.isEmpty()) {
            checkEqual("{\"is_compatible\":" + isCompatible + "}", response.json().toString());
        } else if (front.equals("nginx")) {
            checkRejected(422, response);
        } else {
            for (String path : new String[] {check + "/", check + "/latest", check}) {
                JsonNode found = call("POST", path + "?normalize=false&verbose=true", bodyOf(schema)).json();
                checkEqual(isCompatible, found.get("messages").size() == 0);
                checkEqual(isCompatible, found.get("is_compatible").asBoolean());
            }
        }
    }

    /** Reads that only the gateway serves: `getAllSubjectsById`, `getSchemas`, `getAllSubjectsByPrefix`, `getAllContexts` and others. */
    private void checkReads(String subject) throws IOException {
        int id = call("GET", "/subjects/" + subject + "/versions/1", null).json().get("id").asInt();
        checkEqual("[\"" + subject + "\"]", call("GET", "/schemas/ids/" + id + "/subjects?deleted=false", null).json().toString());
        checkEqual(2, call("GET", "/schemas?subjectPrefix=" + subject + "&deleted=false&latestOnly=false", null).json().size());
        checkEqual("[\"" + subject + "\"]", call("GET", "/subjects?deleted=false&subjectPrefix=:*:" + subject, null).json().toString());
        checkEqual("[]", call("GET", "/subjects/" + subject + "/versions/1/referencedby", null).json().toString());
        checkEqual("[\".\"]", call("GET", "/contexts", null).json().toString());
        checkEqual("record", call("GET", "/schemas/ids/" + id + "/schema", null).json().get("type").asText());
    }

    /** Default values as Avro's Java library prints them, such as the default of a DOUBLE column that Debezium copies. */
    private void checkNumbers(String prefix) throws IOException {
        String path = "/subjects/" + prefix + "numbers-value/versions?normalize=false";
        for (double value : new double[] {0.0, 1.0, 9999999.0, 10000000.0, 1.0E10, 0.5}) {
            String name = prefix + "Number" + (long) (value * 10);
            Schema.Field field = new Schema.Field("price", Schema.create(Schema.Type.DOUBLE), null, new DoubleNode(value));
            Schema schema = Schema.createRecord(name, null, null, false, Collections.singletonList(field));
            boolean isInteger = value == Math.rint(value) && !schema.toString().contains("E");
            checkEqual(value >= 10_000_000, schema.toString().contains("E"));
            Response response = call("POST", path, bodyOf(schema));
            if (isInteger) {
                checkEqual(200, response.status());
                checkEqual(200, call("DELETE", "/subjects/" + prefix + "numbers-value/versions/latest", null).status());
            } else {
                checkRejected(42201, response);
            }
        }
    }

    /** Java's newer HTTP library offers HTTP/2 first, which avroreg doesn't support. */
    private void checkNewerHttpLibrary() throws IOException, InterruptedException {
        HttpClient client = HttpClient.newBuilder().version(HttpClient.Version.HTTP_2).build();
        for (int at = 0; at < 3; at++) {
            HttpResponse<String> response = client.send(
                HttpRequest.newBuilder(URI.create(url + "/config")).header("Content-Type", TYPE)
                    .PUT(HttpRequest.BodyPublishers.ofString("{\"compatibility\":\"BACKWARD\"}")).build(),
                HttpResponse.BodyHandlers.ofString());
            checkEqual("200 HTTP_1_1 {\"compatibility\":\"BACKWARD\"}", response.statusCode() + " " + response.version() + " " + response.body());
        }
    }

    public static void main(String[] arguments) throws Exception {
        String prefix = arguments.length > 1 ? arguments[1] : "";
        String subject = prefix + "orders-value";
        Schema first = order(prefix, "");
        Schema second = order(prefix, ",{\"name\":\"note\",\"type\":\"string\",\"default\":\"\"}");
        Schema incompatible = order(prefix, ",{\"name\":\"total\",\"type\":\"double\"}");
        Confluent registry = new Confluent(arguments[0], arguments.length > 2 ? arguments[2] : "");
        registry.checkMessages(subject, first, second);
        registry.checkAdministration(subject, first, second, incompatible);
        registry.checkNumbers(prefix);
        registry.checkNewerHttpLibrary();
        System.out.println("kafka-schema-registry-client, replayed with avro " + Schema.class.getPackage().getImplementationVersion()
            + ": each response is right");
    }
}
