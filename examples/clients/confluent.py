#!/usr/bin/env python3
"""Makes the usual calls of both clients of Confluent's Python package, and compares each response.

    /usr/bin/python3 examples/clients/confluent.py URL [PREFIX [gateway]]     PREFIX of the subjects, which must be unused
"""
import logging
import sys

import confluent_kafka
import requests
from confluent_kafka import avro
from confluent_kafka.avro import AvroProducer, ClientError
from confluent_kafka.avro.cached_schema_registry_client import CachedSchemaRegistryClient
from confluent_kafka.avro.serializer.message_serializer import MessageSerializer
from confluent_kafka.schema_registry import Schema, SchemaReference, SchemaRegistryClient
from confluent_kafka.schema_registry.error import SchemaRegistryError


def record(name, *fields):
    return '{"type":"record","name":"%s","fields":[%s]}' % (name, ",".join(fields))


ID = '{"name":"id","type":"long"}'
NOTE = '{"name":"note","type":"string","default":""}'
TOTAL = '{"name":"total","type":"double"}'


def check_equal(wanted, found):
    assert wanted == found, f"wanted {wanted!r}, found {found!r}"


def check_rejected(status, code, call, *arguments):
    """Checks that the call is rejected with this status and code."""
    try:
        found = call(*arguments)
    except SchemaRegistryError as error:
        check_equal((status, code), (error.http_status_code, error.error_code))
    else:
        raise AssertionError(f"wanted {code}, found {found!r}")


def check_fails(beginning, call, *arguments):
    """Checks that the call fails with a message that begins with `beginning`."""
    try:
        found = call(*arguments)
    except ClientError as error:
        check_equal(beginning, error.message[:len(beginning)])
    else:
        raise AssertionError(f"wanted {beginning}, found {found!r}")


def send(producer, topic, value):
    producer.produce(topic=topic, value=value)


def set_mode(url, subject, mode):
    """Sets the mode of a subject. The clients have no call for this."""
    answer = requests.put(f"{url}/mode/{subject}", json={"mode": mode})
    check_equal((200, {"mode": mode}), (answer.status_code, answer.json()))
    check_equal({"mode": mode}, requests.get(f"{url}/mode/{subject}").json())


def check_version_minus_one(client, subject, latest, is_gateway):
    """`-1` is the latest version through the gateway, otherwise it is refused."""
    if is_gateway:
        found = client.get_version(subject, -1)
        check_equal((latest, 2), (found.schema_id, found.version))
    else:
        check_rejected(422, 42202, client.get_version, subject, -1)


def test_client(url, prefix, is_gateway):
    """Tests `SchemaRegistryClient`, which the serializers of the newer interface use."""
    subject, other = f"{prefix}orders-value", f"{prefix}a/b ü"
    first, second, third = (Schema(record(f"{prefix}Order", ID, *more), "AVRO") for more in ((), (NOTE,), (TOTAL,)))
    with SchemaRegistryClient({"url": url}) as client:
        check_rejected(404, 40401, client.get_versions, subject)
        check_rejected(404, 40408, client.get_compatibility, subject)
        check_equal({"compatibility": "FULL"}, client.set_compatibility(subject, "full"))
        check_equal("FULL", client.get_compatibility(subject))

        one = client.register_schema(subject, first)
        two = client.register_schema(subject, second)
        check_rejected(409, 409, client.register_schema, subject, third)
        check_equal(False, client.test_compatibility(subject, third))
        check_equal(True, client.test_compatibility(subject, second, version=1))
        check_equal([1, 2], client.get_versions(subject))
        assert subject in client.get_subjects()

        found = client.get_latest_version(subject)
        check_equal((two, subject, 2), (found.schema_id, found.subject, found.version))
        check_equal(one, client.get_version(subject, 1).schema_id)
        check_equal(1, client.lookup_schema(subject, first).version)
        check_rejected(404, 40403, client.lookup_schema, subject, third)
        check_rejected(404, 40402, client.get_version, subject, 7)
        check_version_minus_one(client, subject, two, is_gateway)

        check_equal(two, client.register_schema(other, second))
        check_equal([1], client.get_versions(other))

    # A new client's cache is empty, so it sends requests.
    with SchemaRegistryClient({"url": url}) as client:
        by_id = client.get_schema(two)
        check_equal(2, client.lookup_schema(subject, by_id).version)
        check_rejected(404, 40403, client.get_schema, 2147483647)
        check_rejected(422, 42201, client.register_schema, subject, Schema("nonsense", "AVRO"))
        check_rejected(422, 42201, client.register_schema, subject, Schema('{"type":"object"}', "JSON"))
        reference = SchemaReference("Order", subject, 1)
        check_rejected(422, 42201, client.register_schema, subject, Schema(second.schema_str, "AVRO", [reference]))

        check_equal(1, client.delete_version(subject, 1))
        check_rejected(404, 40406, client.delete_version, subject, 1)
        check_equal([2], client.delete_subject(subject, permanent=True))
        check_rejected(404, 40401, client.get_versions, subject)
        check_equal([1], client.delete_subject(other, permanent=True))


def test_cached_client(url, prefix):
    """Tests `CachedSchemaRegistryClient`, which `AvroProducer` and `AvroConsumer` use. Encodes and decodes a message."""
    topic = f"{prefix}payments"
    subject = f"{topic}-value"
    first, second = (avro.loads(record(f"{prefix}Payment", ID, *more)) for more in ((), (NOTE,)))
    with CachedSchemaRegistryClient({"url": url}) as client:
        check_equal("FORWARD", client.update_compatibility("FORWARD", subject))
        check_equal("FORWARD", client.get_compatibility(subject))
        message = MessageSerializer(client).encode_record_with_schema(topic, second, {"id": 7, "note": "paid"})
        number = client.check_registration(subject, second)
        check_equal((0, number), (message[0], int.from_bytes(message[1:5], "big")))
        check_equal(True, client.test_compatibility(subject, first))
        check_equal(1, client.get_version(subject, second))

    with CachedSchemaRegistryClient({"url": url}) as client:
        check_equal({"id": 7, "note": "paid"}, MessageSerializer(client).decode_message(message))
        check_equal((number, 1), client.get_latest_schema(subject)[::2])
        check_equal((number, 1), client.get_by_version(subject, 1)[::2])
        check_equal([1], client.delete_subject(subject))
        check_equal((None, None, None), client.get_latest_schema(subject))


def test_producer_without_registration(url, prefix):
    """Tests `AvroProducer` with the setting of docs/clients.md. If a schema isn't registered, it rejects the message and sends
    nothing to Kafka, so no Kafka is needed here. Also checks the client's error messages."""
    topic = f"{prefix}refunds"
    subject = f"{topic}-value"
    first, second = (avro.loads(record(f"{prefix}Refund", *fields)) for fields in ((ID,), (ID, TOTAL)))
    producer = AvroProducer({"bootstrap.servers": "127.0.0.1:9", "log_level": 0, "schema.registry.url": url,
                             "schema.registry.auto.register.schemas": False}, default_value_schema=second)
    with CachedSchemaRegistryClient({"url": url}) as client:
        for _ in "without versions", "with another one":
            check_fails("Schema or subject not found:404", send, producer, topic, {"id": 7, "total": 1.0})
            number = client.register(subject, first)
        check_equal(number, client.check_registration(subject, first))
        check_fails("Incompatible Avro schema:409", client.register, subject, second)
        set_mode(url, subject, "READONLY")
        check_fails("Invalid Avro schema:422", client.register, subject, second)
        with SchemaRegistryClient({"url": url}) as other:
            third = Schema(record(f"{prefix}Refund", ID, NOTE), "AVRO")
            check_rejected(422, 42205, other.register_schema, subject, third)
            check_rejected(422, 42205, other.set_compatibility, subject, "NONE")
            check_rejected(422, 42205, other.delete_version, subject, 1)
            check_rejected(422, 42205, other.delete_subject, subject)
            check_equal(True, other.test_compatibility(subject, third))
            check_equal([1], other.get_versions(subject))
            set_mode(url, subject, "READWRITE")
            other.register_schema(subject, third)
            check_equal([1, 2], other.get_versions(subject))


def main():
    url, prefix = sys.argv[1], sys.argv[2] if len(sys.argv) > 2 else ""
    logging.disable()
    test_client(url, prefix, "gateway" in sys.argv[3:])
    test_cached_client(url, prefix)
    test_producer_without_registration(url, prefix)
    print(f"confluent-kafka {confluent_kafka.version()[0]}: both clients got the right responses")


if __name__ == "__main__":
    main()
