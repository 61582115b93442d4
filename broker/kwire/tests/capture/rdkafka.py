"""rdkafka.py ADDRESS: what a payment service's clients do, by librdkafka (confluent_kafka)."""
import sys
from confluent_kafka import Consumer, KafkaException, Producer, TopicPartition
from confluent_kafka.admin import AdminClient, NewTopic

server = {"bootstrap.servers": sys.argv[1], "client.id": "till"}
plain = Producer({**server, "acks": "all"})
plain.produce("pay", b"ten", b"k1", headers=[("currency", b"EUR")], timestamp=1700000000123)
plain.flush(10)
idempotent = Producer({**server, "enable.idempotence": True})
idempotent.produce("pay", b"twenty", timestamp=1700000000456)
idempotent.flush(10)
consumer = Consumer({**server, "group.id": "ledger", "auto.offset.reset": "earliest", "enable.auto.commit": False, "isolation.level": "read_committed"})
consumer.subscribe(["pay"])
read = [consumer.poll(10) for _ in range(2)]
consumer.commit(offsets=[TopicPartition("pay", 0, 2)], asynchronous=False)
print(consumer.committed([TopicPartition("pay", 0)], 10), consumer.get_watermark_offsets(TopicPartition("pay", 0), 10))
print(consumer.offsets_for_times([TopicPartition("pay", 0, 1700000000200)], 10))
transactional = Producer({**server, "transactional.id": "till-1", "transaction.timeout.ms": 30000})
transactional.init_transactions(10)
transactional.begin_transaction()
transactional.produce("pay", b"thirty")
transactional.send_offsets_to_transaction([TopicPartition("pay", 0, 2)], consumer.consumer_group_metadata(), 10)
transactional.commit_transaction(10)
consumer.close()
admin = AdminClient(server)
print(admin.list_topics(timeout=10).topics)
for wish in (lambda: admin.create_topics([NewTopic("new", 2, 1)], request_timeout=2)["new"].result(), lambda: admin.list_groups(timeout=2)):
    try:
        print(wish())
    except KafkaException as error:
        print(error)
