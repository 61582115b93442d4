"""python.py ADDRESS: produces and reads in a group, by kafka-python."""
import sys
from kafka import KafkaConsumer, KafkaProducer, TopicPartition
from kafka.structs import OffsetAndMetadata

server = {"bootstrap_servers": sys.argv[1], "client_id": "till"}
producer = KafkaProducer(acks="all", **server)
print(producer.send("pay", b"ten", key=b"k1", headers=[("currency", b"EUR")], timestamp_ms=1700000000123).get(10))
consumer = KafkaConsumer("pay", group_id="ledger", auto_offset_reset="earliest", enable_auto_commit=False, **server)
print(next(consumer))
place = TopicPartition("pay", 0)
consumer.commit({place: OffsetAndMetadata(1, "note")})
print(consumer.committed(place), consumer.end_offsets([place]), consumer.offsets_for_times({place: 1700000000000}))
consumer.close()
producer.close()
