"""flexible.py FILE: flexible versions that the mock cluster doesn't know, as librdkafka asks them of a broker that this program plays."""
import os, socket, struct, sys, threading
from confluent_kafka import Consumer, KafkaException, Producer, TopicPartition
from confluent_kafka.admin import AdminClient

listener = socket.create_server(("127.0.0.1", 0))
port = listener.getsockname()[1]
out = open(sys.argv[1], "w")
ranges = {0: 7, 3: 1, 9: 7, 10: 1, 16: 4, 18: 0, 22: 4, 24: 0, 25: 0, 26: 0, 28: 3}  # key: greatest version
broker = struct.pack(">i", 1) + b"\0\x09127.0.0.1" + struct.pack(">i", port)
answers = {
    3: struct.pack(">i", 1) + broker + b"\xff\xff\0\0\0\1" + b"\0\0\0\1\0\0\0\3pay\0" + struct.pack(">ihiiiiii", 1, 0, 0, 1, 1, 1, 1, 1),
    10: struct.pack(">ih", 0, 0) + b"\xff\xff" + broker,
    22: b"\0" + struct.pack(">ihqhb", 0, 0, 4001, 9, 0),
    24: struct.pack(">ii", 0, 1) + b"\0\3pay" + struct.pack(">iih", 1, 0, 0),
    25: struct.pack(">ih", 0, 0),
    28: b"\0" + struct.pack(">i", 0) + b"\2\4pay\2" + struct.pack(">ih", 0, 0) + b"\0\0\0",
}


def serve(connection):
    while size := connection.recv(4, socket.MSG_WAITALL):
        body = connection.recv(struct.unpack(">i", size)[0], socket.MSG_WAITALL)
        key, version, correlation = struct.unpack(">hhi", body[:8])
        print(key, version, "request", (size + body).hex(), file=out, flush=True)
        table = struct.pack(">i", len(ranges)) + b"".join(struct.pack(">hhh", it, 0, most) for it, most in ranges.items())
        answer = (b"\0\x23" if version else b"\0\0") + table if key == 18 else answers.get(key)
        if answer is not None:
            answer = struct.pack(">i", correlation) + answer
            connection.sendall(struct.pack(">i", len(answer)) + answer)


def accept():
    while True:
        threading.Thread(target=serve, args=(listener.accept()[0],), daemon=True).start()


threading.Thread(target=accept, daemon=True).start()
server = {"bootstrap.servers": f"127.0.0.1:{port}", "client.id": "till"}
place = TopicPartition("pay", 0, 2)
consumer = Consumer({**server, "group.id": "ledger"})
producer = Producer({**server, "transactional.id": "till-1"})
producer.init_transactions(10)
producer.begin_transaction()
for wish in (
    lambda: AdminClient(server).list_groups(timeout=2),
    lambda: consumer.committed([place], 2),
    lambda: producer.send_offsets_to_transaction([place], consumer.consumer_group_metadata(), 3),
):
    try:
        wish()
    except KafkaException as error:
        print(error)
os._exit(0)  # without a goodbye that nobody would answer
