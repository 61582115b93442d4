"""pick.py CLIENT.frames ...: of what sniff.py kept of each client, the longest frame of each request and version, and all produced."""
import sys

print("# Frames between real clients and librdkafka 2.0.2's mock cluster: client, key, version, direction, frame. Made by tests/capture/.")
print("# rdkafka, flexible: confluent_kafka 1.7.0 over librdkafka 2.0.2. kcat: 1.7.1 over the same. python: kafka-python 2.0.2. sarama: 1.22.1.")
for path in sys.argv[1:]:
    client = path.removesuffix(".frames")
    kept = {}
    for line in open(path):
        *head, frame = line.split()
        if head == ["18", "3", "response"]:
            continue  # the mock cluster doesn't know that version, and answers in a form that is none of any version's
        many = head[0] == "0" and head[2] == "request"
        if len(frame) > len(kept.get((*head, frame if many else ""), "")):
            kept[(*head, frame if many else "")] = frame
    for head, frame in sorted(kept.items(), key=lambda it: (int(it[0][0]), int(it[0][1]), it[0][2])):
        print(client, *head[:3], frame)
