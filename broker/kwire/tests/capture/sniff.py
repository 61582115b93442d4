"""sniff.py PORT FILE: keeps the frames of each request and response between local clients and 127.0.0.1:PORT, until a signal comes.

Needs root (a packet socket). A line of FILE: request's key and version, 'request' or 'response', the frame in hex, size and all.
"""
import collections, signal, socket, struct, sys

port, out = int(sys.argv[1]), open(sys.argv[2], "w")
sock = socket.socket(socket.AF_PACKET, socket.SOCK_DGRAM, socket.htons(0x0800))
sock.bind(("lo", 0))
sock.setsockopt(socket.SOL_SOCKET, socket.SO_RCVBUF, 64 << 20)
streams = collections.defaultdict(lambda: [None, b""])  # (source, target) -> next sequence number, bytes
asked = collections.defaultdict(dict)  # client's port -> correlation id -> (key, version)
signal.signal(signal.SIGTERM, lambda *_: (out.close(), sys.exit(0)))
print("ready", flush=True)
while True:
    packet, address = sock.recvfrom(1 << 17)
    if address[2] == socket.PACKET_OUTGOING or packet[9] != 6:
        continue
    tcp = packet[(packet[0] & 15) * 4 : struct.unpack(">H", packet[2:4])[0] or None]
    source, target, sequence = struct.unpack(">HHI", tcp[:8])
    data = tcp[(tcp[12] >> 4) * 4 :]
    if port not in (source, target) or not data:
        continue
    stream = streams[source, target]
    if stream[0] is None:
        stream[0] = sequence
    if sequence != stream[0]:
        continue  # sent again
    stream[0] = (sequence + len(data)) & 0xFFFFFFFF
    stream[1] += data
    while len(stream[1]) >= 4 and len(stream[1]) >= (size := 4 + struct.unpack(">i", stream[1][:4])[0]):
        frame, stream[1] = stream[1][:size], stream[1][size:]
        if target == port:
            key, version, correlation = struct.unpack(">hhi", frame[4:12])
            asked[source][correlation] = key, version
            print(key, version, "request", frame.hex(), file=out, flush=True)
        else:
            key, version = asked[target].pop(struct.unpack(">i", frame[4:8])[0], (-1, -1))
            print(key, version, "response", frame.hex(), file=out, flush=True)
