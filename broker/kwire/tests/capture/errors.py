"""errors.py FILE: numbers of errors with librdkafka's names, and whether kafka-python takes them for retriable ('-' where it has none)."""
import ctypes, inspect, sys
import kafka.errors

library = ctypes.CDLL("librdkafka.so.1")
library.rd_kafka_err2name.restype = ctypes.c_char_p
retriable = {it.errno: str(it.retriable).lower() for _, it in inspect.getmembers(kafka.errors, inspect.isclass) if hasattr(it, "errno")}
with open(sys.argv[1], "w") as out:
    print("# Number, librdkafka 2.0.2's name, kafka-python 2.0.2's retriable (tests/capture/errors.py).", file=out)
    for number in range(-1, 98):
        print(number, library.rd_kafka_err2name(number).decode(), retriable.get(number, "-"), file=out)
