"""kcat: what is produced is consumed; metadata, offsets by time, a group; a compressed batch is refused."""
import subprocess

from host import LONG, Host, check

HOST = Host()


def kcat(*words, text=""):
    """What kcat prints; with its exit status and its words about errors."""
    ran = subprocess.run(["kcat", "-b", HOST.bootstrap, *words], input=text, capture_output=True, text=True, timeout=LONG, check=False)
    return ran.stdout, ran.returncode, ran.stderr


SENT = "".join(f"{number}\n" for number in range(1, 1001))
TOPIC = ("-t", HOST.topic, "-p", "0")
check("1,000 records are produced", kcat("-P", *TOPIC, text=SENT)[1] == 0)
check("the same come back", kcat("-C", *TOPIC, "-o", "beginning", "-e", "-q")[0] == SENT)
SAID = kcat("-L")[0]
check("three brokers and the topic", all(word in SAID for word in ("3 brokers", f'topic "{HOST.topic}"', "isrs: 0,1,2")), SAID)
check("the latest offset", "offset 1000" in kcat("-Q", "-t", f"{HOST.topic}:0:-1")[0])
check("the earliest offset", "offset 0" in kcat("-Q", "-t", f"{HOST.topic}:0:0")[0])
SAID = kcat("-P", *TOPIC, "-z", "gzip", text=SENT)[2]
check("a compressed batch is refused", "ompression" in SAID, SAID)
check("nothing of it is there", "offset 1000" in kcat("-Q", "-t", f"{HOST.topic}:0:-1")[0])
check("an idempotent producer", kcat("-P", *TOPIC, "-X", "enable.idempotence=true", text="more\n")[1] == 0)
SAID = kcat("-G", "group", HOST.topic, "-X", "auto.offset.reset=earliest", "-e", "-q")[0]
check("a group reads all of it", SAID == SENT + "more\n", len(SAID))
