"""sarama, built here with Go and Debian's package of it: its odd batches are taken, and the same records come back."""
import os
import subprocess
import tempfile

from host import LONG, Host, check

HERE = os.path.dirname(os.path.abspath(__file__))
HOST = Host()
with tempfile.TemporaryDirectory() as room:
    paths = {"GO111MODULE": "off", "GOPATH": "/usr/share/gocode", "GOCACHE": os.environ.get("GOCACHE", f"{room}/cache"), "GOFLAGS": ""}
    built = subprocess.run(["go", "build", "-o", f"{room}/sarama", f"{HERE}/sarama.go"], env={**os.environ, **paths},
                           capture_output=True, text=True, check=False)
    check("it is built", built.returncode == 0, built.stderr)
    words = [f"{room}/sarama", HOST.bootstrap, HOST.topic, "300"]
    ran = subprocess.run(words, capture_output=True, text=True, timeout=2 * LONG, check=False)
check("600 records are produced, and read back in order", ran.returncode == 0, ran.stdout + ran.stderr)
