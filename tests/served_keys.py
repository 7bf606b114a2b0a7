"""A cluster of service/ whose brokers ask for TLS and for keys: who has none, another's, or trusts another authority,
is not heard."""

import json
import os
import re
import shutil
import subprocess
import tempfile
import time

import served

MACHINES = 5


def said_by(*words):
    return subprocess.run(words, stdin=subprocess.DEVNULL, capture_output=True, text=True, timeout=60)


class Locked(served.Cluster):
    """Three brokers that trust the keys of the configuration alone, and show a certificate of an authority of its own.
    """

    def write(self, brokers, values):
        super().write(brokers, values)
        for name in ("own", "other"):
            authority(f"{self.room}/{name}")
        with open(self.config, encoding="utf-8") as it:
            text = it.read().replace("nats://", "tls://")
        text = text.replace("[time]", f'ca = "{self.room}/own.pem"\nnkey = "{self.room}/client.nk"\n\n[time]')
        text = re.sub(r'name = "(m\d)"\n', rf'name = "\1"\nnkey = "{self.room}/\1.nk"\n', text)
        text = re.sub(r"number = (\d)\n", rf'number = \1\nnkey = "{self.room}/keeper-\1.nk"\n', text)
        with open(self.config, "w", encoding="utf-8") as it:
            it.write(text)
        self.keys = self.run("nkeys").stdout
        with open(f"{self.room}/auth.conf", "w", encoding="utf-8") as it:
            it.write(self.keys)
        for at in range(brokers):
            with open(f"{self.room}/broker-{at}.conf", "a", encoding="utf-8") as it:
                it.write(f'tls {{ cert_file: "{self.room}/own.broker.pem", key_file: "{self.room}/own.broker.key" }}\n')
                it.write("include auth.conf\n")

    def otherwise(self, name, old, new):
        """The path of a configuration that differs in one place."""
        with open(self.config, encoding="utf-8") as it:
            text = it.read()
        path = f"{self.room}/{name}.toml"
        with open(path, "w", encoding="utf-8") as it:
            it.write(text.replace(old, new))
        return path


def authority(path):
    """An authority, and the certificate of a broker on this machine that it signed."""
    new = ("openssl", "req", "-newkey", "ec", "-pkeyopt", "ec_paramgen_curve:prime256v1", "-nodes")
    with open(f"{path}.ext", "w", encoding="utf-8") as it:
        it.write("subjectAltName=IP:127.0.0.1\n")
    signed = ("-CA", f"{path}.pem", "-CAkey", f"{path}.key", "-CAcreateserial", "-extfile", f"{path}.ext")
    for words in (
        (*new, "-x509", "-subj", "/CN=authority", "-keyout", f"{path}.key", "-out", f"{path}.pem"),
        (*new, "-subj", "/CN=broker", "-keyout", f"{path}.broker.key", "-out", f"{path}.csr"),
        ("openssl", "x509", "-req", "-in", f"{path}.csr", "-days", "2", "-out", f"{path}.broker.pem", *signed),
    ):
        ran = said_by(*words)
        if ran.returncode != 0:
            raise RuntimeError(f"{words}: {ran.stderr}")


def all_of(checks):
    if not shutil.which("openssl"):
        print("keys and TLS are not tried: it lacks openssl: apt-get install -y openssl", flush=True)
        return
    room = tempfile.mkdtemp(prefix="service-keys-")
    cluster = Locked(f"{room}/a", brokers=3, machines=MACHINES)
    try:
        written(checks, cluster)
        masked(checks, cluster)
        refused(checks, cluster)
        cluster.stop()
        line, why, _ = cluster.audit()
        checks.check(line == "audit ok", line, why)
    finally:
        cluster.drop()
        shutil.rmtree(room)


def written(checks, cluster):
    """Keys are made once, for their owners alone to read."""
    again = cluster.run("nkeys").stdout
    checks.check(cluster.keys == again and again.count("nkey:") == MACHINES + 3, "nkeys says", again)
    for name in ("client", "m0", "keeper-2"):
        checks.check(os.stat(f"{cluster.room}/{name}.nk").st_mode & 0o77 == 0, name, "has a key that others can read")


def masked(checks, cluster):
    """A machine with another one's key is not heard, and its cluster waits; with its own it is."""
    right = cluster.words["m4"]
    path = cluster.otherwise("masked", f"{cluster.room}/m4.nk", f"{cluster.room}/client.nk")
    cluster.words["m4"] = [path if it == cluster.config else it for it in right]
    cluster.start_all()
    says(checks, cluster, "the key of clients", "ermissions")
    heard, ends = [], time.monotonic() + 30
    while "m0" not in heard and time.monotonic() < ends:
        ran = cluster.run("status", "--json")
        heard = sorted(json.loads(ran.stdout)["machines"]) if ran.returncode == 0 else []
    checks.check("m4" not in heard and "m0" in heard, "machines that are heard:", heard)
    cluster.kill("m4")
    path = cluster.otherwise("unknown", f"{cluster.room}/m4.nk", f"{cluster.room}/nobody.nk")
    checks.check(said_by(served.SERVICE, "nkeys", "--config", path).returncode == 0, "nkeys of one more key")
    cluster.words["m4"] = [path if it == cluster.config else it for it in right]
    cluster.start("m4")
    says(checks, cluster, "a key that no broker knows", "uthorization")
    checks.check(cluster.its["m4"].poll() is None, "m4 with a key that no broker knows ended")
    cluster.kill("m4")
    cluster.words["m4"] = right
    cluster.start("m4")
    checks.check(cluster.comes(60) is not None, "it begins:", cluster.last.stderr)
    ran = cluster.run("get", "comes", "--within", "20s")
    checks.check(ran.returncode == 0, "get:", ran.stdout, ran.stderr)


def says(checks, cluster, key, text):
    """Whether m4, which has a wrong key, comes to say so."""
    ends = time.monotonic() + 30
    while not cluster.said("m4", text) and time.monotonic() < ends:
        time.sleep(0.2)
    checks.check(cluster.said("m4", text), "m4 with", key, "says nothing of it")


def refused(checks, cluster):
    """Clients without a key, with a key that no broker knows, with a machine's, or that trust another authority."""
    cluster.run("nkeys")
    text = f'nkey = "{cluster.room}/client.nk"'
    unknown = cluster.otherwise("unknown", text, f'nkey = "{cluster.room}/unknown.nk"')
    checks.check(said_by(served.SERVICE, "nkeys", "--config", unknown).returncode == 0, "nkeys of one more key")
    for path, wanted in (
        (cluster.otherwise("keyless", text, ""), "uthorization"),
        (unknown, "uthorization"),
        (cluster.otherwise("machine", text, f'nkey = "{cluster.room}/m0.nk"'), "broker refused something: "),
        (cluster.otherwise("trusting", "/own.pem", "/other.pem"), "certificate"),
        (cluster.otherwise("plain", "tls://", "nats://"), ""),
    ):
        began = time.monotonic()
        is_plain = path.endswith("plain.toml")  # (a client goes over to TLS where a broker asks for it)
        within = "20s" if is_plain else "3s"
        ran = said_by(served.SERVICE, "put", "a", "b", "--within", within, "--config", path)
        is_so = ran.returncode == (0 if is_plain else 1) and wanted in ran.stderr and ran.stderr.count("\n") <= 2
        took = time.monotonic() - began
        checks.check(is_so and took < 25, os.path.basename(path), ran.returncode, ran.stdout, ran.stderr, took)


if __name__ == "__main__":
    import built

    served.needs()
    found = built.Checks()
    all_of(found)
    found.end("checks of keys and TLS")
