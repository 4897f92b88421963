#!/usr/bin/python3
"""What test_boot.py has run in a system that has booted with the units: it asks the door as nginx's user would, and writes down what it found."""
import http.client
import json
import os
import pathlib
import pwd
import socket
import subprocess
import time

FOUND = pathlib.Path("/mnt/out/found.json")
SOCKET = "/run/auditor-door/http.sock"
NAME = "auditor.example.org"
PATIENCE = 60                       # seconds until the door serves


class Connection(http.client.HTTPConnection):
    def connect(self):
        self.sock = socket.socket(socket.AF_UNIX)
        self.sock.settimeout(self.timeout)
        self.sock.connect(SOCKET)


def request(method, path, line=None):
    connection = Connection(NAME, timeout=30)
    connection.request(method, path, line, {"Content-Type": "application/json"})
    response = connection.getresponse()
    return response.status, response.read().decode()


def as_user(name, call):
    """What a call gives in a process of that user."""
    receiver, sender = os.pipe()
    if not os.fork():
        user = pwd.getpwnam(name)
        os.setgroups([])
        os.setgid(user.pw_gid)
        os.setuid(user.pw_uid)
        try:
            found = call()
        except OSError as fault:
            found = type(fault).__name__
        os.write(sender, json.dumps(found).encode())
        os._exit(0)
    os.wait()
    return json.loads(os.read(receiver, 65536))


def wait_until_serving():
    end = time.monotonic() + PATIENCE
    while time.monotonic() < end:
        found = as_user("www-data", lambda: request("GET", "/health"))
        if found[0] == 200:
            return found
        time.sleep(0.2)
    return found


def systemctl(*words):
    return subprocess.run(["systemctl", "--no-pager", *words], capture_output=True, text=True).stdout


def ask(path, where):
    line = json.dumps({"ask": "sum", "column": "salary", "where": where})
    return as_user("www-data", lambda: request("POST", path, line))


def main():
    found = {"health": wait_until_serving(), "all": ask("/ask", "all"), "one": ask("/ask", "k = 0"), "why": ask("/why", "k = 0"),
             "would": ask("/would", "k >= 3 and k <= 20")}
    systemctl("kill", "--signal=KILL", "auditor-serve@*.service")
    found["after a kill"] = ask("/ask", "k >= 3 and k <= 20")
    for unit in ("auditor-door.service", *systemctl("list-units", "--plain", "--no-legend", "--state=active", "auditor-serve@*").split()[:1]):
        shown = systemctl("show", unit, "-p", "ActiveState,User,MemoryMax,TasksMax,NRestarts")
        found[unit.split("@")[0]] = dict(line.split("=", 1) for line in shown.split())
    door = systemctl("show", "auditor-door.service", "-p", "MainPID").split("=")[1].strip()
    found["folder"] = [path.name for path in pathlib.Path(f"/proc/{door}/root/var/lib/auditor").glob("*")]
    found["other user"] = as_user("nobody", lambda: request("GET", "/health"))
    found["said"] = subprocess.run(["journalctl", "--no-pager", "-n", "60"], capture_output=True, text=True).stdout
    FOUND.write_text(json.dumps(found, indent=1))


if __name__ == "__main__":
    try:
        main()
    finally:
        systemctl("poweroff", "--force")
