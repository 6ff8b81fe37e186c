"""Postfix, Exim and OpenSMTPD, and HAProxy before other servers, each in a temporary root of its own: an overlay of an
unpacked package over this machine's files, in mount and process namespaces of its own.

Each accepts mail from 127.0.0.1, sends mail for out.example to one port and mail for in.example to another, and refuses
the recipient refused@in.example.
"""
import os
import pathlib
import signal
import subprocess
import tempfile
import time

from relay_program import Difference, PATIENCE, free_port, is_listening

# Mounts the root, whose upper layer is in memory, puts the server's files there and starts it. All of it goes with
# the first process of the name space.
ROOM = """
set -euo pipefail
room=$1 package=$2 spool=$3
mount -t tmpfs room "$room/live"
cd "$room/live"
mkdir work root
cp -r "$package" upper
mount -t overlay overlay -o lowerdir=/,upperdir=upper,workdir=work root
cd root
mount -t proc proc proc
mount --rbind /dev dev
if [ -n "$spool" ]; then
    mkdir -p var/spool
    mount --bind "$spool" var/spool
fi
cat "$room/files/passwd" >> etc/passwd
cat "$room/files/group" >> etc/group
rm -f etc/resolv.conf
: > etc/resolv.conf
cp -r "$room/files/root/." .
exec chroot . /bin/bash -euo pipefail /start
"""


# The same mounts, for nothing.
PROBE = """
set -e
mount -t tmpfs room /mnt
cd /mnt
mkdir upper work root
mount -t overlay overlay -o lowerdir=/,upperdir=upper,workdir=work root
"""


def can_make_rooms():
    """Returns whether this user may make such namespaces, and mount in them."""
    command = ["unshare", "--mount", "--pid", "--fork", "bash", "-c", PROBE]
    return subprocess.run(command, capture_output=True).returncode == 0


class Server:
    """One of the three servers. It listens when it is made, at a given port or at a free one. Its queue is in memory,
    or in a given folder."""

    users = ()

    def __init__(self, packages, to_out, to_in, spool="", port=None):
        self.room = tempfile.TemporaryDirectory()
        self.port, self.to_out, self.to_in = port or free_port(is_kept=False), to_out, to_in
        room = pathlib.Path(self.room.name)
        (room / "live").mkdir()
        (room / "files/root").mkdir(parents=True)
        numbers = dict(zip(self.users, range(60000, 60100)))
        self.write("passwd", "".join(f"{user}:x:{number}:{number}::/nonexistent:/bin/false\n"
                                     for user, number in numbers.items()))
        self.write("group", "".join(f"{user}:x:{number}:\n" for user, number in numbers.items()))
        for name, text in self.files().items():
            self.write(f"root/{name}", text)
        self.log = (room / "log").open("wb")
        self.process = subprocess.Popen(
            ["unshare", "--mount", "--pid", "--fork", "bash", "-c", ROOM, "room",
             room, packages / self.package, spool],
            stdin=subprocess.DEVNULL, stdout=self.log, stderr=self.log)
        self.wait()

    def write(self, name, text):
        file = pathlib.Path(self.room.name) / "files" / name
        file.parent.mkdir(parents=True, exist_ok=True)
        file.write_text(text)

    def wait(self):
        ends = time.monotonic() + PATIENCE
        while not is_listening(self.port):
            if self.process.poll() is not None or time.monotonic() > ends:
                said = self.said()
                self.close()
                raise Difference(f"{self.name} doesn't listen: {said}")
            time.sleep(0.02)

    def said(self):
        """Returns the output and the log of the server, which go to one file."""
        return (pathlib.Path(self.room.name) / "log").read_text(errors="replace")

    def first(self):
        """Returns the first process of the namespace, which ends with it."""
        children = pathlib.Path(f"/proc/{self.process.pid}/task/{self.process.pid}/children")
        return int(children.read_text().split()[0])

    def close(self):
        if self.process.poll() is None:
            os.kill(self.first(), signal.SIGKILL)
        self.process.wait()
        self.log.close()
        self.room.cleanup()


class Postfix(Server):
    name, package, users = "Postfix", "postfix", ("postfix", "postdrop")

    def files(self):
        services = ["cleanup unix n - n - 0 cleanup", "qmgr unix n - n 300 1 qmgr"]
        services += [f"{name} unix - - n - 0 bounce" for name in ("bounce", "defer", "trace")]
        services += [f"{name} unix - - n - - {name}" for name in ("smtp", "error", "proxymap")]
        services += [f"{name} unix - - n - 1 {name}" for name in ("anvil", "scache")]
        services += ["rewrite unix - - n - - trivial-rewrite", "retry unix - - n - - error"]
        services += ["tlsmgr unix - - n 1000? 1 tlsmgr", "postlog unix-dgram n - n - 1 postlogd"]
        services += [f"127.0.0.1:{self.port} inet n - n - - smtpd"]
        return {
            "etc/postfix/master.cf": "\n".join(services) + "\n",
            "etc/postfix/main.cf": f"""
compatibility_level = 3.6
myhostname = postfix.example
mydestination =
mynetworks = 127.0.0.0/8
inet_interfaces = 127.0.0.1
inet_protocols = ipv4
transport_maps = inline:{{
    {{ out.example = smtp:[127.0.0.1]:{self.to_out} }},
    {{ in.example = smtp:[127.0.0.1]:{self.to_in} }} }}
smtpd_recipient_restrictions =
    check_recipient_access inline:{{ {{ refused@in.example = 550 no such user }} }},
    permit_mynetworks, reject
smtpd_peername_lookup = no
# Any number of paths are refused: refused+1@in.example is too.
recipient_delimiter = +
# One transaction for all recipients.
default_destination_recipient_limit = 1000
message_size_limit = 20000000
alias_maps =
maillog_file = /dev/stdout
""",
            "start": """
mkdir -p /var/spool/postfix /var/lib/postfix
chown postfix /var/lib/postfix
chgrp postdrop /usr/sbin/postdrop /usr/sbin/postqueue
chmod g+s /usr/sbin/postdrop /usr/sbin/postqueue
postfix check
exec postfix start-fg
""",
        }


class Exim(Server):
    name, package, users = "Exim", "exim4-daemon-light", ("Debian-exim",)

    def files(self):
        return {
            "etc/exim4/interop.conf": f"""
primary_hostname = exim.example
daemon_smtp_ports = {self.port}
local_interfaces = 127.0.0.1
exim_user = Debian-exim
exim_group = Debian-exim
spool_directory = /var/spool/exim4
log_file_path = /var/log/exim4/%slog
host_lookup =
rfc1413_query_timeout = 0s
tls_advertise_hosts =
dsn_advertise_hosts = *
chunking_advertise_hosts = *
message_size_limit = 20000000
acl_smtp_rcpt = check
begin acl
check:
  deny recipients = \\N^refused(\\+[0-9]+)?@in\\.example$\\N
       message = no such user
  accept
begin routers
out:
  driver = manualroute
  route_list = out.example 127.0.0.1::{self.to_out} ; in.example 127.0.0.1::{self.to_in}
  self = send
  transport = send
begin transports
send:
  driver = smtp
  allow_localhost
  # One transaction for all recipients.
  max_rcpt = 0
begin retry
* * F,1h,5m
""",
            "start": """
mkdir -p /var/spool/exim4 /var/log/exim4
touch /var/log/exim4/mainlog
chown -R Debian-exim: /var/spool/exim4 /var/log/exim4
tail -f /var/log/exim4/mainlog &
exec exim4 -bdf -C /etc/exim4/interop.conf
""",
        }


class OpenSmtpd(Server):
    name, package, users = "OpenSMTPD", "opensmtpd", ("opensmtpd", "opensmtpq")

    def files(self):
        return {
            "etc/smtpd.conf": f"""
listen on 127.0.0.1 port {self.port} hostname opensmtpd.example
smtp max-message-size 20000000
action "out" relay host "smtp+notls://127.0.0.1:{self.to_out}"
action "in" relay host "smtp+notls://127.0.0.1:{self.to_in}"
match from any for rcpt-to regex "^refused(\\+[0-9]+)?@in\\.example$" reject
match from any for domain "out.example" action "out"
match from any for domain "in.example" action "in"
""",
            "etc/mailname": "opensmtpd.example\n",
            "start": """
mkdir -p /var/lib/opensmtpd/empty /var/spool/smtpd
chmod 711 /var/spool/smtpd
exec smtpd -d
""",
        }


class HaProxy(Server):
    """A balancer before two relays: it forwards connections in turn, and checks now and then whether each relay
    greets it; it says what it finds. It may begin each connection with a PROXY protocol header."""

    name, package, users = "HAProxy", "haproxy", ("haproxy",)

    def __init__(self, packages, one, two, header="", interval="10s"):
        self.header, self.interval = header, interval
        super().__init__(packages, one, two)

    def files(self):
        return {
            "etc/balancer.cfg": f"""
frontend smtp
    mode tcp
    bind 127.0.0.1:{self.port}
    timeout client 400s
    default_backend relays
backend relays
    mode tcp
    timeout connect 5s
    timeout server 400s
    timeout check 10s
    option smtpchk EHLO balancer.example
    option log-health-checks
    server one 127.0.0.1:{self.to_out} check inter {self.interval} {self.header}
    server two 127.0.0.1:{self.to_in} check inter {self.interval} {self.header}
""",
            "start": """
exec haproxy -db -f /etc/balancer.cfg
""",
        }
