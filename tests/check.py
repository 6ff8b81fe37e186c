#!/usr/bin/env python3
"""Runs `relayd check` on good and bad configurations, and compares each finding, with its line and column, and the
status. `init` must accept what `check` accepts, and refuse what it refuses, except for unknown keys. Ends at the first
difference.

    tests/check.py build/relayd
"""
import fcntl
import os
import pathlib
import subprocess
import sys
import tempfile

sys.dont_write_bytecode = True

from relay_program import same

HEAD = 'host = "relay.example"\nlisten = "127.0.0.1:2525"\nspool = "relay.spool"\n'
ROUTES = """[routes]
"example.org" = { name = "next.example", at = "127.0.0.1:2526" }
"relay.example" = { name = "next.example", at = "127.0.0.1:2526" }
"""
HOP = '{ name = "next.example", at = "127.0.0.1:2526" }'
WRITE_HOP = 'write { name = "mx.example.org", at = "192.0.2.1:25" }'
OWNER = "relayd init makes both files, and the user that runs relayd has to own them"
MISSING = f"No such file or directory (os error 2); {OWNER}"
UNREAD = [f"3:1: warning: spool file relay.spool: {MISSING}", f"3:1: warning: spool file relay.spool.2: {MISSING}"]
NO_ROUTES = "warning: no routes: each recipient is refused; add a line for each domain"
STRANGERS = " from clients outside of trusted_clients"
ROUTED = ("warning: user%b.example@a.example is taken for a.example: a hop that trusts this relay may send it on to "
          'b.example; write routed_paths = "refuse"')


def no_postmaster(whose=""):
    return ('warning: no route for the relay\'s own name, host = "relay.example": mail to its postmaster is refused'
            f"{whose} (RFC 5321, 4.5.1); add a route for host")


def run(program, *words):
    return subprocess.run([program, *words], capture_output=True, text=True, timeout=60)


def check(program, text, findings, status):
    """Returns the findings in a configuration, without the file's name, and the status."""
    pathlib.Path("relayd.toml").write_text(text)
    ran = run(program, "check", "--config", "relayd.toml")
    same(f"findings of {text!r}", ran.stdout.splitlines(), [f"relayd.toml:{it}" for it in findings])
    same(f"status of {text!r}", (ran.returncode, ran.stderr), (status, ""))


def agrees_with_init(program, text, takes):
    pathlib.Path("relayd.toml").write_text(text)
    ran = run(program, "init", "--config", "relayd.toml")
    same(f"init by {text!r}", ran.returncode == 0, takes)
    for name in ("relay.spool", "relay.spool.2"):
        pathlib.Path(name).unlink(missing_ok=True)


def refused(program, text, findings):
    """Checks a configuration with which no relay runs."""
    check(program, text, findings, 1)
    agrees_with_init(program, text, False)


def passed(program, text, findings, status=0):
    """Checks a configuration with which a relay runs."""
    check(program, text, findings, status)
    agrees_with_init(program, text, True)


def a_good_configuration_has_no_findings(program):
    text = HEAD + ROUTES
    pathlib.Path("relayd.toml").write_text(text)
    same("init", run(program, "init", "--config", "relayd.toml").returncode, 0)
    check(program, text, [], 0)
    for name in ("relay.spool", "relay.spool.2"):
        pathlib.Path(name).unlink()


def what_is_no_toml_is_told_with_its_place(program):
    refused(program, "host = \n", [
        "1:8: error: not TOML: invalid value, expected a string, number, boolean, date-time, array or inline table"])
    refused(program, HEAD + 'max_content = 1\nhost = "x"\n', [
        '5:1: error: not TOML: duplicate key, host = "x": remove one of its lines'])
    refused(program, HEAD + 'routes = { "a.example" = {}, \'a.example\' = "\u009b2J" }\n', [
        "4:30: error: not TOML: duplicate key, 'a.example' = \"?2J\" }: remove one of its lines"])


def each_missing_key_is_told(program):
    refused(program, "", [
        '1:1: error: host is missing: write host = "relay.example.org"',
        '1:1: error: listen is missing: write listen = "0.0.0.0:25"',
        '1:1: error: spool is missing: write spool = "/var/lib/relayd/relay.spool"',
        '1:1: error: routes is missing: write routes = '
        '{ "example.org" = { name = "mx.example.org", at = "192.0.2.1:25" } }'])


def each_bad_value_is_told_with_what_to_write(program):
    refused(program, """host = "relay example"
 listen = "0.0.0.0:025"
spool = ""
max_content = 0
spool_limit = 549_755_813_889
bare_newlines = "no"
sessions_per_client = 65
attempts_per_hop = "many\\n"
recipients_per_attempt = 101
client_timeout = [1]
status_listen = "0.0.0.0:9925"
log = "xml"
routes = 1
trusted_clients = "127.0.0.1"
routed_paths = "no"
balancers = "192.0.2.5"
reports = "long"
clients = "192.0.2.5"
control = ""
control_group = "postmasters"
""", [
        '1:1: error: host = "relay example": write a name of 1 to 255 letters, digits, hyphens and periods, such as '
        'host = "relay.example.org"',
        '2:2: error: listen = "0.0.0.0:025": write an IPv4 address and a port from 1 to 65535, such as '
        'listen = "0.0.0.0:25"',
        '3:1: error: spool = "": write the path of a file, such as spool = "/var/lib/relayd/relay.spool"',
        "4:1: error: max_content = 0: write a number from 1 to 16777216, such as max_content = 1048576",
        "5:1: error: spool_limit = 549755813889: write a number from 1 to 549755813888, such as spool_limit = 67108864",
        '6:1: error: bare_newlines = "no": write "pass" or "refuse", such as bare_newlines = "refuse"',
        "7:1: error: sessions_per_client = 65: write a number from 1 to 64, such as sessions_per_client = 32",
        '8:1: error: attempts_per_hop = "many\\n": write a number from 1 to 64, such as attempts_per_hop = 20',
        "9:1: error: recipients_per_attempt = 101: write a number from 1 to 100, such as recipients_per_attempt = 15",
        "10:1: error: client_timeout = [1]: write a number of seconds from 1 to 3600, such as client_timeout = 300",
        '11:1: error: status_listen = "0.0.0.0:9925": write this machine\'s own address 127.0.0.1 and a port from 1 to '
        '65535, such as status_listen = "127.0.0.1:9925"',
        '12:1: error: log = "xml": write "text" or "json", such as log = "json"',
        '13:1: error: routes = 1: write a table, such as routes = '
        '{ "example.org" = { name = "mx.example.org", at = "192.0.2.1:25" } }',
        '14:1: error: trusted_clients = "127.0.0.1": write an array of IPv4 networks, such as '
        'trusted_clients = ["127.0.0.0/8"]',
        '15:1: error: routed_paths = "no": write "pass" or "refuse", such as routed_paths = "refuse"',
        '16:1: error: balancers = "192.0.2.5": write an array of IPv4 networks, such as balancers = ["192.0.2.5"]',
        '17:1: error: reports = "long": write "plain" or "rich", such as reports = "rich"',
        '18:1: error: clients = "192.0.2.5": write an array of IPv4 networks, such as clients = ["192.0.2.0/24"]',
        '19:1: error: control = "": write the path of a socket, of 1 to 107 octets, such as '
        'control = "/run/relayd/control"',
        '20:1: error: control_group = "postmasters": write the number of a group from 0 to 4294967294, such as '
        'control_group = 100'])


def each_network_is_judged_on_its_own(program):
    no_network = 'is no network: write an address, or one such as "192.0.2.0/24" with zeros after its prefix'
    refused(program, HEAD + 'trusted_clients = ["192.0.2.9", "192.0.2.9/24", "10.0.0.0/33", "10.0.0.0/08", 5]\n'
           + ROUTES, [
               f'4:1: error: trusted_clients: "192.0.2.9/24" {no_network}',
               f'4:1: error: trusted_clients: "10.0.0.0/33" {no_network}',
               f'4:1: error: trusted_clients: "10.0.0.0/08" {no_network}',
               '4:1: error: trusted_clients: 5 is no network: write a text such as "192.0.2.0/24"'])
    # A key of `run` alone: the rest is a configuration, so what is risky in it is told too.
    check(program, HEAD + 'balancers = ["192.0.2.5", "192.0.2.5/24"]\n' + ROUTES, [
        *UNREAD, f'4:1: error: balancers: "192.0.2.5/24" {no_network}'], 1)
    passed(program, HEAD + 'balancers = ["192.0.2.5", "192.0.2.64/26"]\n' + ROUTES, UNREAD)
    check(program, HEAD + 'clients = ["192.0.2.0/24", "192.0.2.9/24", 5]\n' + ROUTES, [
        *UNREAD, f'4:1: error: clients: "192.0.2.9/24" {no_network}',
        '4:1: error: clients: 5 is no network: write a text such as "192.0.2.0/24"'], 1)
    check(program, HEAD + 'clients = "192.0.2.0/24"\n' + ROUTES, [
        *UNREAD, '4:1: error: clients = "192.0.2.0/24": write an array of IPv4 networks, such as '
        'clients = ["192.0.2.0/24"]'], 1)
    passed(program, HEAD + 'clients = ["127.0.0.1", "192.0.2.64/26", "0.0.0.0/0"]\n' + ROUTES, UNREAD)


def clients_that_may_not_connect_are_risky_where_they_are_trusted(program):
    def outside(network):
        return (f'5:1: warning: trusted_clients: "{network}" is outside of clients: nobody there may connect; '
                "add it to clients")

    clients = HEAD + 'clients = ["192.0.2.0/25", "198.51.100.9"]\n'
    passed(program, clients + 'trusted_clients = ["192.0.2.64/26", "192.0.2.0/24", "198.51.100.9"]\n' + ROUTES, UNREAD)
    passed(program, clients + 'trusted_clients = ["192.0.2.128/25", "192.0.2.0/24", "198.51.100.8"]\n' + ROUTES, [
        *UNREAD, outside("192.0.2.128/25"), outside("198.51.100.8")])
    passed(program, HEAD + "clients = []\n" + ROUTES, [
        *UNREAD, "4:1: warning: clients is empty: no client may connect; name your hosts, or remove the line to let "
        "everybody connect"])


def unknown_keys_are_errors_though_a_relay_ignores_them(program):
    text = HEAD + 'max_contents = 5\ntls = true\n"spool\\u0007" = 1\n' + ROUTES.replace(
        '"127.0.0.1:2526" }', '"127.0.0.1:2526", tls = true, nam = 1 }', 1)
    passed(program, text, [
        "1:1: error: unknown key spool\\u{7} = 1; did you mean spool?",
        *UNREAD,
        "4:1: error: unknown key max_contents = 5; did you mean max_content?",
        "5:1: error: unknown key tls = true: it has no effect; remove it",
        "8:1: error: route example.org: unknown key nam = 1; did you mean name?",
        "8:1: error: route example.org: unknown key tls = true: a route has name and at alone, so it has no effect; "
        "remove it",
    ], status=1)


def values_are_shown_in_short(program):
    """On one line, in printable characters, and cut where they are long."""
    word = "a" * 70
    for value, shown in (
            ('"a\\tb\\u001b[2J\u00e9"', '"a\\tb\\u{1b}[2J\\u{e9}"'), ('""', '""'), ("'''\na\n'''", '"a\\n"'),
            (f'"{2 * word}"', f'"{(2 * word)[:119]}"..'), (f'"{word}"', f'"{word}"'),
            ("1.5", "1.5"), ("-7", "-7"), ("false", "false"), ("1979-05-27T07:32:00Z", "1979-05-27T07:32:00Z"),
            ("[]", "[]"), ("{}", "{}"), ("[\n1,\n2,\n]", "[1, 2]"), ("[1, [2]]", "[1, [..]]"),
            (f'["{word}", 1]', f'["{word[:29]}".., 1]'),
            ('["a.example", 5, { b = 1, "c\\u001b" = 2 }, true]', '["a.example", 5, { b = .., c\\u{1b} = .. }, true]'),
            ('["192.0.2.0/24", "198.51.100.0/24", "203.0.113.0/24", "10.0.0.0/8"]',
             '["192.0.2.0/24", "198.51.100.0/24", "203.0.113.0/24", ..]'),
            ('{ cert = "x", key = { a = 1 } }', "{ cert = .., key = .. }"),
            ("{ a234567890 = 1, b234567890 = 1, c234567890 = 1, d234567890 = 1 }",
             "{ a234567890 = .., b234567890 = .., c234567890 = .., .. }"),
            (f"{{ {word} = 1 }}", f"{{ {word[:30]}.. = .. }}")):
        check(program, f"secret = {value}\n" + HEAD + ROUTES, [
            f"1:1: error: unknown key secret = {shown}: it has no effect; remove it",
            *(it.replace("3:1:", f"{4 + value.count(chr(10))}:1:") for it in UNREAD)], 1)
    check(program, HEAD + ROUTES + "[tls]\ncert = 1\n", [
        *UNREAD, "7:1: error: unknown key tls = { cert = .. }: it has no effect; remove it"], 1)
    refused(program, "max_content = [[1], 2]\n" + HEAD + ROUTES + "[log]\nlevel = 5\n", [
        "1:1: error: max_content = [[..], 2]: write a number from 1 to 16777216, such as max_content = 1048576",
        '8:1: error: log = { level = .. }: write "text" or "json", such as log = "json"'])
    refused(program, HEAD + """trusted_clients = [["192.0.2.0/24"]]
[routes]
"a.example" = 5
"b.example" = { name = 5, at = ["127.0.0.1:2526"] }
""", [
        '4:1: error: trusted_clients: ["192.0.2.0/24"] is no network: write a text such as "192.0.2.0/24"',
        f"6:1: error: route a.example = 5 is no table: {WRITE_HOP}",
        "7:1: error: route b.example: name = 5 is no host name: write letters, digits, hyphens and periods",
        '7:1: error: route b.example: at = ["127.0.0.1:2526"] is no address: write an IPv4 address and a port, such as '
        '"192.0.2.1:25"'])


def each_route_is_judged_on_its_own(program):
    refused(program, HEAD + f"""[routes]
"a..b c" = {HOP}
'relay.example' = "next.example"
"example.org" = {{ name = "a b", at = "127.0.0.1" }}
"example.net" = {{ }}
"example.edu" = {HOP}
"EXAMPLE.edu" = {HOP}
  "example.com" = {{ name = "next.example", at = "127.0.0.1:2527" }}
[routes."example.int"]
name = "next.example"
at = "127.0.0.1:0"
""", [
        '5:1: error: route a..b c is no domain: write one such as "example.org", or "*" for all that have no route',
        f'6:1: error: route relay.example = "next.example" is no table: {WRITE_HOP}',
        '7:1: error: route example.org: name = "a b" is no host name: write letters, digits, hyphens and periods',
        '7:1: error: route example.org: at = "127.0.0.1" is no address: write an IPv4 address and a port, such as '
        '"192.0.2.1:25"',
        '8:1: error: route example.net: name is missing: write name = "mx.example.org"',
        '8:1: error: route example.net: at is missing: write at = "192.0.2.1:25"',
        f"9:1: error: route example.edu = {HOP} stands twice: letter case makes no difference in a domain; remove one",
        f"11:3: error: route example.com = {HOP.replace('2526', '2527')}: its hop's name has another address in "
        "another route; give each address a name of its own",
        '12:1: error: route example.int: at = "127.0.0.1:0" is no address: write an IPv4 address and a port, such as '
        '"192.0.2.1:25"'])


def what_is_risky_is_a_warning(program):
    passed(program, HEAD + "[routes]\n", [*UNREAD, f"4:1: {NO_ROUTES}"])
    passed(program, HEAD + f'[routes]\n"example.org" = {HOP}\n', [*UNREAD, f"4:1: {no_postmaster()}"])
    passed(program, HEAD + "max_content = 2000\nspool_limit = 1000\n" + ROUTES, [
        *UNREAD, "5:1: warning: spool_limit = 1000 is below max_content = 2000: a message of that size never fits; "
        "raise spool_limit"])
    passed(program, HEAD + f'[routes]\n"*" = {HOP}\n', UNREAD)
    passed(program, HEAD.replace("127.0.0.1:2525", "0.0.0.0:2525") + f'[routes]\n"*" = {HOP}\n', [
        *UNREAD, "5:1: warning: route * takes mail for every domain from everybody who can reach 0.0.0.0:2525: name "
        "your hosts in trusted_clients"])
    far = HEAD.replace("127.0.0.1:2525", "0.0.0.0:2525")
    passed(program, far + f'trusted_clients = ["192.0.2.0/24"]\n[routes]\n"*" = {HOP}\n', [
        *UNREAD, f"5:1: {no_postmaster(STRANGERS)}"])
    passed(program, far + f'clients = ["192.0.2.0/24"]\n[routes]\n"*" = {HOP}\n', UNREAD)
    passed(program, far + f'trusted_clients = ["0.0.0.0/0"]\n[routes]\n"*" = {HOP}\n', [
        *UNREAD, "6:1: warning: route * takes mail for every domain from everybody who can reach 0.0.0.0:2525: name "
        "your hosts in trusted_clients"])
    passed(program, far + ROUTES, [*UNREAD, f"4:1: {ROUTED}"])
    passed(program, far + 'routed_paths = "pass"\n' + ROUTES, [*UNREAD, f"4:1: {ROUTED}"])
    passed(program, far + 'routed_paths = "refuse"\n' + ROUTES, UNREAD)
    passed(program, far + f'trusted_clients = ["192.0.2.0/24"]\n{ROUTES}"*" = {HOP}\n', [*UNREAD, f"5:1: {ROUTED}"])
    passed(program, HEAD + ROUTES + f'".example.net" = {HOP}\n', [
        *UNREAD, "7:1: warning: route .example.net begins with a period: a route is for one domain and for none below "
        "it; write each of them"])


def a_postmaster_whom_strangers_can_not_reach_is_a_warning(program):
    """With a route "*" and without one for `host`, if a client may connect that isn't trusted."""
    own, other = f'"relay.example" = {HOP}\n', f'"EXAMPLE.org" = {HOP}\n'
    every, some = 'trusted_clients = ["192.0.2.0/24", "0.0.0.0/0"]\n', 'trusted_clients = ["192.0.2.0/24"]\n'
    for keys, routes, line in (
            ("", "", 0), ("", own, 0), (every, "", 0), (every, own, 0), (some, own, 0),
            (some, own.replace("relay.example", "RELAY.example"), 0), (some, "", 5), (some, other, 5),
            ("trusted_clients = []\n", "", 5), (some + 'clients = ["192.0.2.0/24", "192.0.2.9"]\n', "", 0),
            (some + 'clients = ["192.0.2.0/23"]\n', "", 6), (some + 'clients = ["192.0.2.9", "198.51.100.9"]\n', "", 6),
            (some + 'clients = ["0.0.0.0/0"]\n', "", 6), (every + 'clients = ["0.0.0.0/0"]\n', "", 0)):
        text = HEAD + keys + "[routes]\n" + routes + f'"*" = {HOP}\n'
        passed(program, text, UNREAD + ([f"{line}:1: {no_postmaster(STRANGERS)}"] if line else []))


def a_route_to_the_relay_itself_is_a_warning(program):
    for listen, at in (("127.0.0.1:2525", "127.0.0.1:2525"), ("0.0.0.0:2525", "127.0.0.2:2525")):
        route = f'"a.example" = {{ name = "a", at = "{at}" }}\n'
        guard = 'routed_paths = "refuse"\n'
        passed(program, HEAD.replace("127.0.0.1:2525", listen) + guard + ROUTES + route,
              [*UNREAD, f"8:1: warning: route a.example leads to this relay's own address {at}: its mail goes round; "
               "write another host's address"])
    passed(program, HEAD.replace("127.0.0.1:2525", "127.0.0.1:2524") + ROUTES
          + '"a.example" = { name = "a", at = "127.0.0.1:2525" }\n', UNREAD)


def files_that_can_not_be_opened_are_told_with_the_reason(program):
    """For reading and for writing, though nothing is written: a file, which is locked here, stays as it was."""
    spool = pathlib.Path("relay.spool")
    spool.write_bytes(b"kept")
    os.utime(spool, ns=(10 ** 18, 10 ** 18))
    before = spool.stat()
    with spool.open("rb") as held:
        fcntl.flock(held, fcntl.LOCK_EX)
        check(program, HEAD + ROUTES, UNREAD[1:], 0)
    after = spool.stat()
    same("the file", (spool.read_bytes(), after.st_mtime_ns, after.st_ctime_ns),
         (b"kept", before.st_mtime_ns, before.st_ctime_ns))
    same("a second file", pathlib.Path("relay.spool.2").exists(), False)
    spool.unlink()
    # A directory opens for reading alone, for root too.
    spool.mkdir()
    check(program, HEAD + ROUTES, [
        f"3:1: warning: spool file relay.spool: Is a directory (os error 21); {OWNER}", UNREAD[1]], 0)
    spool.rmdir()
    if os.geteuid() != 0:
        for mode in (0, 0o222, 0o444):
            spool.touch()
            spool.chmod(mode)
            check(program, HEAD + ROUTES, [
                f"3:1: warning: spool file relay.spool: Permission denied (os error 13); {OWNER}", UNREAD[1]], 0)
            spool.unlink()


def the_next_hop_of_an_address_is_told(program):
    pathlib.Path("relayd.toml").write_text(HEAD + ROUTES)

    def route(address):
        ran = run(program, "check", "--config", "relayd.toml", "--route", address)
        return ran.stdout, ran.returncode, ran.stderr
    same("a route", route("b@Example.ORG"), ("b@Example.ORG: next.example 127.0.0.1:2526\n", 0, ""))
    same("brackets", route("<b@example.org>"), ("<b@example.org>: next.example 127.0.0.1:2526\n", 0, ""))
    same("the postmaster", route("Postmaster"), ("Postmaster: next.example 127.0.0.1:2526\n", 0, ""))
    same("no route", route("b@example.net"), ("b@example.net: no route\n", 1, ""))
    same("no address", route("b c"), ("b c: no address\n", 1, ""))
    pathlib.Path("relayd.toml").write_text('host = "a b"')
    same("a fault", route("b@example.org"), ("", 1, "relayd: config BadValue host\n"))


def faults_have_their_line(program):
    ran = run(program, "check", "--config", "missing.toml")
    same("a missing file", (ran.stdout, ran.stderr, ran.returncode), ("", "relayd: input\n", 1))
    pathlib.Path("relayd.toml").write_text("")
    with open("/dev/full", "w") as full:
        words = [program, "check", "--config", "relayd.toml"]
        ran = subprocess.run(words, stdout=full, stderr=subprocess.PIPE, text=True)
    same("a full output", (ran.stderr, ran.returncode), ("relayd: output\n", 1))


def main(program):
    program = str(pathlib.Path(program).resolve())
    rows = [
        a_good_configuration_has_no_findings, what_is_no_toml_is_told_with_its_place, each_missing_key_is_told,
        each_bad_value_is_told_with_what_to_write, unknown_keys_are_errors_though_a_relay_ignores_them,
        values_are_shown_in_short, each_network_is_judged_on_its_own,
        clients_that_may_not_connect_are_risky_where_they_are_trusted, each_route_is_judged_on_its_own,
        what_is_risky_is_a_warning, a_postmaster_whom_strangers_can_not_reach_is_a_warning,
        a_route_to_the_relay_itself_is_a_warning, files_that_can_not_be_opened_are_told_with_the_reason,
        the_next_hop_of_an_address_is_told, faults_have_their_line]
    for row in rows:
        with tempfile.TemporaryDirectory() as folder:
           os.chdir(folder)
           row(program)
           os.chdir("/")
    print(f"check: {len(rows)} rows")


main(sys.argv[1])
