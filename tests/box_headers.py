"""What a balancer of a day writes before its client's octets: headers of the PROXY protocol (HAProxy's specification,
versions 1 and 2), and octets that are none."""
import ipaddress

SIGNATURE = bytes.fromhex("0d0a0d0a000d0a515549540a")
LOCAL, PROXY, TCP4 = 0x20, 0x21, 0x11


def line(text):
    return b"PROXY " + text + b"\r\n"


def block(command, family, rest):
    return SIGNATURE + bytes([command, family]) + len(rest).to_bytes(2, "big") + rest


def addresses(client, port):
    """Returns the addresses of a block: those of a client and of the relay, and their ports."""
    octets = ipaddress.IPv4Address(client).packed + ipaddress.IPv4Address("192.0.2.201").packed
    return octets + port.to_bytes(2, "big") + (25).to_bytes(2, "big")


FAMILIES = [block(PROXY, 0x21, bytes(36)), block(PROXY, 0x12, bytes(12)), block(PROXY, 0x31, bytes(216)),
            line(b"TCP6 2001:db8::77 2001:db8::1 54321 25"), line(b"TCP6 ")]
OWN = [line(b"UNKNOWN"), line(b"UNKNOWN ffff::1 ffff::2 1 2"), line(b"UNKNOWN " + b"x" * 91), block(LOCAL, 0, b""),
       block(LOCAL, TCP4, b"abc"), block(PROXY, 0, b"")]
NONE = [b"EHLO c.example\r\n", b"PROXY\r\n", b"proxy UNKNOWN\r\n", line(b"TCP4 192.0.2.77 192.0.2.1 54321"),
        line(b"TCP4 192.0.2.077 192.0.2.1 1 25"), line(b"TCP4 192.0.2.77 192.0.2.256 1 25"),
        line(b"TCP4 192.0.2.77 192.0.2.1 65536 25"), line(b"TCP4 192.0.2.77  192.0.2.1 1 25"),
        line(b"TCP4 192.0.2.77 192.0.2.1 1 025"), line(b"TCP4 192.0.2 192.0.2.1 1 25"), line(b"UNKNOWN " + b"x" * 92),
        line(b"UNKNOWNx"), line(b"TCP5 a"), b"PROXY " + b"x" * 101, b"PROXY UNKNOWN\n", SIGNATURE[:-1] + b"x",
        block(0x22, TCP4, bytes(12)), block(0x11, TCP4, bytes(12)), block(PROXY, TCP4, bytes(11)),
        block(PROXY, 0x13, bytes(12)), block(PROXY, 0x21, bytes(35)), block(PROXY, TCP4, bytes(521))]


def header(chance, client, port):
    """Returns what a balancer writes for a client at an address and a port: mostly its header, and sometimes one of the
    balancer's own, one of another protocol, or none."""
    kind = chance.random()
    if kind < 0.4:
        return line(b"TCP4 %b 192.0.2.201 %d 25" % (client.encode(), port))
    if kind < 0.75:
        return block(PROXY, TCP4, addresses(client, port) + bytes(chance.choice([0, 0, 3, 84, 508])))
    if kind < 0.83:
        return chance.choice(OWN)
    if kind < 0.87:
        return chance.choice(FAMILIES)
    if kind < 0.9:
        whole = line(b"TCP4 %b 192.0.2.201 %d 25" % (client.encode(), port))
        return whole[:chance.randint(1, len(whole) - 1)]
    return chance.choice(NONE)
