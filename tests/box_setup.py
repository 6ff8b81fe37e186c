"""The configuration of a relay in a box: its text, and what the judge reads of it. Only what a day needs of TOML is
read: a key and a value a line, and routes."""
import json

# The defaults of the man page.
DEFAULTS = {
    "max_content": 1_048_576, "spool_limit": 67_108_864, "bare_newlines": "pass", "routed_paths": "pass",
    "reports": "plain", "sessions_per_client": 32, "attempts_per_hop": 20, "recipients_per_attempt": 15,
    "client_timeout": 300, "log": "text", "trusted_clients": None, "clients": None, "balancers": [],
}


def number_of(address):
    """Returns an IPv4 address as a number."""
    value = 0
    for part in address.split("."):
        value = value * 256 + int(part)
    return value


class Networks:
    """Networks, each an address and the length of its prefix, or an address alone."""

    def __init__(self, texts):
        self.networks = []
        for text in texts:
            address, _, length = text.partition("/")
            shift = 32 - int(length or 32)
            self.networks.append((number_of(address) >> shift, shift))

    def __contains__(self, address):
        number = number_of(address)
        return any(number >> shift == front for front, shift in self.networks)


class Setup:
    """A configuration: its keys, with their defaults, and the next hop of each domain."""

    def __init__(self, text):
        keys, self.routes, in_routes = {}, {}, False
        for line in text.splitlines():
            if line == "[routes]":
                in_routes = True
            elif in_routes and line:
                domain, _, rest = line.partition(" = ")
                words = rest.split('"')
                self.routes[json.loads(domain).lower().encode()] = (words[1].encode(), words[3])
            elif line:
                key, _, value = line.partition(" = ")
                keys[key] = json.loads(value)
        self.keys = {**DEFAULTS, **keys}
        self.host = self.keys["host"].encode()
        self.max_content = self.keys["max_content"]
        self.refuses_bare = self.keys["bare_newlines"] == "refuse"
        self.trusted = self.networks("trusted_clients")
        self.allowed, self.balancers = self.networks("clients"), self.networks("balancers")
        self.timeout = self.keys["client_timeout"] * 1000

    def refusal(self, text):
        """Returns why a relay with this configuration refuses another one, if it does: that has a fault, or changes a
        key that needs a restart."""
        try:
            other = Setup(text)
        except ValueError:
            return "config NotToml"
        faults = [key for key in ("max_content", "client_timeout") if other.keys[key] <= 0]
        changed = [key for key in ("host", "listen", "spool") if other.keys[key] != self.keys[key]]
        if faults:
            return f"config BadValue {faults[0]}"
        return f"restart the relay to change {' '.join(changed)}" if changed else None

    def has_small_spool(self):
        """Returns whether a day may fill the spool."""
        return self.keys["spool_limit"] < 1_000_000

    def networks(self, key):
        return None if self.keys[key] is None else Networks(self.keys[key])

    def takes_any(self, address):
        """Returns whether the client at this address may send to every route."""
        return self.trusted is None or address in self.trusted

    def takes_routed(self, address):
        """Returns whether the client at this address may send to routed paths."""
        return self.keys["routed_paths"] == "pass" or (self.trusted is not None and address in self.trusted)

    def may_connect(self, address):
        return self.allowed is None or address in self.allowed

    def hop_of(self, domain, takes_any=True):
        """Returns the name and the address of the next hop of a domain, or None."""
        hop = self.routes.get(domain.lower())
        return hop if hop or not takes_any else self.routes.get(b"*")

    def hop_of_path(self, path):
        """Returns the name and the address of the next hop of a path in brackets, or None."""
        if path == b"<>":
            return None
        _, at, domain = path[1:-1].rpartition(b"@")
        return self.hop_of(domain if at else self.host)


def text_of(keys, routes):
    """Returns the text of a configuration with these keys, and with routes from domains to names and addresses."""
    lines = [f"{key} = {json.dumps(value)}" for key, value in keys.items()]
    lines.append("[routes]")
    lines += [f'"{domain}" = {{ name = "{name}", at = "{at}" }}' for domain, (name, at) in routes.items()]
    return "\n".join(lines) + "\n"
