"""The configurations of a day in a box, which are made by chance."""
from box_setup import text_of

HOPS = ["192.0.2.1:25", "192.0.2.2:25", "192.0.2.3:25", "192.0.2.4:25"]
BALANCERS = ["192.0.2.200", "198.51.100.7"]


def configuration(chance):
    """Returns the text of a configuration."""
    keys = {"host": "relay.example", "listen": "127.0.0.1:25", "spool": "relay.spool"}
    choices = {
        "max_content": [600, 2_000], "bare_newlines": ["refuse"], "routed_paths": ["refuse"], "reports": ["rich"],
        "trusted_clients": [["127.0.0.0/8"], ["10.0.0.5", "127.0.0.1"], []], "sessions_per_client": [1, 2, 64],
        "attempts_per_hop": [1, 2], "recipients_per_attempt": [1, 2, 3], "client_timeout": [5, 60], "log": ["json"],
        "clients": [["127.0.0.0/8"], ["127.0.0.1", "10.0.0.0/16"]], "spool_limit": [4_000, 20_000],
        "balancers": [BALANCERS[:1], ["192.0.2.200/30", "198.51.100.0/24"]],
    }
    for key, values in choices.items():
        if chance.random() < 0.2:
            keys[key] = chance.choice(values)
    places = HOPS[:chance.choice([1, 2, 2, 3, 4])]
    routes = {"a.example": ("one.hop", places[0]), "b.example": ("two.hop", chance.choice(places)),
              "c.example": ("three.hop", chance.choice(places)), "back.example": ("back.hop", chance.choice(places))}
    others = {"*": ("any.hop", chance.choice(places)), "relay.example": ("one.hop", places[0]),
              "[192.0.2.77]": ("two.hop", routes["b.example"][1])}
    routes.update((domain, hop) for domain, hop in others.items() if chance.random() < 0.3)
    return text_of(keys, routes), places


def refused(chance, text):
    """Returns a configuration that a relay with this one must not take: it has a fault, or needs a restart."""
    lines = [line for line in text.splitlines() if not line.startswith("client_timeout")]
    kind = chance.choice(["not toml", "bad value", "listen", "host"])
    if kind == "not toml":
        lines.insert(0, "log = ")
    elif kind == "bad value":
        lines.insert(0, "client_timeout = 0")
    else:
        old, new = {"listen": (":25", ":26"), "host": ("relay.", "other.")}[kind]
        lines = [line.replace(old, new) if line.startswith(kind) else line for line in lines]
    return "\n".join(lines) + "\n"
