#!/usr/bin/env bash
# The faults of `init` and `list` over files, in the order in which they are looked for, and those of the subcommands
# that lock the spool: the lines of each on standard error, and its status. Nothing is written to standard output then.
# After them, what `list` writes of a message.
#
#   tests/fault_lines.sh build/relayd
set -euo pipefail
export LC_ALL=C

relayd=$(realpath "$1")
room=$(mktemp -d)
trap 'chmod -R u+w "$room"; rm -rf "$room"' EXIT
# Files are opened by their permissions, which the administrator passes: the program runs as nobody then.
as=()
if [ "$(id -u)" -eq 0 ]; then
    as=(setpriv --reuid=65534 --regid=65534 --clear-groups)
    cp "$relayd" "$room/relayd"
    relayd=$room/relayd
    chmod 755 "$relayd"
fi
chmod 777 "$room"
cd "$room"

faults=0
# refused STATUS LINES WORD..: the program is run by these words.
refused() {
    local wanted=$1 line=$2 status=0
    shift 2
    "${as[@]}" "$relayd" "$@" > out 2> err || status=$?
    if [ "$status" -ne "$wanted" ] || [ "$(cat err)" != "$line" ] || [ -s out ]; then
        echo "relayd $*: status $status and $(cat out err), and not $wanted and $line" >&2
        exit 1
    fi
    faults=$((faults + wanted))
}

# configuration SPOOL: one that is good.
configuration() {
    cat > relayd.toml << END
host = "relay.example"
listen = "127.0.0.1:2525"
spool = "$1"
[routes]
"example.org" = { name = "next.example", at = "127.0.0.1:2526" }
END
}

head='RELAYQ01\x01\x00\x00\x00\x00\x00\x00\x00\x01'

refused 1 'relayd: input' list --config missing.toml
refused 1 'relayd: input' init --config "$room"
printf '# \xff\n' > relayd.toml
refused 1 'relayd: input' list --config relayd.toml
printf 'host = \n' > relayd.toml
refused 1 'relayd: config NotToml' list --config relayd.toml
printf 'listen = 1\n' > relayd.toml
refused 1 'relayd: config Missing host' list --config relayd.toml
printf 'host = "a b"\n' > relayd.toml
refused 1 'relayd: config BadValue host' init --config relayd.toml
configuration relay.spool
sed -i '3a bare_newlines = "no"' relayd.toml
refused 1 'relayd: config BadValue bare_newlines' list --config relayd.toml
sed -i '4c trusted_clients = ["127.0.0.1/8"]' relayd.toml
refused 1 'relayd: config BadValue trusted_clients' list --config relayd.toml
sed -i '4c routed_paths = "no"' relayd.toml
refused 1 'relayd: config BadValue routed_paths' list --config relayd.toml
sed -i '4c reports = "long"' relayd.toml
refused 1 'relayd: config BadValue reports' list --config relayd.toml

# The content of a configuration comes before the spool that it names.
mkdir folder
configuration folder
refused 1 'relayd: device' list --config relayd.toml
refused 1 'relayd: device' init --config relayd.toml
configuration folder/missing/relay.spool
refused 1 'relayd: device' init --config relayd.toml
configuration locked.spool
printf "$head"'\x00' > locked.spool
chmod 000 locked.spool
refused 1 'relayd: device' list --config relayd.toml

configuration relay.spool
: > relay.spool
chmod 666 relay.spool
refused 1 'relayd: spool NotASpool' list --config relayd.toml
printf 'a text that is no spool' > relay.spool
refused 1 'relayd: spool NotASpool' list --config relayd.toml
refused 1 'relayd: spool NotEmpty' init --config relayd.toml
if [ "$(cat relay.spool)" != 'a text that is no spool' ]; then
    echo "a file that is no spool was written" >&2
    exit 1
fi
printf "$head"'\x01\x00\x00\x00\x02x' > relay.spool
refused 1 'relayd: spool Damaged 17' list --config relayd.toml
printf "$head"'\x01\x00\x00\x00\x01\x04\x00' > relay.spool
refused 1 'relayd: spool BadRecord 1' list --config relayd.toml

# A spool that isn't there is none to list, and none is made.
rm relay.spool
refused 1 'relayd: device' list --config relayd.toml
if [ -e relay.spool ]; then
    echo "list has made a spool" >&2
    exit 1
fi
# Nor do the subcommands that lock a spool make one; in a folder that isn't there none can be.
mkdir empty
chmod 777 empty
configuration empty/relay.spool
for word in push serve compact; do
    refused 1 'relayd: spool NotASpool' "$word" --config relayd.toml
done
refused 1 $'relayd: spool NotASpool\nrelayd: run "relayd init --config relayd.toml" once' \
    run --quiet --config relayd.toml
if [ -n "$(ls -A empty)" ]; then
    echo "a spool was made where there was none: $(ls -A empty)" >&2
    exit 1
fi
configuration folder/missing/relay.spool
for word in push serve compact 'run --quiet'; do
    # shellcheck disable=SC2086
    refused 1 'relayd: device' $word --config relayd.toml
done
configuration relay.spool
# A spool is made once, for its owner alone.
refused 0 '' init --config relayd.toml
refused 0 '' list --config relayd.toml
refused 1 'relayd: spool NotEmpty' init --config relayd.toml
if [ "$(stat -c '%a %s' relay.spool)" != '600 18' ]; then
    echo "the spool has the mode and size $(stat -c '%a %s' relay.spool)" >&2
    exit 1
fi
# While another process holds the lock of one of its files, no subcommand that takes it does; `list` takes none.
for file in relay.spool relay.spool.2; do
    exec 9<> "$file"
    flock 9
    for word in push serve compact 'run --quiet'; do
        # shellcheck disable=SC2086
        refused 1 $'relayd: device\nrelayd: another relayd holds the spool: stop it, or wait until it ends' \
            $word --config relayd.toml
    done
    refused 0 '' list --config relayd.toml
    exec 9>&-
done
# A message of the first moment, from <a@example.org> to <b@example.org>, as its record stands in a spool by hand: an
# open gate and the record's 57 octets; its kind and its moment; MAIL's path, and neither RET nor ENVID; one recipient,
# its path, and neither NOTIFY nor ORCPT; the stored text, which is a line of one letter.
moment='\x00\x00\x00\x00\x00\x00\x00\x00'
mail='\x00\x0f<a@example.org>\x00\x00\x00'
rcpt='\x01\x00\x0f<b@example.org>\x00\x00\x00'
printf "$head"'\x01\x00\x00\x00\x39\x01'"$moment$mail$rcpt"'\x00\x00\x00\x03x\r\n\x00' > relay.spool
status=0
"${as[@]}" "$relayd" list --config relayd.toml > out 2> err || status=$?
if [ "$status" -ne 0 ] || [ "$(cat out)" != '1 0 <b@example.org> 0' ] || [ -s err ]; then
    echo "relayd list: status $status and $(cat out err), and not one place that is due at once" >&2
    exit 1
fi
# Who lists needs no leave to write.
chmod 444 relay.spool
if [ "$("${as[@]}" "$relayd" list --config relayd.toml)" != '1 0 <b@example.org> 0' ]; then
    echo "relayd list doesn't list what it can't write" >&2
    exit 1
fi
echo "faults over files: $faults, each by its lines, and a message listed"
