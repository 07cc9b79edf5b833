# What the benches of serving and mounting share: a server and mounts of `program` over loopback, in a folder of their own.

server=

# Makes the folder below this one, with what else stands beside the script, and goes there. It's removed at the end, and a server that still runs is ended: where the
# script is stopped too, for which some shells don't run what stands at their end.
enter_folder() {
    folder=$(realpath "$(mktemp -d "$1/loopback.XXXXXX")")
    trap 'leave_folder' EXIT
    trap 'exit 1' HUP INT TERM
    cd "$folder"
}

leave_folder() {
    [ -z "$server" ] || kill "$server" 2> /dev/null || true
    cd /
    rm -rf "$folder"
}

# Starts a server of a new disk for so many mounts at this port, and waits until it listens. It doesn't outlive the script, however that ends.
begin_server() {
    rm -f echofs.disk server.log
    setpriv --pdeathsig TERM "$program" serve "127.0.0.1:$1" "$2" 2> server.log &
    server=$!
    until grep -q "serves at" server.log 2> /dev/null; do
        kill -0 "$server"
        sleep 0.01
    done
}

# Waits until all its mounts have come and gone.
end_server() {
    wait "$server"
    server=
}

mount_at() {
    "$program" mount "127.0.0.1:$1" "$2" 2> "mount.$2.log"
}
