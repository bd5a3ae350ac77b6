# Read by the scripts of the gate: what they say, and what they install.

say() { printf 'gate: %s\n' "$*"; }

# Installs Debian's packages, as root where it must.
install() { # PACKAGE..
    local as='' log
    [ "$(id -u)" -eq 0 ] || as='sudo -n'
    log=$({ $as apt-get update && $as env DEBIAN_FRONTEND=noninteractive apt-get install -y --no-install-recommends "$@"; } 2>&1) || tail -n 3 <<<"$log"
}

# Sees to a command, by Debian's packages where it is missing.
need() { # COMMAND PACKAGE..
    command -v "$1" >/dev/null && return
    say "$1 is missing: installing ${*:2}"
    install "${@:2}"
    command -v "$1" >/dev/null || { say "$1 is missing and could not be installed (Debian: ${*:2})"; return 1; }
}
