# shellcheck shell=bash
# What the tests need beside the Rattle toolchain: a command, and the Debian package that has it.
need() { # COMMAND PACKAGE
    command -v "$1" >/dev/null && return
    echo "$1 is missing: installing $2" >&2
    apt-get install -y -qq "$2" >/dev/null || { apt-get update -qq && apt-get install -y -qq "$2" >/dev/null; }
}

# The library's archive as it stands, made once for a script and those that it calls.
archive() {
    [ -z "${ARCHIVE_MADE:-}" ] || return 0
    local said
    said=$(cd ../crates/c_api && rt lib 2>&1) || { echo "$said" >&2; exit 1; }
    export ARCHIVE_MADE=yes
}
