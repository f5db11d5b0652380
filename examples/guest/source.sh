#!/bin/sh
# Fetches source packages of this Debian and unpacks them: source.sh FOLDER PACKAGE.. apt's own lists are left as they
# are: each place that they name for packages is asked for sources here, by a configuration that is removed afterwards.
# Root is not needed.
set -e
. "$(dirname "$(readlink -f "$0")")/common.sh"
[ $# -gt 1 ] || fail "a folder is wanted, and names of source packages" 2
need apt-get=apt dpkg-source=dpkg-dev
mkdir -p "$1"
cd "$1"
shift
apt=$(mktemp -d)
trap 'rm -rf "$apt"' EXIT
mkdir -p "$apt/parts" "$apt/lists/partial" "$apt/cache/archives/partial"
for list in /etc/apt/sources.list /etc/apt/sources.list.d/*.list; do
    [ ! -f "$list" ] || sed -n 's/^deb /deb-src /p' "$list" >"$apt/parts/$(basename "$list" .list).list"
done
for list in /etc/apt/sources.list.d/*.sources; do
    [ ! -f "$list" ] || sed 's/^Types:.*/Types: deb-src/' "$list" >"$apt/parts/$(basename "$list")"
done
cat >"$apt/conf" <<CONF
Dir::Etc::SourceList "/dev/null";
Dir::Etc::SourceParts "$apt/parts";
Dir::State::Lists "$apt/lists";
Dir::Cache "$apt/cache";
APT::Sandbox::User "";
Acquire::Retries "1";
Acquire::http::Timeout "20";
Acquire::https::Timeout "20";
CONF
export APT_CONFIG="$apt/conf"
apt() {
    apt-get -q "$@" >"$apt/log" 2>&1 || {
        cat "$apt/log" >&2
        fail "the sources cannot be fetched" $LACKING
    }
}
apt update
for package in "$@"; do
    apt source "$package"
done
