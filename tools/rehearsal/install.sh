#!/usr/bin/env bash
# Fetches a real server, its client and the libraries that they need into a folder. It installs nothing into the system.
#     install.sh mysql|mariadb [FOLDER]
# FOLDER is ORCH_SERVERS/KIND by default, and ORCH_SERVERS is ~/.cache/orch-servers by default. The rehearsal looks there.
# The packages come by apt's own client from the Debian archive that apt is set up for on this machine. MySQL comes from the suite unstable, as no
# other suite has it. MariaDB comes from the suite stable. SUITE names another one. apt's own lists, cache and status stay as they are.
# The programs run by their own loader: FOLDER/bin/mysqld and FOLDER/bin/mysql, or FOLDER/bin/mariadbd and FOLDER/bin/mariadb.
# It fetches about 70 MB and unpacks about 400 MB. Exit status: 0 fetched or there already; 2 wrong arguments; 4 the archive doesn't have them.
set -eu
kind=${1:-}
case $kind in
  mysql) suite=${SUITE:-unstable}; packages="mysql-server-core mysql-client-core"; programs="sbin/mysqld bin/mysql" ;;
  mariadb) suite=${SUITE:-stable}; packages="mariadb-server-core mariadb-client-core"; programs="sbin/mariadbd bin/mariadb" ;;
  *) echo "usage: install.sh mysql|mariadb [FOLDER]" >&2; exit 2 ;;
esac
folder=${2:-${ORCH_SERVERS:-$HOME/.cache/orch-servers}/$kind}
server=${programs%% *}
version() { "$folder/bin/${server##*/}" --no-defaults --version; }
[ -x "$folder/bin/${server##*/}" ] && { echo "is there: $(version)"; exit 0; }
mkdir -p "$folder/apt/state/lists/partial" "$folder/apt/cache/archives/partial" "$folder/root" "$folder/bin"
folder=$(cd "$folder" && pwd)
cd "$folder"
uri=$(cat /etc/apt/sources.list /etc/apt/sources.list.d/*.list /etc/apt/sources.list.d/*.sources 2>/dev/null \
      | awk '/^URIs:/ {for (i = 2; i <= NF; i++) print $i} /^deb / {for (i = 2; i <= NF; i++) if ($i ~ /:\/\//) {print $i; break}}' \
      | grep '/debian/*$' | head -1)
[ -n "$uri" ] || { echo "apt is set up for no Debian archive" >&2; exit 4; }
key=$(ls /usr/share/keyrings/debian-archive-keyring.* | head -1)
echo "deb [signed-by=$key] $uri $suite main" > apt/sources.list
: > apt/status
options="-o Dir::Etc::sourcelist=$folder/apt/sources.list -o Dir::Etc::sourceparts=/dev/null -o Dir::Etc::preferencesparts=/dev/null
  -o Dir::Etc::preferences=/dev/null -o Dir::State=$folder/apt/state -o Dir::State::status=$folder/apt/status -o Dir::Cache=$folder/apt/cache
  -o Acquire::Languages=none -o APT::Sandbox::User=root -o Debug::NoLocking=1"
timeout 300 apt-get $options -qq update || { echo "the archive has no suite $suite" >&2; exit 4; }
timeout 600 apt-get $options -qq -y --download-only --no-install-recommends install $packages > apt/log 2>&1 || { tail -2 apt/log >&2; exit 4; }
for package in apt/cache/archives/*.deb; do
  case ${package##*/} in perl*|libperl*) ;; *) dpkg-deb -x "$package" root ;; esac
done
rm -rf apt
loader=$(ls root/usr/lib64/ld-linux-*.so.* root/lib64/ld-linux-*.so.* root/usr/lib/ld-linux-*.so.* root/lib/ld-linux-*.so.* 2>/dev/null | head -1)
libraries=$(ls -d "$folder"/root/usr/lib/*-linux-gnu "$folder"/root/lib/*-linux-gnu 2>/dev/null | paste -sd:)
for program in $programs; do
  printf '#!/bin/sh\nexec "%s" --library-path "%s" "%s" "$@"\n' "$folder/$loader" "$libraries" "$folder/root/usr/$program" > "bin/${program##*/}"
  chmod +x "bin/${program##*/}"
done
version
