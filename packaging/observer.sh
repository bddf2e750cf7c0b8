#!/bin/sh
# Starts the program of this folder with the C library of this folder, wherever the folder lies. So it runs where the
# system has an older C library, or another one. Arguments and exit status are the program's own.
here=$(readlink -f -- "$0") || exit 70
here=${here%/*/*}
exec "$here/lib/ld-linux-x86-64.so.2" --library-path "$here/lib" "$here/bin/observer" "$@"
