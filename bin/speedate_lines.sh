#!/bin/sh
# speedate_lines as `bin/build_program --prefix DIR` installs it, which fills in what is between @ signs. The program
# ignores arguments, so this script answers them.

case $#:${1-} in
0:*) ;;
1:--help)
    cat <<'USAGE'
@USAGE@
The manual page has more examples. The status is 0; 1 if a read failed; 2 if a write failed; 64 if there
is another argument than --help or --version.
USAGE
    exit 0
    ;;
1:--version)
    echo 'speedate_lines @VERSION@'
    exit 0
    ;;
*)
    echo 'speedate_lines: it takes no argument but --help or --version: the lines are read from standard input' >&2
    exit 64
    ;;
esac

here=$0
[ ! -L "$here" ] || here=$(readlink -f "$here")
case $here in */*) ;; *) here=./$here ;; esac
exec "${here%/*}/../libexec/speedate/speedate_lines"
