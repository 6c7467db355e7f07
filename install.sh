#!/usr/bin/env bash
# Installs the program, `ask`, lib, the guides, the man pages and the completion of bash below a folder, /usr/local unless another is named.
#
#   ./install.sh [--prefix FOLDER]      installs
#   ./install.sh --remove [--prefix FOLDER]      takes away what was installed
#
# The program has to stand: `./andorra build` makes it. DESTDIR, where it is set, stands before each folder.
set -u
top=$(cd "$(dirname "${BASH_SOURCE[0]}")" && pwd) || exit 1
program=$top/crates/andorra/out/andorra
prefix=/usr/local
remove=

say() { echo "install.sh: $*" >&2; }
stop() { say "$*"; exit 1; }

while [ "$#" -gt 0 ]; do
  case $1 in
    --prefix=*) prefix=${1#--prefix=} ;;
    --prefix) shift; [ "$#" -gt 0 ] || { say "--prefix wants a folder behind it"; exit 2; }; prefix=$1 ;;
    --remove) remove=yes ;;
    -h | --help) sed -n '2,7s/^# \{0,1\}//p' "${BASH_SOURCE[0]}"; exit 0 ;;
    *) say "there is no $1; --help tells what there is"; exit 2 ;;
  esac
  shift
done
[ -n "$prefix" ] || { say "the prefix is empty"; exit 2; }
case $prefix in /*) ;; *) prefix=$PWD/$prefix ;; esac
to=${DESTDIR-}$prefix

# each file that is installed: its mode, where it stands, and where it goes below the prefix
files() {
  echo "755 $program bin/andorra"
  echo "755 $top/ask bin/ask"
  local file
  for file in "$top"/lib/*.pl; do echo "644 $file share/andorra/lib/${file##*/}"; done
  for file in "$top"/man/*.1; do echo "644 $file share/man/man1/${file##*/}"; done
  for file in language tutorial from-prolog; do echo "644 $top/docs/$file.md share/doc/andorra/$file.md"; done
  echo "644 $top/editors/bash/andorra share/bash-completion/completions/andorra"
  echo "644 $top/editors/bash/andorra share/bash-completion/completions/ask"
}

if [ -n "$remove" ]; then
  files | while read -r _ file; do rm -f "$to/${file##* }" || exit 1; done || stop "not all could be taken away from $to"
  rmdir "$to/share/andorra/lib" "$to/share/andorra" "$to/share/doc/andorra" 2>/dev/null
  say "taken away from $to"
  exit 0
fi

[ -x "$program" ] || stop "the proved program does not stand yet: ./andorra build makes it"
[ -z "$(find "$top/crates" -name out -prune -o \( -name '*.rt' -o -name '*.antt' \) -newer "$program" -print -quit)" ] ||
  say "the program is older than its text: ./andorra build makes it anew"
files | while read -r mode file; do
  from=${file% *}
  install -D -m "$mode" "$from" "$to/${file##* }" || exit 1
done || stop "not all could be installed below $to"
say "installed below $to"
case :$PATH: in *:"$prefix/bin":*) ;; *) say "$prefix/bin is not on the path" ;; esac
