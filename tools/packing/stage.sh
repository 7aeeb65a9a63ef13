# shellcheck shell=bash
# What tools/dist and tools/deb share. They source it at the top of the repository.
export LC_ALL=C
umask 022
# shellcheck disable=SC2034
version=$(cat VERSION)
# The machine for which is packed, as uname names it, what precedes the names of its tools, and the
# compiler.
machine=${MACHINE:-x86_64}
tool_prefix=
compiler=${CC:-cc}
room=$(mktemp -d)
trap 'rm -rf "$room"' EXIT

stop() {
  echo "$(basename "$0"): $1" >&2
  exit 1
}

case $machine in
  x86_64) ;;
  aarch64)
    tool_prefix=$machine-linux-gnu-
    compiler=${tool_prefix}gcc
    ;;
  *) stop "MACHINE is x86_64 or aarch64, not $machine" ;;
esac

# The logic by which a file was proved. The kit writes it into the file.
logic_of() {
  { grep -ao 'rattle logic=[0-9a-f]\{64\}' "$1" || true; } | sed -n '1s/.*=//p'
}

# Installs what is built into $room/tree, for a prefix and a folder of libraries. It compiles the C
# parts without folders of this machine in their debugging information. Each proved file must have
# been proved by the logic that README.md names.
install_to_room() {
  local prefix=$1 libraries=$2 file words=()
  [ "$(uname -sm)" = "Linux x86_64" ] || stop "this is not Linux on x86-64"
  [ -z "$(git status --porcelain)" ] || stop "files differ from the commit: git status"
  for file in lib/libyakyrombe{,-journal}.a; do
    [ -f "$file" ] || stop "$file is not there: run ./test"
  done
  mkdir "$room/lib"
  if [ "$machine" = x86_64 ]; then
    cp lib/libyakyrombe{,-journal}.a "$room/lib"
  else
    tools/packing/cross "$machine" >&2
    words=(LD="${tool_prefix}ld" AR="${tool_prefix}ar" OBJCOPY="${tool_prefix}objcopy"
      CROSS="$PWD/lib/$machine" PROVED="$PWD/lib/$machine/libc_exports.a"
      PROVED_JOURNAL="$PWD/lib/$machine/libc_journals.a")
  fi
  make -s install DESTDIR="$room/tree" PREFIX="$prefix" LIBDIR="$libraries" LIB="$room/lib" \
    CC="$compiler" "${words[@]}" \
    CFLAGS="-O2 -g -ffile-prefix-map=$PWD=. -ffile-prefix-map=$room=." \
    LDFLAGS="-Wl,-z,relro,-z,now" >&2
  logic=$(logic_of "$room/tree$libraries/libyakyrombe.a")
  [ -n "$logic" ] || stop "lib/libyakyrombe.a does not say by which logic it was proved"
  grep -q "logic ${logic:0:16}" README.md || stop "README.md does not name the logic $logic"
  [[ $(logic_of "$room/tree$libraries/libyakyrombe-journal.a") == "$logic" ]] \
    || stop "libyakyrombe-journal.a does not say that it was proved by the logic $logic"
  for file in bin/mqrun bin/mqlog libexec/yakyrombe/mqexplore; do
    [ "$file" != libexec/yakyrombe/mqexplore ] || [ -e "$room/tree$prefix/$file" ] || continue
    [[ $(logic_of "$room/tree$prefix/$file") == "$logic" ]] \
      || stop "$file does not say that it was proved by the logic of lib/libyakyrombe.a: $logic"
  done
}
