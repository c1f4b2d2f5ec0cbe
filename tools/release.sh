#!/bin/sh
# Makes the archive of a release: the program, the tools, the pages as they are and as HTML, the page of `man`, completion, the examples, and sums of all of it.
#
#     tools/release.sh FOLDER [--unproved]
#
# It is made in a clean clone, after the gate: nothing is changed there, and the proved program is built and no source is newer. Two archives of one commit and one
# program have the same bytes. With --unproved the program may be the unproved one, which then says so in each call; that is for trying this script.
case $1:$# in
  --help:*) sed -n '2,4s/^# \{0,1\}//p' "$0"; exit ;;
  :* | -*) sed -n '2,4s/^# \{0,1\}//p' "$0" >&2; exit 2 ;;
esac
case $#:$2 in
  1: | 2:--unproved) ;;
  *) sed -n '2,4s/^# \{0,1\}//p' "$0" >&2; exit 2 ;;
esac
top=$(dirname "$(dirname "$(readlink -f "$0")")")

fail() {
  echo "tools/release.sh: $1" >&2
  exit 1
}

cd "$top" || exit 1
[ -z "$(git status --porcelain)" ] || fail "something is changed here: git status says what"
commit=$(git rev-parse HEAD) && moment=$(git log -1 --format=%ct) || fail "this is no clone"
found=$(cd tools && python3 -B -c 'from vechaqir import find; it = find(); print("proved" if it.proved else "unproved", it.path)') || exit 1
program=${found#* } state=${found%% *}
[ "$state" = proved ] || [ "$2" = --unproved ] || fail "the proved program is not built: .ci/run proves and builds it"
kit=$(rt version 2>/dev/null) || kit="an unknown kit"

work=$(mktemp -d) || exit 1
trap 'rm -rf "$work"' EXIT
name=tapa-$(cat VERSION)-linux-x86_64
home=$work/$name
mkdir "$home" || exit 1
git archive HEAD tapa README.md CHANGELOG.md SECURITY.md VERSION tools docs examples | tar -x -C "$home" || fail "the files of the commit could not be copied"
mkdir -p "$home/program" "$home/share/man/man1"
cp "$program" "$home/program/tapa" && chmod 755 "$home/program/tapa" || exit 1
python3 -B "$home/tools/manual.py" man > "$home/share/man/man1/tapa.1" || exit 1
for page in "$home"/*.md "$home"/docs/*.md "$home/examples/README.md" "$home/tools/README.md"; do
  case $page in
    */examples/*) made=EXAMPLES ;;
    */tools/*) made=TOOLS ;;
    *) made=$(basename "$page" .md) ;;
  esac
  python3 -B "$home/tools/manual.py" html "$page" > "$home/docs/$made.html" || exit 1
done
sum=$(sha256sum < "$home/program/tapa" | cut -d' ' -f1)
if [ "$state" = proved ]; then
  echo "$kit accepted the sources of commit $commit, of which this program was built: sha256 $sum" > "$home/program/PROVED"
fi
python3 -B "$home/tools/release_page.py" "$home" "$state" "$commit" "$kit" > "$home/RELEASE.md" || exit 1
(cd "$home" && find . -type f ! -name SUMS | LC_ALL=C sort | xargs -d '\n' sha256sum > SUMS) || exit 1

archive=$work/$name.tar.gz
tar --sort=name --mtime="@$moment" --owner=0 --group=0 --numeric-owner --mode=u+rwX,go+rX,go-w -C "$work" -c "$name" | gzip -n -9 > "$archive" || exit 1
cd - > /dev/null && mkdir -p "$1" && mv "$archive" "$1/" || exit 1
(cd "$1" && sha256sum "$name.tar.gz")
