#!/usr/bin/env bash
# Whether the recipes of "Where to add" in docs/ARCHITECTURE.md are enough for a program without proofs: a ninth module and a call more are added to a
# copy of the repository, in the files of their `src` columns alone (adding_tried.py), and the copy is built. What it prints of a script with
# the new module and call is what it prints with those whose rows were copied, but for the names. It isn't part of the gate, since it
# builds for minutes.
set -u
cd "$(dirname "$0")/.." || exit 1
folder=$(mktemp -d) || exit 1
trap 'rm -rf "$folder"' EXIT
copy=$folder/repository
mkdir "$copy"
tar cf - --exclude=out HANDLES crates.txt crates checks | tar xf - -C "$copy" || exit 1

python3 -B checks/adding_tried.py "$copy" || exit 1
bash "$copy/checks/unproved.sh" "$folder/program" || exit 1

cat >"$folder/script" <<'SCRIPT'
boot mac_ninth
boot mac_biba
task t uid 0 gid 47 label biba/high(low-high)
socket s
glimpse s
glimpse nothing
priv SCHED_RTPRIO
kldstat
kldunload mac_ninth
priv SCHED_RTPRIO
kldload mac_ninth
end
SCRIPT
with_old_names() {
  sed 's/mac_ninth/mac_priority/; s/glimpse/seesock/'
}
"$folder/program" run <"$folder/script" | with_old_names >"$folder/new" || exit 1
with_old_names <"$folder/script" | "$folder/program" run >"$folder/old" || exit 1
if ! grep -q '^done t 2 ok' "$folder/new" || ! cmp -s "$folder/new" "$folder/old"; then
  echo "adding-tried: the new module and call don't do as those whose rows they have"
  diff "$folder/old" "$folder/new"
  exit 1
fi
echo "adding-tried: a module and a call were added by the recipe, and do as they should"
