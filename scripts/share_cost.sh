#!/bin/bash
# What groups and slots cost at 4,096 paths: builds rows_classes and times it on generated cases. It is no part of the gate.
set -euo pipefail
cd "$(dirname "$0")/../crates/rows_classes"
rt run > /dev/null 2>&1
folder=$(mktemp -d)
trap 'rm -r "$folder"' EXIT
own=$(printf ' C f%s;' {0..15})
ints=$(printf ' int f%s;' {0..15})

# a case of that name, with those pieces of source, and one question
case_of() {
    printf "[[case]]\nname = \"%s\"\nsource_numbered = [%s]\nrows = '''\n%s\n'''\n" "$1" "$2" "$3" > "$folder/$1.toml"
}

one="[\"package p {\", 0, 0], [\" class c# {$ints }\", 0, 4094], [\" }\", 0, 0]"
adapt="[\"package p# { class C { int v; }\", 0, 0], [\" class c# {$ints }\", 0, 13], [\" }\", 0, 0], [\"package p# extends p0000 adapts p0000 { }\", 1, 255]"
hang="[\"package p# { class C { int v; }\", 0, 0], [\" class c# {$own }\", 0, 13], [\" }\", 0, 0], [\"package p# extends p0000 adapts p0000 { }\", 1, 255]"
case_of table_alone "$adapt" "count => 4096"
case_of one_family "$one" "slots => Ok"
case_of groups_alone "$adapt" "groups => Ok"
case_of families_of_numbers "$adapt" "slots => Ok"
case_of families_that_hang "$hang" "slots => Ok"
for name in table_alone one_family groups_alone families_of_numbers families_that_hang; do
    echo "$name"
    (cd "$folder" && time "$OLDPWD/out/rows_classes" "$name.toml")
done
