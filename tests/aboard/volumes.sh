# shellcheck shell=bash disable=SC2154
# The part of tests/aboard/run for volumes: a program aboard does to its files what the script does to the same files, and leaves
# nothing beside them.
folder=$root/volumes
mkdir "$folder" "$scripts/volumes"
umask 022
state() { # FOLDER
    (cd "$1" && find . ! -name . -printf '%P %y %m %l\n' | sort && find . -type f -exec sha256sum {} + | sort)
}
kept() { # ARGUMENT..
    alike /dev/null linevolume "$@"
    equal "the files after $*" "$(state "$scripts/volumes")" "$(state "$folder")"
}
# The last call has left the files as they were.
untouched() { # WHAT
    equal "the files after $1" "$before" "$(state "$folder")"
}
on_both() { # COMMAND..
    (cd "$scripts" && "$@")
    (cd "$root" && "$@")
}
kept new volumes/again
for place in 1 2 3; do
    ./linevolume get samples/season.volume $place >"$root/header"
    cp "$root/header" "$scripts/header"
    kept append volumes/again header
done
cmp samples/season.volume "$folder/again" || fail 'the sample made again aboard is another volume'
kept new volumes/season
kept list volumes/season
on_both chmod 640 volumes/season
for sample in samples/*.p294 samples/*.disk; do
    kept append volumes/season "$sample"
done
kept list volumes/season
lines=$(wc -l <"$room/out")
[ "$lines" -ge 10 ] || fail "the volume has only $lines lines"
for place in $(seq 0 $((lines + 1))) 999999999999999999; do
    kept get volumes/season "$place"
done
equal 'the mode of the volume' 640 "$(stat -c %a "$folder/season")"
head -c 330000 /dev/zero | tr '\0' C >"$room/long"
for size in 0 80 64080 327679 327680 327681 327760 327761 330000; do
    head -c "$size" "$room/long" | tee "$scripts/long" >"$root/long"
    kept append volumes/again long
done

# Changed within its own cards: widened, a volume takes two headers of 800 cards and does not come back, but is compacted.
for word in widen narrow widen; do
    kept "$word" volumes/again
done
{ cat samples/node-214.p294; yes "$(printf '%-80s' C0001)" | tr -d '\n' | head -c $((775 * 80)) || true; } |
    tee "$scripts/long" >"$root/long"
equal 'the size of a header of 800 cards' 64000 "$(stat -c %s "$root/long")"
for arguments in 'append volumes/again long' 'append volumes/again long' 'narrow volumes/again' 'compact volumes/again' \
    'list volumes/again' 'get volumes/again 3'; do
    # shellcheck disable=SC2086
    kept $arguments
done
for size in 0 79 81 4319 4320; do
    head -c "$size" samples/season.volume | tee "$scripts/volumes/sized" >"$folder/sized"
    kept append volumes/sized samples/example.p294
    kept list volumes/sized
done

# Links, folders, names.
on_both mkdir links
on_both ln -s ../volumes/link links/to
on_both ln -s season volumes/link
on_both ln -s none volumes/dangling
on_both ln -s loop volumes/loop
on_both cp samples/season.volume "volumes/$(printf 'v%.0s' {1..250})"
for arguments in new\ {none/season,volumes,volumes/,volumes/again,volumes/slash/,volumes/link,volumes/dangling,volumes/loop} \
    'widen volumes/none' 'narrow volumes' 'compact volumes/link' \
    'append volumes/again none' 'append volumes samples/example.p294' 'append volumes/again samples' 'append none/a none' \
    'append volumes/dangling samples/example.p294' 'append links/to samples/example.p294' \
    'append ./volumes/../links/to samples/example.p294' "append volumes/$(printf 'v%.0s' {1..250}) samples/example.p294"; do
    # shellcheck disable=SC2086
    kept $arguments
done
kept new ''
kept append '' ''

# A write that fails leaves the old volume; one that is cut off too, and the next append works.
before=$(state "$folder")
call bash -c 'trap "" XFSZ; ulimit -f 1; exec "$@"' bash "${inside[@]}" ${emulator[@]+"${emulator[@]}"} ./linevolume append \
    volumes/again samples/example.p294
failed 'an append without room' 1 'linevolume: standard output: File too large'
untouched 'an append without room'
status=0
(ulimit -f 1 && aboard linevolume append volumes/again samples/example.p294; exit $?) >"$room/out" 2>"$room/err" || status=$?
[ "$status" -gt 128 ] || fail "an append cut off has status $status"
equal 'half a file beside the volume' 1024 "$(stat -c %s "$folder"/.again.*)"
rm "$folder"/.again.*
untouched 'an append cut off'
kept append volumes/again samples/example.p294

# Folders and files without rights.
as_user() { # ARGUMENT..
    call "${user[@]}" ${emulator[@]+"${emulator[@]}"} ./linevolume "$@"
    sed -i "s|$root/|/|" "$room/err"
}
chmod 666 "$folder/again"
chmod 555 "$folder"
before=$(state "$folder")
as_user append volumes/again samples/example.p294
failed 'no file beside the volume' 1 'linevolume: /volumes: no file can be written there'
as_user new volumes/more
failed 'no file in the folder' 1 'linevolume: /volumes: no file can be written there'
chmod 444 "$folder/again"
as_user append volumes/again samples/example.p294
failed 'a volume that is not to be written' 2 'linevolume: volumes/again: cannot be written'
chmod 000 "$folder/again"
as_user append volumes/again samples/example.p294
failed 'a volume that is not to be read' 2 'linevolume: volumes/again: cannot be read'
chmod 666 "$folder/again"
chmod 333 "$folder"
as_user append volumes/again samples/example.p294
failed 'a folder that is not to be read' 1 'linevolume: /volumes: cannot be read'
chmod 755 "$folder"
untouched 'calls without rights'

# An append waits for who holds the folder, and several at once lose no line, the script's among them.
rm -r "$folder"
mkdir "$folder"
cp samples/season.volume "$folder/season"
exec 8<"$folder"
flock 8
aboard linevolume append volumes/season samples/example.p294 8<&- &
sleep 0.5
cmp samples/season.volume "$folder/season" || fail 'an append did not wait'
exec 8<&-
wait $!
lines=$(./linevolume list "$folder/season" | wc -l)
equal 'lines after an append that waited' 4 "$lines"
several=(node-214 two-boats network broken-1 broken-2 broken-3)
for n in 0 2 4; do
    aboard linevolume append volumes/season "samples/${several[n]}.p294" &
    ./linevolume append "$folder/season" "samples/${several[n + 1]}.p294" &
done
wait
for place in {5..10}; do
    aboard linevolume get volumes/season "$place" | sha256sum
done | sort >"$room/out"
for name in "${several[@]}"; do
    sha256sum <"samples/$name.p294"
done | sort >"$room/several"
same 'six appends at once' "$room/several" "$room/out"
equal 'the files after six appends at once' season "$(ls -A "$folder")"
