#!/bin/sh
# What the program does with what is at a path: what is no regular file, links, a store that another run holds,
# streams that are the store, a folder that may not be read, a file system that is full, may only be read, has no
# locks or syncs no folders. What of this needs no root, `.ci/program` tries too, and more: modes of files, streams
# that are closed, not read any longer, or do not block.
#
#     bench/edge.sh PROGRAM
#
# One line a case, with what was expected and what was seen. Ends with status 0 only where all hold. What
# this machine cannot do (a loop device, a mount, another user, a trace) is passed over, and a line says so.
if [ $# -ne 1 ] || [ ! -x "$1" ]; then
    echo 'usage: bench/edge.sh PROGRAM' >&2
    exit 2
fi
folder=$(mktemp -d) || exit 2
folder=$(cd -- "$folder" && pwd -P)
loop=
mounted=
end() {
    cd /
    [ -z "$mounted" ] || umount "$mounted"
    [ -z "$loop" ] || losetup -d "$loop"
    rm -rf -- "$folder"
}
trap end EXIT
trap 'exit 1' HUP INT TERM
mkdir "$folder/work" && cp -- "$1" "$folder/places" && chmod 755 "$folder" "$folder/places" || exit 2
cd -- "$folder/work" || exit 2

program=$folder/places
visit='visit\thttps://www.mozilla.org/\t1\t0\n'
first='visit 1 page 1 frecency 100'
second='visit 2 page 1 frecency 200'
failures=0

# tell CASE EXPECTED SEEN MORE
tell() {
    holds=ok
    [ "$2" = "$3" ] || { holds=WRONG failures=$((failures + 1)); }
    printf '%s | %s | expected: %s | seen: %s%s\n' "$holds" "$1" "$2" "$3" "$4"
}

pass_over() {
    printf 'passed over | %s\n' "$1"
}

# What is at a path, with the sum of the bytes of a file or a block device.
state() {
    if [ -f "$1" ] || [ -b "$1" ]; then
        cksum <"$1"
    elif [ -e "$1" ]; then
        echo special
    else
        echo missing
    fi
}

# check EXPECTED FILE WORDS [PREFIX] runs the program by a shell on the words, with the redirections behind
# them and the prefix in front, and one visit as its input. EXPECTED is the status, what was done to FILE
# (same, made or changed), and what was said.
check() {
    before=$(state "$2")
    said=$(sh -c "printf '$visit' | { timeout 20 $4 $program $3; echo \$? >status; }" 2>errors | tr '\t\n' '  ')
    after=$(state "$2")
    case $before/$after in
    "$after/$before") did=same ;;
    missing/*) did=made ;;
    *) did=changed ;;
    esac
    said=${said% }
    tell "${4:+$4 }$3" "$1" "$(cat status), $did${said:+, $said}" "$(sed 's/^/, on standard error: /' errors)"
}

# ---- what is no regular file
mkdir folder
mkfifo pipe
python3 -c 'import socket; socket.socket(socket.AF_UNIX).bind("socket")'
for path in folder pipe socket /dev/null; do
    for words in new run import export backup; do
        check '5, same' "$path" "$words $path"
    done
    check '5, same' "$path" "drill $path 5 1"
done
truncate -s 1M disk
if loop=$(losetup -f --show disk 2>/dev/null); then
    check '5, same' "$loop" "new $loop"
    check '5, same' "$loop" "run $loop"
else
    loop=
    pass_over 'a block device: losetup made none'
fi

# ---- links
mkdir real
ln -s real/store link
check '0, made, new' real/store 'new link'
check "0, changed, $first" real/store 'run link'
check "0, changed, $second" real/store 'run real/store'
ln -s loop loop
check '5, same' loop 'new loop'
ln -s none/store astray
check '5, same' none/store 'new astray'

# ---- one holder at a time
"$program" new held >status
ln held other_name
mkfifo input
"$program" run held <input >answers 2>&1 &
holder=$!
exec 3>input
printf "$visit" >&3
tries=0
while [ ! -s answers ] && [ $tries -lt 100 ]; do
    sleep 0.1
    tries=$((tries + 1))
done
for words in 'run held' 'new held' 'import held' 'export held' 'backup held' 'drill held 5 1' 'run other_name'; do
    check '5, same' held "$words"
done
exec 3>&-
wait $holder
tell 'the holder itself' "0, $first" "$?, $(tr '\t' ' ' <answers)"
check "0, changed, $second" held 'run held'

# ---- streams that are the store, and streams that are closed
for stream in '<' '1<>' '1>>' '2<>' '2>>'; do
    "$program" new "by_$stream" >status
    check '5, same' "by_$stream" "run 'by_$stream' $stream'by_$stream'"
done
: >empty
check '5, same' empty 'new empty 1<>empty'
check '5, same' 'by_<' "import 'by_<' <'by_<'"
check '5, same' 'by_1<>' "export 'by_1<>' 1<>'by_1<>'"
"$program" new store >status
check "0, changed, $first" store 'run store 2>&-'
check '4, changed' store 'run store 1>&-'

# ---- a folder that may not be read
mkdir unread
"$program" new unread/store >status
chmod 666 unread/store status errors
nobody='setpriv --reuid=65534 --regid=65534 --clear-groups'
if $nobody true 2>/dev/null; then
    chmod 711 unread
    check '5, same' unread/store 'run unread/store' "$nobody"
    chmod 733 unread
    check '5, same' unread/another 'new unread/another' "$nobody"
else
    pass_over 'a folder that may not be read: there is no other user'
fi

# ---- a file system that is full, and one that may only be read
mkdir small
truncate -s 256K image
if mke2fs -q -t ext2 -b 1024 image 2>/dev/null && mount -o loop image small 2>/dev/null; then
    mounted=$folder/work/small
    "$program" new small/store >status
    dd if=/dev/zero of=small/filler bs=1k 2>errors
    check '5, made' small/another 'new small/another'
    long=$(head -c 4000 /dev/zero | tr '\0' x)
    bookmark="bookmark\t5\tend\thttps://long.example/\t$long\t0\n"
    tell 'a change with no room for it' '5, ' \
        "$(printf "$bookmark" | "$program" run small/store 2>errors >said; echo "$?, $(cat said)")" ''
    rm small/filler
    check "0, changed, $first" small/store 'run small/store'
    mount -o remount,ro "$mounted"
    check '5, same' small/store 'run small/store'
    check '5, same' small/third 'new small/third'
    tell 'an export where nothing may be written' '0' \
        "$("$program" export small/store >said 2>errors; echo $?)" ", $(wc -c <said) bytes"
    umount "$mounted" && mounted=
else
    pass_over 'a file system that is full or may only be read: none was made and mounted'
fi

# ---- what the system is asked
if strace -o trace true 2>/dev/null; then
    no_locks='strace -o trace -e inject=flock:error=EOPNOTSUPP'
    check '5, same' store 'run store' "$no_locks"
    ln -s real/third to_third
    strace -y -o trace "$program" new to_third >status 2>errors
    folders=$(sed -n "s|^fsync([0-9]*<$folder/work/\(.*\)>).*|\1|p" trace | sort -u | tr '\n' ' ')
    tell 'what new syncs through a link' 'real real/third ' "$folders"
    strace -y -o trace "$program" run real/store </dev/null 2>errors
    calls=$(sed -n 's,^\(flock\|pread64\|pwrite64\)([0-9]*<.*/real/store>.*,\1,p' trace | head -2 | tr '\n' ' ')
    tell 'the first calls of run on the file' 'flock pread64 ' "$calls"
    mkdir unsynced
    no_folder="strace -o trace -P $folder/work/unsynced -e trace=fsync -e inject=fsync:error"
    check '0, made, new' unsynced/store 'new unsynced/store' "$no_folder=EINVAL"
    check "0, changed, $first" unsynced/store 'run unsynced/store' "$no_folder=EINVAL"
    check '5, same' unsynced/store 'run unsynced/store' "$no_folder=EIO"
    no_file="strace -o trace -P $folder/work/unsynced/store -e trace=fsync -e inject=fsync:error"
    check '5, same' unsynced/store 'run unsynced/store' "$no_file=EINVAL"
else
    pass_over 'a file system without locks or syncs of folders, and what is synced: there is no strace'
fi

[ "$failures" -eq 0 ]
