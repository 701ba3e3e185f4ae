#!/usr/bin/env bash
# Lines that are no spelling of an event: each ends a run at once. The scripts spellings-of-* show those beside them that are.
set -u
. "$(dirname "${BASH_SOURCE[0]}")/room.bash"

# The program is run very often, so it is built once and then run without the script that builds it.
[ "$("$hkms" build </dev/null)" = 'usage refused' ] || exit 1
program=$PWD/crates/hkms_tool/out/hkms_tool

# 65 bytes, one more than a field may spell.
long=$(printf 'aF%.0s' {1..65})

calls_on_keys=(
    'kms a metadata' 'kms a metadata k ' 'kms a  metadata k' 'kms  metadata k' ' kms a metadata k' $'kms a metadata k\r'
    'kms a Metadata k' 'kms a restart' 'kms restart' 'kms a zones' 'kms u mkdir /a' 'kms a' 'kms' ' #' ' '
    'kms a create k 4294967296 -' 'kms a create k 0128 -' 'kms a create k +128 -' 'kms a create k 128 6b6' 'kms a create k 128 6'
    'kms a create k 128 ' 'kms a create k 128'
    'kms a roll k --' 'kms a roll k 6g' "kms a roll k $long" 'kms a delete' 'kms a delete k l' 'kms a invalidate k/l'
    'kms a metadatas k,' 'kms a metadatas ,k' 'kms a metadatas k,,l' 'kms a metadatas k, l' 'kms a metadatas '
    'kms a names ' 'kms a names k' 'kms a current  k' 'kms a versions k '
    'kms a version k@65536' 'kms a version k@00' 'kms a version k'
    'kms a generate k 4294967296' 'kms a generate k 01'
    'kms a decrypt k@01 6161 62' 'kms a decrypt k@1 - 62' 'kms a decrypt k@1 6161'
    'kms a reencrypt k@1 6161 6' 'kms a reencrypt k@1:6161:62'
    'kms a batch k k@1:61:62,' 'kms a batch k k@1:61' 'kms a batch k k@1:61:62:63' 'kms a batch k k@1 61 62' 'kms a batch k'
)
users=(
    'kms %c3 metadata k' 'kms %4 metadata k' 'kms %zz metadata k' 'kms a:b metadata k'
    'nn a:b zones' 'nn %ff zones' 'nn  zones' 'nn zones' 'nn  mkdir /a' 'ask  create /f' 'ask a%2g create /f' 'ask %ff create /f'
)
paths=(
    'nn u mkdir' 'nn u mkdir /a b' 'nn u mkdir /a ' 'nn u mkdir  /a' 'nn u mkdir /a:b' 'nn u mkdir /a,b' 'nn u mkdir /%4'
    'nn u mkdir /%zz' 'nn u mkdir /ä' 'nn u Mkdir /a' 'nn u metadata k' 'NN u mkdir /a'
    'nn a delete' 'nn a rdelete' 'nn a delete /d r' 'nn a delete  /d' 'nn a Delete /d' 'nn a rDelete /d' 'nn a r delete /d'
    'nn a delete /d:e' 'nn a list' 'nn a list /d /e' 'nn a lists /d'
    'nn a zones x' 'nn a zones ' 'nn a zone' 'nn a Zones' 'nn a  zones' 'nn a' 'nn'
)
snapshots=(
    'nn a allow' 'nn a allow /d ' 'nn a allow /d s' 'nn a allow  /d' 'nn a Allow /d' 'nn a disallow' 'nn a disallow /d s' 'nn a allow /d:e'
    'nn a snap' 'nn a snap /d' 'nn a snap /d s ' 'nn a snap /d s t' 'nn a snap /d  s' 'nn a Snap /d s' 'nn a snapshot /d s'
    'nn a snap /d a:b' 'nn a snap /d a,b' 'nn a snap /d %4' 'nn a snap /d %zz' 'nn a snap /d ä' 'nn a snap /a:b s'
    'nn a unsnap' 'nn a unsnap /d' 'nn a unsnap /d s t' 'nn a unsnap /d s%4' 'nn a info /d s' 'nn a:b snap /d s' 'nn %ff snap /d s'
)
renames=(
    'nn a rename' 'nn a rename /d' 'nn a rename /d /e ' 'nn a rename /d /e /f' 'nn a rename  /d /e' 'nn a rename /d  /e'
    'nn a Rename /d /e' 'nn a mv /d /e' 'nn a rename /d /e:f' 'nn a rename /d /e,f' 'nn a rename /d:e /f' 'nn a rename /d /%4'
    'nn a rename /d /%zz' 'nn a rename /d /ä' 'nn a rename /ä /d' 'nn a mkdir /d /e' 'nn a delete /d /e' 'nn a:b rename /d /e' 'nn %ff rename /d /e'
)
asks=(
    'ask a create' 'ask a  create /f' 'ask a create  /f' 'ask a create /f k' 'ask a create /f%2'
    'ask hdfs zone /z' 'ask hdfs zone /z  k' 'ask hdfs zone /z k ' 'ask hdfs zone /z k%6b' 'ask hdfs zone /%zz k'
    'ask hdfs' 'nn hdfs create /f'
)
reencryptions=(
    'nn a cancel' 'nn a cancel /z ' 'nn a cancel /z s' 'nn a cancel  /z' 'nn a Cancel /z' 'nn a cancel /z:y' 'nn %ff cancel /z' 'cancel /z'
    'nn a status' 'nn a status /z ' 'nn a status /z s' 'nn a Status /z' 'nn a status /ä' 'nn a:b status /z' 'status /z'
    'ask a submit' 'ask a submit /z k' 'ask a submit  /z' 'ask a submit /z ' 'ask a submit /%zz' 'ask  submit /z' 'ask a Submit /z' 'nn a submit /z'
    'walk' 'walk /z ' 'walk /z k' 'walk  /z' 'Walk /z' 'walk /%4' 'walk /a:b' 'nn a walk /z' 'walk a /z'
    'serve' 'serve ' 'serve 01' 'serve 4294967296' 'serve +1' 'serve  1' 'serve 1 ' 'serve 1 2' 'Serve 1' 'nn a serve 1'
    'deliver' 'deliver ' 'deliver 01' 'deliver 4294967296' 'deliver +1' 'deliver  1' 'deliver 1 ' 'deliver 1 2' 'Deliver 1' 'nn a deliver 1' 'delivers 1'
    'giveup' 'giveup ' 'giveup 00' 'giveup 4294967296' 'giveup -1' 'giveup  1' 'giveup 1 ' 'giveup 1 2' 'GiveUp 1' 'nn a giveup 1' 'give up 1'
)
numbers=(
    'draw 4294967296' 'draw 01' 'draw +1' 'draw' 'draw ' 'draw  1' 'draw 1 '
    'finish 4294967296' 'finish 00' 'finish 1 2' 'finish x' 'Finish 1'
)
fills=(
    'ticket ' ' ticket' 'ticket k' 'ticket 1' 'Ticket' 'tickets' 'ticke' 'kms a ticket' 'nn a ticket' 'ask a ticket' 'tick%65t'
    'deposit' 'deposit ' 'deposit 4294967296' 'deposit 01' 'deposit 00' 'deposit +1' 'deposit -1' 'deposit x' 'deposit  1' 'deposit 1 '
    'deposit 1 2' 'deposit 1 k' 'Deposit 1' 'deposits 1' ' deposit 1' 'kms a deposit 1' 'nn a deposit 1'
)
restarts=(
    'restart' 'restart ' 'restart kms ' 'restart  kms' 'restart kms k' 'restart km%73' 'restart nn ' 'restart nn x'
    'restart kms nn' 'restart Nn' 'restart n' 'restartkms' 'Restart kms' ' restart kms'
)

# The line before it is answered, and the line after it is not.
for line in "${calls_on_keys[@]}" "${users[@]}" "${paths[@]}" "${snapshots[@]}" "${renames[@]}" "${asks[@]}" "${reencryptions[@]}" \
    "${numbers[@]}" "${fills[@]}" "${restarts[@]}"; do
    room=$(mktemp -d -p "$quick") || exit 1
    output=$(cd "$room" && printf 'nn a info /\n%s\nnn a info /\n' "$line" | "$program" replay)
    status=$?
    expect "$line" 3 $'1 dir 0 - -\nline 2 refused'
    rm -rf "$room"
done

[ "$failures" -eq 0 ] || { echo "tests/spellings.sh: $failures failed"; exit 1; }
