#!/usr/bin/env bash
# The namesystem over REST: calls and orders of both services on connections of `hkms pipe`, and what `hkms replay` finds in the
# same files: the key of a file that was encrypted again still opens to the data key of before.
set -u
. "$(dirname "${BASH_SOURCE[0]}")/room.bash"

# The bytes of requests: names METHOD TARGET, keys TARGET BODY, and delete_key KEY.
names() {
    printf '%s /nn/v1/%s HTTP/1.1\r\n\r\n' "$1" "$2"
}
keys() {
    printf 'POST /kms/v1/%s HTTP/1.1\r\nContent-Length: %s\r\n\r\n%s' "$1" "${#2}" "$2"
}
delete_key() {
    printf 'DELETE /kms/v1/key/%s?user.name=alice HTTP/1.1\r\n\r\n' "$1"
}

# One connection with the requests of the input. The output has a line for each response: its status and its body.
converse() {
    (cd "$room" && "$hkms" pipe) >"$folder/responses"
    status=$?
    output=$(tr -d '\r' <"$folder/responses" | sed 's#HTTP/1.1 #\n&#g' | awk '
        $1 == "HTTP/1.1" { if (line) print line; line = $2; next }
        /^Content-/ || $0 == "" { next }
        { line = line " " $0 }
        END { if (line) print line }')
}

# The event lines of the input in the same folder.
replay() {
    output=$(cd "$room" && "$hkms" replay)
    status=$?
}

error() {
    printf '%s {"RemoteException":{"exception":"%s","message":"%s"}}' "$1" "$2" "$3"
}

# The encrypted key of /z/f, as `replay` shows it: key and version, vector and sealed bytes.
encrypted_key() {
    replay <<<"nn hdfs info ${1:-/z/f}"
    field=${output##* }
    version=${field%%:*}
    sealed=${field#*:}
}

# expect_version VERSION FILE ..: each file has an encrypted key of the version.
expect_version() {
    local wanted=$1 file
    shift
    for file; do
        encrypted_key "$file"
        same "the key of $file" "$wanted" "$version"
    done
}

# What an encrypted key opens to: the key, or why it does not open.
open_key() {
    replay <<<"kms alice decrypt $version ${sealed/:/ }"
    opened=${output#1 }
}

fresh
converse < <(
    names POST 'mkdir?path=/z&user.name=hdfs'
    keys 'keys?user.name=alice' '{"name":"k","length":128,"material":"K34VFiiu0qar9xWICc9PPA"}'
    names POST 'zone?path=/z&key=k&user.name=hdfs'
    names POST 'create?path=/z/f&user.name=alice'
    names POST 'create?path=/z/f&user.name=alice'
    names GET 'info?path=/z&user.name=alice'
    names GET 'list?path=/z&user.name=alice'
    names GET 'zones?user.name=hdfs'
    names POST 'allow?path=/z&user.name=hdfs'
    names POST 'snapshot?path=/z&name=s1&user.name=alice'
    names GET 'list?path=/z/.snapshot/s1&user.name=alice'
    names POST 'rename?path=/z/f&to=/f&user.name=alice'
    names POST 'rename?path=/z/f&to=/z/g&user.name=alice'
    names POST 'rename?path=/z/g&to=/z/f&user.name=alice'
    names POST 'rename?path=/z&to=/y&user.name=alice'
    names POST 'delete?path=/z&user.name=alice'
    names GET 'status?path=/z&user.name=hdfs'
)
expect 'a zone is made and filled' 0 '200
201 {"material":"K34VFiiu0qar9xWICc9PPA","name":"k@0"}
200
201
'"$(error 409 Exists 'N3 Exists')"'
200 {"answer":"dir 4294967297 /z k"}
200 {"answer":"list f"}
200 {"answer":"zones /z:k"}
200
200
200 {"answer":"list f"}
'"$(error 409 CrossZone 'N9 CrossZone')"'
200
200
'"$(error 409 HasSnapshots 'N11 HasSnapshots')"'
'"$(error 409 NotEmpty 'N5 NotEmpty')"'
200 {"answer":"status None"}'

# The key of the file before the re-encryption.
encrypted_key
first=$version:$sealed
open_key
before=$opened
output=$before status=0
[[ $before =~ ^key\ [0-9a-f]{32}$ ]] || expect 'the key of the file' 0 'key and 32 digits'

# A submission is answered when its zone is done: the next request on the connection finds it completed.
converse < <(
    keys 'key/k?user.name=alice' '{"material":"AAECAwQFBgcICQoLDA0ODw"}'
    names POST 'reencrypt?path=/z&user.name=alice'
    names POST 'reencrypt?path=/z&user.name=hdfs'
    names GET 'status?path=/z&user.name=hdfs'
    names POST 'cancel?path=/z&user.name=hdfs'
    names POST 'reencrypt?path=/z/f&user.name=hdfs'
    names POST 'reencrypt?path=/&user.name=hdfs'
    names POST 'reencrypt?path=/none&user.name=hdfs'
)
expect 'a re-encryption is completed before its response' 0 '200 {"material":"AAECAwQFBgcICQoLDA0ODw","name":"k@1"}
'"$(error 403 NotSuperuser 'N6 NotSuperuser')"'
200
200 {"answer":"status Completed k@1 1 0 no f"}
'"$(error 409 NotSubmitted 'N19 NotSubmitted')"'
'"$(error 409 NotADirectory 'N4 NotADirectory')"'
'"$(error 404 NotAZoneRoot 'N8 NotAZoneRoot')
$(error 404 NoSuchPath 'N2 NoSuchPath')"

# It has another encrypted key, under the new version, and opens to the same data key; the file in the snapshot is as it was.
encrypted_key
output="$version $([ "$sealed" != "${first#*:}" ] && echo other)" status=0
expect 'the encrypted key after it' 0 'k@1 other'
info="200 {\"answer\":\"file 4294967299 /z $version:$sealed\"}"
open_key
output=$opened
expect 'the data key after it' 0 "$before"
encrypted_key /z/.snapshot/s1/f
output=$version:$sealed
expect 'the encrypted key in the snapshot' 0 "$first"

# Both commands show the same. Then the file, the snapshot and the zone are deleted.
replay <<'EOT'
nn hdfs status /z
nn hdfs list /z/.snapshot/s1
nn hdfs zones
kms alice current k
EOT
expect 'what a replay finds' 0 '1 status Completed k@1 1 0 no f
2 list f
3 zones /z:k
4 version k@1 000102030405060708090a0b0c0d0e0f'
converse < <(
    names GET 'info?path=/z/f&user.name=alice'
    names POST 'delete?path=/z/f&user.name=alice'
    names GET 'info?path=/z/f&user.name=alice'
    names POST 'delete?path=/z&recursive=true&user.name=alice'
    names POST 'unsnapshot?path=/z&name=s1&user.name=alice'
    names POST 'disallow?path=/z&user.name=hdfs'
    names POST 'delete?path=/z&user.name=alice'
    names GET 'list?path=/&user.name=alice'
)
expect 'all is deleted' 0 "$info
200
$(error 404 NoSuchPath 'N2 NoSuchPath')
$(error 409 HasSnapshots 'N11 HasSnapshots')
200
200
200
200 {\"answer\":\"list\"}"

# Requests that are no orders, and an ask whose key is refused.
converse < <(
    names GET 'info?user.name=alice'
    names GET 'info?path=z&user.name=alice'
    names POST 'info?path=/&user.name=alice'
    names GET 'info?path=/'
    names GET 'other?user.name=alice'
    names POST 'mkdir?path=/y%20z&user.name=alice'
    names POST 'zone?path=/y%20z&key=missing&user.name=hdfs'
    names GET 'list?path=/&user.name=alice'
)
expect 'faults' 0 "$(error 400 BadRequest 'K1 BadRequest')
$(error 400 BadPath 'N1 BadPath')
$(error 405 BadMethod BadMethod)
$(error 401 NoUser 'K2 NoUser')
$(error 404 NoRoute NoRoute)
200
$(error 404 KeyRefused 'N21 KeyRefused K4 NoSuchKey')
200 {\"answer\":\"list y%20z/\"}"
output=$(names GET 'list?path=/&user.name=alice' | (cd "$room" && "$hkms" pipe)) status=$?
expect 'the bytes of a response' 0 $'HTTP/1.1 200 OK\r\nContent-Type: application/json\r\nContent-Length: 24\r\n\r\n{"answer":"list y%20z/"}'

# Five files in batches of two: the submission takes them all. A submission whose key is denied changes nothing.
printf '%s\n' 'default.key.acl.MANAGEMENT=*' 'default.key.acl.GENERATE_EEK=*' 'default.key.acl.READ=*' 'hkms.reencrypt.batch=2' >"$room/kms-acls.properties"
converse < <(
    keys 'keys?user.name=alice' '{"name":"j","length":128,"material":"K34VFiiu0qar9xWICc9PPA"}'
    names POST 'zone?path=/y%20z&key=j&user.name=hdfs'
    for file in a b c d e; do names POST "create?path=/y%20z/$file&user.name=alice"; done
    keys 'key/j?user.name=alice' '{"material":"AAECAwQFBgcICQoLDA0ODw"}'
    names POST 'reencrypt?path=/y%20z&user.name=hdfs'
    names GET 'status?path=/y%20z&user.name=hdfs'
)
expect 'a zone of several batches' 0 '201 {"material":"K34VFiiu0qar9xWICc9PPA","name":"j@0"}
200
201
201
201
201
201
200 {"material":"AAECAwQFBgcICQoLDA0ODw","name":"j@1"}
200
200 {"answer":"status Completed j@1 5 0 no e"}'
expect_version j@1 /y%20z/{a,b,c,d,e}
echo 'hadoop.kms.blacklist.GENERATE_EEK=hdfs' >>"$room/kms-acls.properties"
converse < <(
    keys 'key/j?user.name=alice' '{"material":"K34VFiiu0qar9xWICc9PPA"}'
    names POST 'reencrypt?path=/y%20z&user.name=hdfs'
    names GET 'status?path=/y%20z&user.name=hdfs'
)
expect 'a submission that is denied' 0 '200 {"material":"K34VFiiu0qar9xWICc9PPA","name":"j@2"}
'"$(error 403 KeyRefused 'N21 KeyRefused K3 Denied ServiceBlacklist GENERATE_EEK')"'
200 {"answer":"status Completed j@1 5 0 no e"}'

# The key was deleted and created again with one version, so the call for each batch is refused: its files keep their keys, of a version
# that is gone, and count as failed. A zone without files is completed too.
fresh
printf '%s\n' 'default.key.acl.MANAGEMENT=*' 'default.key.acl.GENERATE_EEK=*' 'default.key.acl.READ=*' 'hkms.reencrypt.batch=2' >"$room/kms-acls.properties"
converse < <(
    keys 'keys?user.name=alice' '{"name":"k","length":128,"material":"K34VFiiu0qar9xWICc9PPA"}'
    keys 'key/k?user.name=alice' '{"material":"AAECAwQFBgcICQoLDA0ODw"}'
    names POST 'mkdir?path=/z&user.name=alice'
    names POST 'zone?path=/z&key=k&user.name=hdfs'
    for file in a b c d e; do names POST "create?path=/z/$file&user.name=alice"; done
    delete_key k
    keys 'keys?user.name=alice' '{"name":"k","length":128,"material":"EBESExQVFhcYGRobHB0eHw"}'
    names POST 'reencrypt?path=/z&user.name=hdfs'
    names GET 'status?path=/z&user.name=hdfs'
    names POST 'mkdir?path=/y&user.name=alice'
    names POST 'zone?path=/y&key=k&user.name=hdfs'
    names POST 'reencrypt?path=/y&user.name=hdfs'
    names GET 'status?path=/y&user.name=hdfs'
)
expect 'a zone whose key was replaced, and one without files' 0 '201 {"material":"K34VFiiu0qar9xWICc9PPA","name":"k@0"}
200 {"material":"AAECAwQFBgcICQoLDA0ODw","name":"k@1"}
200
200
201
201
201
201
201
200
201 {"material":"EBESExQVFhcYGRobHB0eHw","name":"k@0"}
200
200 {"answer":"status Completed k@0 0 5 no e"}
200
200
200
200 {"answer":"status Completed k@0 0 0 no -"}'
expect_version k@1 /z/{a,b,c,d,e}

# A zone in a zone: a file is of the innermost one, and the submission of the outer one leaves it alone.
fresh
converse < <(
    keys 'keys?user.name=alice' '{"name":"k","length":128,"material":"K34VFiiu0qar9xWICc9PPA"}'
    keys 'keys?user.name=alice' '{"name":"j","length":128,"material":"AAECAwQFBgcICQoLDA0ODw"}'
    names POST 'mkdir?path=/z&user.name=alice'
    names POST 'zone?path=/z&key=k&user.name=hdfs'
    names POST 'mkdir?path=/z/s&user.name=alice'
    names POST 'zone?path=/z/s&key=j&user.name=hdfs'
    names POST 'zone?path=/z/s&key=j&user.name=hdfs'
    names POST 'create?path=/z/f&user.name=alice'
    names POST 'create?path=/z/s/g&user.name=alice'
    names POST 'rename?path=/z/f&to=/z/s/f&user.name=alice'
    names GET 'zones?user.name=hdfs'
    keys 'key/k?user.name=alice' '{"material":"AAECAwQFBgcICQoLDA0ODw"}'
    names POST 'reencrypt?path=/z&user.name=hdfs'
    names GET 'status?path=/z&user.name=hdfs'
    names GET 'status?path=/z/s&user.name=hdfs'
)
expect 'a zone in a zone' 0 '201 {"material":"K34VFiiu0qar9xWICc9PPA","name":"k@0"}
201 {"material":"AAECAwQFBgcICQoLDA0ODw","name":"j@0"}
200
200
200
200
'"$(error 409 AlreadyInZone 'N7 AlreadyInZone')"'
201
201
'"$(error 409 CrossZone 'N9 CrossZone')"'
200 {"answer":"zones /z:k /z/s:j"}
200 {"material":"AAECAwQFBgcICQoLDA0ODw","name":"k@1"}
200
200 {"answer":"status Completed k@1 1 0 no f"}
200 {"answer":"status None"}'
encrypted_key /z/f
same 'the file of the outer zone' k@1 "$version"
encrypted_key /z/s/g
same 'the file of the inner zone' j@0 "$version"

[ "$failures" -eq 0 ]
