#!/usr/bin/env bash
# The access control lists from outside: the verdicts of the example's lists, the lists that stand where there is no file, and
# each way in which the file is refused.
set -u
. "$(dirname "${BASH_SOURCE[0]}")/room.bash"

# Runs the program in this folder.
run_here() {
    output=$(cd "$room" && "$hkms" replay 2>"$folder/errors")
    status=$?
}

# Runs the program in an empty folder under this text of properties.
run_under() {
    fresh
    printf '%s' "$1" >"$room/kms-acls.properties"
    run_here
}

open='default.key.acl.MANAGEMENT=*
default.key.acl.GENERATE_EEK=*
default.key.acl.DECRYPT_EEK=*
default.key.acl.READ=*
'

fresh
cp examples/kms-acls.properties "$room"
run_here <examples/verdicts.events
expect 'the verdicts of the example' 0 '1 version orders@0 2b7e151628aed2a6abf7158809cf4f3c
2 version payroll@0 000102030405060708090a0b0c0d0e0f
3 version invoices@0 -
4 refused K3 Denied ServiceAcl SET_KEY_MATERIAL
5 refused K3 Denied ServiceAcl CREATE
6 refused K3 Denied ServiceAcl CREATE
7 refused K3 Denied KeyAcl MANAGEMENT
8 refused K3 Denied DefaultAcl MANAGEMENT
9 key e1eaa6798272d26e8cbeb663aa1b1b63
10 refused K3 Denied KeyAcl DECRYPT_EEK
11 refused K3 Denied ServiceBlacklist DECRYPT_EEK
12 meta payroll 128 1 2
13 refused K3 Denied KeyAcl READ
14 meta orders 128 1 1
15 refused K3 Denied KeyAcl READ
16 refused K3 Denied ServiceAcl GENERATE_EEK
17 refused K3 Denied KeyAcl GENERATE_EEK
18 refused K3 Denied ServiceAcl GET_KEYS
19 names invoices orders payroll'

# Without a file everybody may do everything, and with an empty one nobody may use a key.
fresh
run_here <<<'kms a create k 128 2b7e151628aed2a6abf7158809cf4f3c'
expect 'no file' 0 '1 version k@0 2b7e151628aed2a6abf7158809cf4f3c'
run_under '' <<<'kms a create k 128 -'
expect 'an empty file' 0 '1 refused K3 Denied NoAcl MANAGEMENT'

# The superuser that draws for asks is denied as any other user.
run_under "${open}hadoop.kms.acl.GENERATE_EEK=alice
" <<'EOT'
kms alice create k 128 2b7e151628aed2a6abf7158809cf4f3c
nn hdfs mkdir /z
ask hdfs zone /z k
draw 1
finish 1
ask alice create /z/f
draw 2
finish 2
nn alice info /z/f
EOT
expect 'a draw that is denied' 0 '1 version k@0 2b7e151628aed2a6abf7158809cf4f3c
2 done
3 ask 1 4294967298 metadata k
4 reply 1 meta k 128 1 1
5 done
6 ask 2 4294967299 generate k
7 reply 2 refused K3 Denied ServiceAcl GENERATE_EEK
8 refused N21 KeyRefused K3 Denied ServiceAcl GENERATE_EEK
9 refused N2 NoSuchPath'

# The lists stay behind a restart, and each run reads them anew.
run_under "${open}hadoop.kms.acl.GET=bob" <<'EOT'
kms alice create k 128 2b7e151628aed2a6abf7158809cf4f3c
restart kms
kms alice current k
kms bob current k
EOT
expect 'a restart' 0 '1 version k@0 -
2 opened 2
3 refused K3 Denied ServiceAcl GET
4 version k@0 2b7e151628aed2a6abf7158809cf4f3c'
printf '%s' "$open" >"$room/kms-acls.properties"
run_here <<<'kms alice current k'
expect 'other lists in the next run' 0 '1 version k@0 2b7e151628aed2a6abf7158809cf4f3c'

# Faults of the file: nothing is run, and the key log is left as it is.
cp "$room/keys.log" "$folder/before"
refuse() {
    printf '%s' "$3" >"$room/kms-acls.properties"
    run_here <<<'kms alice current k'
    expect "$1" 3 "$2"
    cmp -s "$folder/before" "$room/keys.log" || {
        echo "tests/acls.sh: $1: the key log changed"
        failures=$((failures + 1))
    }
}
refuse 'a value out of form' 'acl line 2 refused' $'# lists\nhadoop.kms.acl.GET=a b c\n'
refuse 'a line without an equals sign' 'acl line 1 refused' 'hadoop.kms.acl.GET'
refuse 'a name twice' 'acl line 3 repeated' $'group.a=x\r\n\ngroup.a=y z'
refuse 'an unknown name' 'acl line 1 unknown' $'hadoop.kms.acl.READ=*\ngroup.a=x\ngroup.a=y'
printf '%1048576s\n' '' | tr ' ' '#' >"$folder/long"
refuse 'a text that is too long' 'acl too long' "$(cat "$folder/long")#"
head -c 1048576 "$folder/long" >"$room/kms-acls.properties"
run_here <<<'kms alice current k'
expect 'the longest text' 0 '1 refused K3 Denied NoAcl READ'
rm "$room/kms-acls.properties"
mkdir "$room/kms-acls.properties"
run_here <<<'kms alice current k'
expect 'a folder in its place' 7 'read fault'

[ "$failures" -eq 0 ]
