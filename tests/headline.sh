#!/usr/bin/env bash
# The example of a re-encryption that is cut off, and what tests/headline.py says of faulty copies of the logs that it leaves.
set -u
. "$(dirname "${BASH_SOURCE[0]}")/room.bash"
for command in python3 openssl; do
    command -v "$command" >/dev/null || { echo "tests/headline.sh: skipped, the command $command is not here"; exit 0; }
done

# Calls the bytes of the example H1, H2 and so on, the same bytes alike: a file keeps its data encryption key.
numbered() {
    python3 -c '
import re, sys
names = {}
print(re.sub(r"\b[0-9a-f]{32}\b", lambda it: names.setdefault(it[0], f"H{len(names) + 1}"), sys.stdin.read()), end="")'
}

"$hkms" --version >/dev/null || exit 1
fresh
output=$(bash examples/headline.sh "$room" 2>&1)
status=$?
output=$(numbered <<<"$output")
expect 'the example' 0 '
== A key, a zone, three files and a snapshot
kms alice create k 128 H1
    1 version k@0 H1
nn alice mkdir /vault
    2 done
ask hdfs zone /vault k
    3 ask 1 4294967298 metadata k
draw 1
    4 reply 1 meta k 128 1 1
finish 1
    5 done
ask alice create /vault/a
    6 ask 2 4294967299 generate k
draw 2
    7 reply 2 ready k@0:H2:H3
finish 2
    8 done
ask alice create /vault/b
    9 ask 3 4294967300 generate k
draw 3
    10 reply 3 ready k@0:H4:H5
finish 3
    11 done
ask alice create /vault/c
    12 ask 4 4294967301 generate k
draw 4
    13 reply 4 ready k@0:H6:H7
finish 4
    14 done
nn hdfs allow /vault
    15 done
nn alice snap /vault monday
    16 done
nn alice info /vault/a
    17 file 4294967299 /vault k@0:H2:H3
kms alice decrypt k@0 H2 H3
    18 key H8
nn alice info /vault/b
    19 file 4294967300 /vault k@0:H4:H5
kms alice decrypt k@0 H4 H5
    20 key H9
nn alice info /vault/c
    21 file 4294967301 /vault k@0:H6:H7
kms alice decrypt k@0 H6 H7
    22 key H10

$ python3 tests/headline.py room
/vault/.snapshot/monday/a 4294967299 k@0 H8
/vault/.snapshot/monday/b 4294967300 k@0 H9
/vault/.snapshot/monday/c 4294967301 k@0 H10
/vault/a 4294967299 k@0 H8
/vault/b 4294967300 k@0 H9
/vault/c 4294967301 k@0 H10

$ python3 tests/headline.py room --ledger ledger
0 completed re-encryptions, no file left behind
opens 3 files

== The key is rolled and the zone submitted. The program is killed before the second batch is delivered
kms alice roll k H11
    1 version k@1 H11
ask hdfs submit /vault
    2 ask 1 8589934593 generate k
draw 1
    3 reply 1 ready k@1:H12:H13
finish 1
    4 done
walk /vault
    5 batch 1 2
serve 1
    6 reply 2 ready k@1:H2:H14 k@1:H4:H15
walk /vault
    7 batch 2 1
serve 2
    8 reply 3 ready k@1:H6:H16
deliver 2
    9 applied 2 0 0
nn hdfs status /vault
    10 status Processing k@1 2 0 no b

$ python3 tests/headline.py room
/vault/.snapshot/monday/a 4294967299 k@0 H8
/vault/.snapshot/monday/b 4294967300 k@0 H9
/vault/.snapshot/monday/c 4294967301 k@0 H10
/vault/a 4294967299 k@1 H8
/vault/b 4294967300 k@1 H9
/vault/c 4294967301 k@0 H10

$ python3 tests/headline.py room --ledger ledger
0 completed re-encryptions, no file left behind
opens 3 files

== Started again. The late reply is unknown, and the walk begins after the mark
deliver 3
    1 unknown
nn hdfs status /vault
    2 status Processing k@1 2 0 no b
walk /vault
    3 batch 1 1
serve 1
    4 reply 1 ready k@1:H6:H16
deliver 1
    5 applied 1 0 0

$ python3 tests/headline.py crashed
/vault/.snapshot/monday/a 4294967299 k@0 H8
/vault/.snapshot/monday/b 4294967300 k@0 H9
/vault/.snapshot/monday/c 4294967301 k@0 H10
/vault/a 4294967299 k@1 H8
/vault/b 4294967300 k@1 H9
/vault/c 4294967301 k@0 H10

$ python3 tests/headline.py crashed --ledger ledger
0 completed re-encryptions, no file left behind
opens 3 files

== What a crash inside that write leaves: half of the record. The file is as it was, and the re-encryption goes on
nn alice info /vault/c
    1 file 4294967301 /vault k@0:H6:H7
walk /vault
    2 batch 1 1
serve 1
    3 reply 1 ready k@1:H6:H16
deliver 1
    4 applied 1 0 0
walk /vault
    5 completed
nn hdfs status /vault
    6 status Completed k@1 3 0 no c
nn alice info /vault/c
    7 file 4294967301 /vault k@1:H6:H16
nn alice info /vault/.snapshot/monday/c
    8 file 4294967301 /vault k@0:H6:H7

$ python3 tests/headline.py crashed
/vault/.snapshot/monday/a 4294967299 k@0 H8
/vault/.snapshot/monday/b 4294967300 k@0 H9
/vault/.snapshot/monday/c 4294967301 k@0 H10
/vault/a 4294967299 k@1 H8
/vault/b 4294967300 k@1 H9
/vault/c 4294967301 k@1 H10

$ python3 tests/headline.py crashed --ledger ledger
1 completed re-encryption, no file left behind
opens 3 files'

python3 tests/headline_faults.py "$room" || failures=$((failures + 1))

exit $((failures > 0))
