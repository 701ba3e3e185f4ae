#!/usr/bin/env bash
# The pages `/`, `/health` and `/metrics` of `hkms serve` and `hkms pipe`: their status, type and text, before and after known calls, and
# while a log cannot grow. No page has the name of a key or the path of a file.
set -u
. "$(dirname "${BASH_SOURCE[0]}")/room.bash"
for tool in curl python3; do
    command -v "$tool" >/dev/null || { echo "tests/health.sh: skipped, the command $tool is not here"; exit 0; }
done
[ "$("$hkms" build </dev/null)" = 'usage refused' ] || exit 1
program=$PWD/crates/hkms_tool/out/hkms_tool

# ask METHOD PATH [BODY]: body and status.
ask() {
    curl -s -m 20 -X "$1" ${3+-d "$3"} -w '%{http_code}' "http://127.0.0.1:$port$2"
}

# value METRIC: the value of a line of the metrics.
value() {
    ask GET /metrics | awk -v line="$1" '$1 == line { print $2 }'
}

fresh
port=$(python3 -c 'import socket; s = socket.socket(); s.bind(("127.0.0.1", 0)); print(s.getsockname()[1])')
: >"$room/messages"
(cd "$room" && trap '' XFSZ && exec "$program" serve --port "$port" >"$room/out" 2>"$room/messages") &
server=$!
for _ in $(seq 300); do
    grep -q listening "$room/messages" && break
    sleep 0.1
done

# ---- a new server

works='{"status":"ok","services":{"keys":"ok","names":"ok"}}'
same 'the health' "$works
200" "$(ask GET /health)"
same 'a query is ignored' "$works
200" "$(ask GET '/health?user.name=')"
for page in / /health /metrics; do
    same "other methods of $page" '{"RemoteException":{"exception":"BadMethod","message":"BadMethod"}}405' "$(ask POST "$page")"
    head=$(curl -s -m 20 -I "http://127.0.0.1:$port$page" | tr -d '\r')
    same "HEAD of $page" 'HTTP/1.1 405 Method Not Allowed
Allow: GET
Content-Type: application/json
Content-Length: 67' "$head"
    same "$page/x" '{"RemoteException":{"exception":"NoRoute","message":"NoRoute"}}404' "$(ask GET "${page%/}/x")"
done
same 'the types' 'text/html; charset=utf-8 application/json text/plain; version=0.0.4 ' \
    "$(for page in / /health /metrics; do curl -s -m 20 -o /dev/null -w '%{content_type} ' "http://127.0.0.1:$port$page"; done)"
same 'no call' 0 "$(value 'hkms_calls_total{service="keys",kind="change",result="done"}')"

# ---- calls of each kind

ask POST '/kms/v1/keys?user.name=alice' '{"name":"hidden-key"}' >/dev/null
ask POST '/kms/v1/keys?user.name=alice' '{"name":"hidden-key"}' >/dev/null
ask GET '/kms/v1/keys/names?user.name=alice' >/dev/null
ask GET '/kms/v1/keys/names?user.name=alice' >/dev/null
ask GET '/kms/v1/key/none/_metadata?user.name=alice' >/dev/null
ask POST '/nn/v1/mkdir?path=/hidden-path&user.name=alice' >/dev/null
ask POST '/nn/v1/zone?path=/hidden-path&key=hidden-key&user.name=hdfs' >/dev/null
ask POST '/nn/v1/create?path=/hidden-path/a&user.name=alice' >/dev/null
ask POST '/nn/v1/create?path=/hidden-path/a&user.name=alice' >/dev/null
ask GET '/nn/v1/info?path=/hidden-path&user.name=alice' >/dev/null
ask GET '/nn/v1/info?path=/other&user.name=alice' >/dev/null
wanted='keys,read,done 2
keys,read,refused 1
keys,read,failed 0
keys,change,done 1
keys,change,refused 1
keys,change,failed 0
names,read,done 1
names,read,refused 1
names,read,failed 0
names,change,done 3
names,change,refused 1
names,change,failed 0'
same 'the calls' "$wanted" "$(ask GET /metrics | sed -n 's/^hkms_calls_total{service="\(.*\)",kind="\(.*\)",result="\(.*\)"} /\1,\2,\3 /p')"
# A file and a zone take two entries each; those of the keys are as many as the calls at least.
same 'the entries of the namesystem' 9 "$(value 'hkms_entries_total{service="names"}')"
[ "$(value 'hkms_entries_total{service="keys"}')" -ge 5 ] || same 'the entries of the keys' 'at least 5' fewer
curl -s -m 20 "http://127.0.0.1:$port/metrics" >"$folder/metrics"
python3 - "$folder/metrics" <<'EOT' || failures=$((failures + 1))
# The lines are those of the text format 0.0.4: each metric has one HELP and one TYPE, and its values after them, none twice.
import re, sys
types, helped, seen = {}, set(), set()
for line in open(sys.argv[1], newline="").read().split("\n")[:-1]:
    if match := re.fullmatch(r"# HELP ([a-z_]+) [^\\]+", line):
        assert match[1] not in helped, line
        helped.add(match[1])
    elif match := re.fullmatch(r"# TYPE ([a-z_]+) (counter|gauge)", line):
        assert match[1] in helped and match[1] not in types, line
        types[match[1]] = match[2]
    else:
        match = re.fullmatch(r'([a-z_]+)(\{[a-z]+="[a-z]+"(?:,[a-z]+="[a-z]+")*\}) (0|[1-9][0-9]*)', line)
        assert match and list(types)[-1] == match[1] and match[1] + match[2] not in seen, line
        assert (types[match[1]] == "counter") == match[1].endswith("_total"), line
        seen.add(match[1] + match[2])
assert len(types) == 3 and len(seen) == 16, (types, seen)
EOT
same 'the page has a row for each' '<tr><th>Changes done</th><td>1</td><td>3</td></tr>' "$(ask GET / | grep 'Changes done')"
for page in / /health /metrics; do
    same "no name on $page" 0 "$(ask GET "$page" | grep -c hidden)"
done

# ---- a log that cannot grow

if command -v prlimit >/dev/null; then
    prlimit --pid "$server" --fsize="$(stat -c %s "$room/names.log"):"
    same 'a change' '{"RemoteException":{"exception":"StoreFault","message":"N23 StoreFault"}}500' "$(ask POST '/nn/v1/mkdir?path=/full&user.name=alice')"
    same 'the health then' '{"status":"failed","services":{"keys":"ok","names":"failed"}}
503' "$(ask GET /health)"
    same 'the metric then' '0 1 1' \
        "$(value 'hkms_log_failing{service="keys"}') $(value 'hkms_log_failing{service="names"}') $(value 'hkms_calls_total{service="names",kind="change",result="failed"}')"
    ask GET '/nn/v1/info?path=/hidden-path&user.name=alice' >/dev/null
    ask POST '/nn/v1/create?path=/none/a&user.name=alice' >/dev/null
    same 'a read and a refusal do not end it' 503 "$(ask GET /health | tail -c 3)"
    prlimit --pid "$server" --fsize=unlimited
    same 'a change that is done' 200 "$(ask POST '/nn/v1/mkdir?path=/room&user.name=alice' | tail -c 3)"
    same 'the health after it' "$works
200" "$(ask GET /health)"
else
    echo 'tests/health.sh: skipped a log that cannot grow, prlimit is not here'
fi
kill -KILL "$server"
wait "$server" 2>/dev/null

# ---- the calls of one connection, under pipe

fresh
piped=$(printf '%s\r\n\r\n' 'GET /health HTTP/1.1' 'POST /nn/v1/mkdir?path=/a&user.name=a HTTP/1.1' 'GET /metrics HTTP/1.1' | (cd "$room" && "$program" pipe))
same 'the health under pipe' 1 "$(grep -c "^$works" <<<"$piped")"
same 'the calls under pipe' 1 "$(grep -c '^hkms_calls_total{service="names",kind="change",result="done"} 1' <<<"$piped")"

[ "$failures" -eq 0 ] && echo 'tests/health.sh: all passed'
[ "$failures" -eq 0 ]
