#!/usr/bin/env bash
# What docs/hadoop.md says of Hadoop's client: curl sends what the client sends, in its order, through nginx with the page's
# configuration to `hkms serve`. The exchanges and their responses are read from the page. Then requests that the client does not
# send: no user is named but by a handshake, and over TLS none but the holder of the certificate.
set -u
. "$(dirname "${BASH_SOURCE[0]}")/room.bash"
for tool in nginx openssl curl python3; do
    command -v "$tool" >/dev/null || { echo "tests/hadoop.sh: skipped, the command $tool is not here"; exit 0; }
done
page=docs/hadoop.md
server=
nginx=

# certificate NAME SUBJECT: makes NAME.key and NAME.pem, by the authority of this folder.
certificate() {
    openssl req -newkey rsa:2048 -nodes -keyout "$room/$1.key" -out "$room/$1.csr" -subj "$2" &&
        openssl x509 -req -in "$room/$1.csr" -CA "$room/ca.pem" -CAkey "$room/ca.key" -CAcreateserial -days 2 -out "$room/$1.pem"
} >/dev/null 2>&1

# Starts hkms under the example's lists, and waits until it listens.
start_hkms() {
    mkdir "$room/data" && cp examples/kms-acls.properties "$room/data/" || exit 1
    port=$(python3 -c 'import socket; s = socket.socket(); s.bind(("127.0.0.1", 0)); print(s.getsockname()[1])')
    (cd "$room/data" && exec "$hkms" serve --port "$port" 2>"$room/messages") &
    server=$!
    for _ in $(seq 300); do grep -q listening "$room/messages" && return; sleep 0.1; done
    echo 'tests/hadoop.sh: hkms does not listen' && cat "$room/messages" && exit 1
}

# Starts nginx with the page's configuration and the paths of this folder, and waits until it listens.
start_nginx() {
    {
        [ "$(id -u)" -ne 0 ] || echo 'user root;'
        printf 'daemon off;\npid %s/nginx.pid;\nerror_log %s/error.log;\nevents {}\nhttp {\naccess_log off;\n' "$room" "$room"
        for kind in client_body proxy fastcgi uwsgi scgi; do echo "${kind}_temp_path $room/$kind;"; done
        sed "s#127.0.0.1:9600#127.0.0.1:$port#; s#/etc/hkms#$room#; s#listen 127.0.0.1:9642#listen unix:$room/plain.sock#
            s#listen 9644#listen unix:$room/tls.sock#" docs/hadoop-nginx.conf
        echo '}'
    } >"$room/nginx.conf"
    nginx -c "$room/nginx.conf" -e "$room/error.log" &
    nginx=$!
    for _ in $(seq 100); do [ -S "$room/plain.sock" ] && [ -S "$room/tls.sock" ] && return; sleep 0.1; done
    echo 'tests/hadoop.sh: nginx does not listen' && cat "$room/error.log" && exit 1
}

# ask TARGET OPTION..: what curl shows of a response: body and status.
ask() {
    curl -s -m 20 --unix-socket "$room/plain.sock" -w ' %{http_code}' "${@:2}" "http://localhost$1"
}

# ask_over_tls WHO TARGET OPTION..: the same with a certificate.
ask_over_tls() {
    curl -s -m 20 --unix-socket "$room/tls.sock" --insecure --cert "$room/$1.pem" --key "$room/$1.key" -w ' %{http_code}' "${@:3}" "https://localhost$2"
}

# ---- the client

declare -A cookies

# with_user TARGET USER: the target with the user in its query.
with_user() {
    case $1 in
    *\?*) echo "$1&user.name=$2" ;;
    *) echo "$1?user.name=$2" ;;
    esac
}

# head_of COMMAND..: the status, the scheme that is asked for and the cookie of the response that curl gets.
head_of() {
    "$@" -X OPTIONS -o /dev/null -D - | tr -d '\r' | sed -n 's/^HTTP[^ ]* \([0-9]*\).*/\1/p; s/^WWW-Authenticate: /scheme /p; s/^Set-Cookie: /cookie /p'
}

# greet USER TARGET: the handshake of a client that has no cookie, on the target of its call.
greet() {
    local head
    same "$1 $2: the handshake begins" $'401\nscheme PseudoAuth' "$(head_of ask "$2")"
    head=$(head_of ask "$(with_user "$2" "$1")")
    same "$1 $2: the handshake ends" "200"$'\n'"cookie hadoop.auth=\"u=$1&p=$1&t=simple&e=4102444800000\"; Path=/; HttpOnly" "$head"
    cookies[$1]=$(sed -n 's/^cookie hadoop.auth="\{0,1\}\([^";]*\).*/\1/p' <<<"$head")
}

# written TARGET BODY: the body as the client writes it: with blanks and line ends, and what is sent to be opened in base64 with the
# letters + and / and with padding.
written() {
    local body=$2
    if [[ $1 == */keyversion/* ]]; then
        body=$(tr -- '-_' '+/' <<<"$body" | sed -E 's/"(iv|material)":"([^"]{22})"/"\1":"\2=="/g')
    fi
    sed -E 's/":/" : /g; s/([[{,])(["{])/\1\n  \2/g; s/([]}])/\n\1/g' <<<"$body"
}

# call USER METHOD TARGET [BODY]: a call of the client. After another status than 200, 201 and 202 it begins with a handshake again.
call() {
    local options=(-X "$2")
    [ -n "${cookies[$1]-}" ] || greet "$1" "$3"
    options+=(-H "Cookie: hadoop.auth=\"${cookies[$1]-}\"")
    [ "$2" != POST ] || options+=(-H 'Content-Type: application/json')
    [ $# -lt 4 ] || options+=(--data-binary "$(written "$3" "$4")")
    response=$(ask "$3" "${options[@]}")
    case $response in
    *' 200' | *' 201' | *' 202') ;;
    *) unset "cookies[$1]" ;;
    esac
}

# ---- the page

declare -A drawn

# fill TEXT: the text with each $NAME that stood for something before.
fill() {
    local text=$1 name
    for name in "${!drawn[@]}"; do text=${text//"\$$name\""/"${drawn[$name]}\""}; done
    printf '%s' "$text"
}

# fits PATTERN TEXT: whether the text is the pattern, where $NAME stands for some letters of base64, which are kept, and ',..]' for
# further elements of an array.
fits() {
    local pattern name=() i
    pattern=$(fill "$1")
    mapfile -t name < <(grep -oE '\$[A-Z0-9]+' <<<"$pattern" | tr -d '$')
    pattern=$(sed -E 's/[][(){}.*+?|^\\]/\\&/g; s/,\\\.\\\.\\\]/,.*\\]/; s/\$[A-Z0-9]+/([A-Za-z0-9_-]+)/g' <<<"$pattern")
    [[ $2 =~ ^$pattern$ ]] || return 1
    for i in "${!name[@]}"; do drawn[${name[i]}]=${BASH_REMATCH[i + 1]}; done
}

# Reads the exchanges of the page, makes each and compares its response.
play_page() {
    local user method target line wanted exchange=() body=()
    exchanges=0
    while read -r user method target; do
        line="$method $target"
        case $user in
        '>') body=("$line") ;;
        '<')
            wanted=${line#* }
            [ "$wanted" != "$line" ] || wanted=
            call "${exchange[@]}" ${body[0]+"$(fill "${body[0]}")"}
            fits "$wanted ${line%% *}" "$response" || same "${exchange[*]}" "$(fill "$wanted") ${line%% *}" "$response"
            exchanges=$((exchanges + 1))
            ;;
        *)
            exchange=("$user" "$method" "$target")
            body=()
            ;;
        esac
    done < <(sed -nE 's/^    ([<>] .*|[a-z]+ (GET|POST|PUT|DELETE) .*)$/\1/p' "$page")
}

fresh
"$hkms" --version >/dev/null || exit 1
openssl req -x509 -newkey rsa:2048 -nodes -keyout "$room/ca.key" -out "$room/ca.pem" -days 2 -subj /CN=ca 2>/dev/null || exit 1
certificate server /O=Example/CN=localhost && certificate alice /O=Example/CN=alice && certificate other /O=Other/CN=alice || exit 1
trap 'kill $server $nginx 2>/dev/null; wait; rm -rf "$folder" "$quick"' EXIT
start_hkms
start_nginx

same 'hkms alone answers no handshake' '{"RemoteException":{"exception":"BadMethod","message":"BadMethod"}} 405' \
    "$(curl -s -m 20 -X OPTIONS -w ' %{http_code}' "http://127.0.0.1:$port/kms/v1/keys?user.name=alice")"
play_page
same 'exchanges of the page' 23 "$exchanges"
call alice POST /kms/v1/keys '{"name":"k","cipher":"AES/CTR/NoPadding","length":128}'
call hdfs GET '/kms/v1/key/k/_eek?eek_op=generate&num_keys=150'
same 'keys for a queue of the client' 150 "$(grep -o '"versionName":"k@0"' <<<"$response" | wc -l)"
keys=${response% 200}
call hdfs POST /kms/v1/key/k/_reencryptbatch "$keys"
same 'all of them encrypted again, which are on the current version' "$keys 200" "$response"
call hdfs GET /kms/v1/key/k/_metadata
created=$(sed -E 's/.*"created":([0-9]+).*/\1/' <<<"$response")
[ "$created" -gt 2147483647 ] || same 'a time of more than 31 bits' '' "$response"

# ---- what the client does not send

anonymous='{"RemoteException":{"exception":"NoUser","message":"K2 NoUser"}} 401'
twice='{"RemoteException":{"exception":"BadRequest","message":"K1 BadRequest"}} 400'
denied='{"RemoteException":{"exception":"AuthorizationException","javaClassName":"org.apache.hadoop.security.authorize.AuthorizationException",'
same 'no cookie' "$anonymous" "$(ask /kms/v1/keys/names)"
same 'a user in the query' "$anonymous" "$(ask '/kms/v1/keys/names?user.name=alice')"
for cookie in hadoop.auth= 'hadoop.auth="u=&p="' 'hadoop.auth="u=a%26b&p=a"' 'hadoop.auth="p=alice&u=alice&"' 'x-hadoop.auth="u=alice&p="'; do
    same "the cookie $cookie" "$anonymous" "$(ask /kms/v1/keys/names -H "Cookie: $cookie")"
done
same 'a cookie among others' '["k"] 200' "$(ask /kms/v1/keys/names -H 'Cookie: a=b; hadoop.auth=u=alice&p=alice&t=simple&e=1&s=x; c=d')"
for other in user.name=alice user%2Ename=alice 'x=1&user.name=alice' user.name= doAs=alice; do
    same "dave, and $other" "$twice" "$(ask "/kms/v1/keys/names?$other" -H 'Cookie: hadoop.auth="u=dave&p=dave"')"
done
for name in '' 'a%26b' 'a+b'; do
    same "a handshake for $name" $'401\nscheme PseudoAuth' "$(head_of ask "/kms/v1/keys?user.name=$name")"
done
for target in /nn/v1/zones /kms/v1/../../nn/v1/zones /handshake /anonymous / /kms/v2/keys; do
    same "no location: $target" 404 "$(ask "$target" --path-as-is -o /dev/null -H 'Cookie: hadoop.auth="u=hdfs&p=hdfs"' | tr -d ' ')"
done

# ---- TLS: the certificate alone names the user

same 'TLS: the handshake begins' $'401\nscheme PseudoAuth' "$(head_of ask_over_tls alice /kms/v1/keys)"
same 'TLS: the handshake of alice' '200' "$(head_of ask_over_tls alice '/kms/v1/keys?user.name=alice' | head -1)"
for who in dave hdfs 'alice/alice' 'x/alice'; do
    same "TLS: the handshake of alice for $who" $'401\nscheme PseudoAuth' "$(head_of ask_over_tls alice "/kms/v1/keys?user.name=$who")"
done
same 'TLS: names' '["k"] 200' "$(ask_over_tls alice /kms/v1/keys/names -H 'Cookie: hadoop.auth="u=alice&p=alice"')"
same 'TLS: a cookie of another user' '["k"] 200' "$(ask_over_tls alice /kms/v1/keys/names -H 'Cookie: hadoop.auth="u=dave&p=dave"')"
same 'without TLS that user is denied' "$denied\"message\":\"K3 Denied ServiceAcl GET_KEYS\"}} 403" \
    "$(ask /kms/v1/keys/names -H 'Cookie: hadoop.auth="u=dave&p=dave"')"
same 'TLS: another user in the query' "$twice" "$(ask_over_tls alice '/kms/v1/keys/names?user.name=hdfs')"
same 'TLS: another organization' "$anonymous" "$(ask_over_tls other /kms/v1/keys/names -H 'Cookie: hadoop.auth="u=alice&p=alice"')"
same 'TLS: no certificate' 400 "$(curl -s -m 20 --unix-socket "$room/tls.sock" --insecure -o /dev/null -w '%{http_code}' https://localhost/kms/v1/keys/names)"

[ "$failures" -eq 0 ]
