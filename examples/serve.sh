#!/bin/sh
# serve.sh [PROGRAM]: a story of the server in curl: each call of the REST API, and a few that are refused, with the code and the body
# of each reply. The program, ../connect where none is named, serves in a folder that is made for it and removed at the end. It needs
# curl, and port 8083. What it prints stands in serve.replies, and checks/serving compares the two.
#
# The names are those of Kafka Connect's quickstart, and a call is spelled as in its documentation, so what is shown here can be typed at
# a Connect worker, too. Where ours answers otherwise is said beside the call; docs/OPERATING.md has all differences in one table.
program=$(realpath "${1:-$(dirname "$0")/../connect}") || exit 1
folder=$(mktemp -d) || exit 1
cd "$folder" || exit 1
export no_proxy=localhost

# The feed that the source reads.
mkdir feeds
for line in 01 02 03 04 05 06 07 08 09 10 11 12; do echo "line-$line"; done >feeds/test.txt

# Where the port answers already, another program has it. `./connect` builds the program first where it isn't built.
if curl -s -o reply localhost:8083; then
    echo "serve.sh: port 8083 is taken" >&2
    rm -rf "$folder"
    exit 1
fi
"$program" serve --workers 1 --conns 10000 &
server=$!
trap 'kill $server 2>/dev/null; wait $server 2>/dev/null; rm -rf "$folder"' EXIT
trap 'exit 1' HUP INT TERM
until curl -s -o reply localhost:8083; do
    kill -0 $server 2>/dev/null || exit 1
    sleep 0.1
done

# Makes a call until its reply has that code and holds that text: the worker reads its logs, settles and runs tasks by itself. The
# last reply is told, behind half a minute whatever it is.
ask() { # CODE TEXT CALL
    for _ in $(seq 300); do
        code=$(eval "$3 -s -o reply -w '%{http_code}'")
        case $code-$(cat reply) in "$1"-*"$2"*) break ;; esac
        sleep 0.1
    done
    body=$(cat reply)
    printf '> %s\n%s\n' "$3" "$code${body:+ $body}"
}

# The story. A line that tells a call begins with the code that is due and a text that the reply has to hold, - for any.
while read -r code text call; do
    case $code in
    '' | '#') printf '%s\n' "$code${text:+ $text}${call:+ $call}" ;;
    show) printf '> cat %s\n' "$text" && cat "$text" ;;
    *) ask "$code" "${text#-}" "$call" ;;
    esac
done <<'STORY'
# Nothing is configured yet, and these classes there are: ours have short names, and Connect's own names are taken for two of them.
200 - curl localhost:8083/connectors
200 - curl localhost:8083/connector-plugins

# A source that reads the feed test.txt into the topic connect-test. (Connect's reply has a Location field, too, and its members in another order.)
201 - curl -X POST -H "Content-Type: application/json" --data '{"name": "local-file-source", "config": {"connector.class": "FileStreamSource", "tasks.max": "1", "file": "test.txt", "topic": "connect-test"}}' localhost:8083/connectors
409 exists curl -X POST -H "Content-Type: application/json" --data '{"name": "local-file-source", "config": {"connector.class": "FileStreamSource", "file": "test.txt", "topic": "connect-test"}}' localhost:8083/connectors
# A file that is no feed is refused: feeds are the files that lay in the folder feeds as the program began.
400 feed curl -X PUT -H "Content-Type: application/json" --data '{"connector.class": "FileStreamSource", "file": "other.txt", "topic": "connect-test"}' localhost:8083/connectors/other/config
# A sink that writes the topic's records into the file out/test.sink.txt, by Connect's own name of the class.
201 - curl -X PUT -H "Content-Type: application/json" --data '{"connector.class": "org.apache.kafka.connect.file.FileStreamSinkConnector", "tasks.max": "1", "file": "test.sink.txt", "topics": "connect-test"}' localhost:8083/connectors/local-file-sink/config
200 local-file-source curl localhost:8083/connectors
# What Connect answers with ?expand=status has no counterpart: a query is refused.
400 - curl "localhost:8083/connectors?expand=status"

# Both get their tasks, and run. (A worker's id is its number here, and in Connect its address.)
200 "id":0,"state":"RUNNING" curl localhost:8083/connectors/local-file-source/status
200 "id":0,"state":"RUNNING" curl localhost:8083/connectors/local-file-sink/status
200 - curl localhost:8083/connectors/local-file-source
200 - curl localhost:8083/connectors/local-file-source/config
200 - curl localhost:8083/connectors/local-file-source/tasks
200 - curl localhost:8083/connectors/local-file-source/tasks/0/status
404 - curl localhost:8083/connectors/local-file-source/tasks/1/status
# The source has read all 96 bytes, and the sink has stored that it wrote twelve records.
200 "position":96 curl localhost:8083/connectors/local-file-source/offsets
200 "kafka_offset":12 curl localhost:8083/connectors/local-file-sink/offsets
show out/test.sink.txt

# A changed config; the answer is the connector as it is then.
200 - curl -X PUT -H "Content-Type: application/json" --data '{"connector.class": "FileStreamSource", "tasks.max": "1", "file": "test.txt", "topic": "connect-test", "batch.size": "5"}' localhost:8083/connectors/local-file-source/config
200 "batch.size":"5" curl localhost:8083/connectors/local-file-source/config
# The source is paused and goes on; it and its task are started anew.
202 - curl -X PUT localhost:8083/connectors/local-file-source/pause
200 "id":0,"state":"PAUSED" curl localhost:8083/connectors/local-file-source/status
202 - curl -X PUT localhost:8083/connectors/local-file-source/resume
200 "id":0,"state":"RUNNING" curl localhost:8083/connectors/local-file-source/status
204 - curl -X POST localhost:8083/connectors/local-file-source/restart
204 - curl -X POST localhost:8083/connectors/local-file-source/tasks/0/restart

# Offsets are altered once it is stopped: it goes on behind the eighth line, and the last four come again.
400 STOPPED curl -X PATCH -H "Content-Type: application/json" --data '{"offsets": [{"partition": {"filename": "test.txt"}, "offset": {"position": 64}}]}' localhost:8083/connectors/local-file-source/offsets
204 - curl -X PUT localhost:8083/connectors/local-file-source/stop
200 "tasks":[] curl localhost:8083/connectors/local-file-source/status
200 altered curl -X PATCH -H "Content-Type: application/json" --data '{"offsets": [{"partition": {"filename": "test.txt"}, "offset": {"position": 64}}]}' localhost:8083/connectors/local-file-source/offsets
202 - curl -X PUT localhost:8083/connectors/local-file-source/resume
200 "kafka_offset":16 curl localhost:8083/connectors/local-file-sink/offsets
show out/test.sink.txt

# Those of the sink are altered in the same way, and those of the source reset.
204 - curl -X PUT localhost:8083/connectors/local-file-sink/stop
200 "tasks":[] curl localhost:8083/connectors/local-file-sink/status
200 altered curl -X PATCH -H "Content-Type: application/json" --data '{"offsets": [{"partition": {"kafka_topic": "connect-test", "kafka_partition": 0}, "offset": {"kafka_offset": 15}}]}' localhost:8083/connectors/local-file-sink/offsets
200 "kafka_offset":15 curl localhost:8083/connectors/local-file-sink/offsets
204 - curl -X PUT localhost:8083/connectors/local-file-source/stop
200 "tasks":[] curl localhost:8083/connectors/local-file-source/status
200 reset curl -X DELETE localhost:8083/connectors/local-file-source/offsets
200 "offsets":[] curl localhost:8083/connectors/local-file-source/offsets

# Both are deleted.
204 - curl -X DELETE localhost:8083/connectors/local-file-source
204 - curl -X DELETE localhost:8083/connectors/local-file-sink
200 [] curl localhost:8083/connectors
404 - curl localhost:8083/connectors/local-file-source
STORY
