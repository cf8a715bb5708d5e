# What registry-admin, registry-backup and registry-restore share: the settings, and a service that
# is paused, or stopped for a while and started again whatever happens.
#
# shellcheck shell=bash

# The settings: each is a variable of the environment, and these are what the package installs.
cli=${REGISTRY_CLI:-/usr/bin/registry_cli}
db=${REGISTRY_DB:-/var/lib/registry/team.db}
user=${REGISTRY_USER:-registry}
unit=${REGISTRY_UNIT:-registry.service}
port=${REGISTRY_PORT:-8080}
lock=${REGISTRY_LOCK:-/run/kondziga.lock}
# The socket file is of the server of that file: who names another file or unit names its socket too.
socket=${REGISTRY_SOCKET:-}
[ -n "$socket${REGISTRY_DB:-}${REGISTRY_UNIT:-}" ] || socket=/run/kondziga/admin.sock
# Where systemd does not run, these two are commands that stop and start the server.
stop_command=${REGISTRY_STOP:-}
start_command=${REGISTRY_START:-}

me=$(basename "$0")
name=$(basename "$db" .db)
stopped=
starting=
ended=
started_again=yes

say() { echo "$me: $*" >&2; }

# give_up STATUS TEXT: the script ends. 1 is refused, 2 is bad use, 3 is a fault.
give_up() {
    local status=$1
    shift
    say "$*"
    exit "$status"
}
bad_use() { give_up 2 "$* (see $me -h)"; }

# settings_help: what help says of the settings.
settings_help() {
    cat << END
Settings, from the environment:
  REGISTRY_DB     the registry's file          ($db)
  REGISTRY_CLI    the program                  ($cli)
  REGISTRY_USER   the service's user           ($user)
  REGISTRY_UNIT   the unit of systemd          ($unit)
  REGISTRY_SOCKET its socket file (serve --admin)
                  (${socket:-none, since REGISTRY_DB or REGISTRY_UNIT is set})
  REGISTRY_PORT   the port that it listens on  ($port)
  REGISTRY_WAIT   seconds to wait until it listens again
                  (${REGISTRY_WAIT:-120, and 64 more for each GiB of the file})
  REGISTRY_LOCK   the file that keeps two commands apart  ($lock)
  REGISTRY_STOP, REGISTRY_START
                  commands that stop and start the server where systemd does not run

Exit status: 0 done, 1 refused, 2 bad use, 3 a fault of storage or of the service.
END
}

# can_work: root or the service's user runs this, the program is there, and no other command is at
# work.
can_work() {
    local real
    [ -x "$cli" ] || give_up 3 "no program at $cli"
    id "$user" > /dev/null 2>&1 || give_up 3 "no user $user on this machine"
    [ "$(id -u)" = 0 ] || [ "$(id -un)" = "$user" ] || give_up 3 "run it as root"
    [[ ${REGISTRY_WAIT:-0} =~ ^[0-9]{1,6}$ ]] || bad_use "REGISTRY_WAIT is a number of seconds"
    umask 077
    # The log and the copies are beside the file, where a link leads.
    real=$(readlink -f -- "$db") && db=$real
    take_lock
    forget_copies
}

# patience: how many seconds an opening may take. It reads the whole file, some 16 s a GiB; a slow
# machine may take four times as long.
patience() {
    local bytes
    bytes=$(as_service stat -Lc %s -- "$db" 2> /dev/null) || bytes=0
    echo $((10#${REGISTRY_WAIT:-$((120 + bytes / 16777216))}))
}

# make_lock: root makes the lock's file where tmpfiles.d has not, for the service's user too. It is
# made with that group at once, and anew, so that no link is followed.
make_lock() {
    [ "$(id -u)" = 0 ] && [ ! -e "$lock" ] && [ ! -L "$lock" ] || return 0
    # shellcheck disable=SC2016 # the inner shell expands it
    (umask 117 && setpriv --regid "$(id -g "$user")" --clear-groups -- \
        bash -Cc ': > "$1"' bash "$lock") 2> /dev/null
}
# take_lock: no other command is at work, whether root's or the service's user's. The lock's file is
# never written to, and a link is refused, since that user may have put it there.
take_lock() {
    local seconds
    seconds=$(patience)
    make_lock
    [ ! -L "$lock" ] || give_up 3 "$lock is a link: remove it"
    exec 9<> "$lock" || give_up 3 "can't open $lock: root makes it, by any command"
    if [ -L "$lock" ] || [ ! -f /dev/fd/9 ] || [ ! "$lock" -ef /dev/fd/9 ]; then
        give_up 3 "$lock is no file of its own"
    fi
    flock -w "$seconds" 9 || give_up 3 "another command has held $lock for $seconds seconds"
}

# forget_copies: the copies go that a registry-restore or a registry-admin has left which was killed.
# None is at work, since the lock is held here.
forget_copies() {
    local folder c='[A-Za-z0-9]'
    for folder in "$(dirname "$db")"/{restore,copy}."$name".$c$c$c$c$c$c; do
        [ ! -d "$folder" ] || as_service rm -rf -- "$folder"
    done
}

# as_service COMMAND ARGUMENT..: runs it as the service's user, so that each file that it makes is
# that user's. It does not inherit the lock.
as_service() {
    if [ "$(id -un)" = "$user" ]; then
        "$@" 9>&-
    elif command -v setpriv > /dev/null; then
        setpriv --reuid "$user" --regid "$(id -g "$user")" --init-groups -- "$@" 9>&-
    elif command -v runuser > /dev/null; then
        runuser -u "$user" -- "$@" 9>&-
    else
        # shellcheck disable=SC2016 # the inner shell expands it
        su -s /bin/sh -c 'exec "$0" "$@"' -- "$user" "$@" 9>&-
    fi
}

# check_copy WHAT OTHERWISE COMMAND..: the command, which is an audit of a copy, says ok. Then the
# copy's log is moved into it: the copy alone is the whole.
check_copy() {
    local what=$1 otherwise=$2 said status
    shift 2
    said=$("$@" 2>&1 < /dev/null 9>&-)
    status=$?
    [ "$status" = 0 ] && [ "$said" = ok ] && return 0
    [ "$status" != 0 ] || status=3
    give_up "$status" "audit of $what says: $said; $otherwise"
}

has_systemd() { [ -d /run/systemd/system ]; }

# is_served: a server takes commands at the socket file: that of the unit, if it is active, or where
# systemd has no part in it, one that REGISTRY_SOCKET names.
is_served() {
    [ -n "$socket" ] || return 1
    if [ -n "$stop_command" ] || ! has_systemd; then
        [ -n "${REGISTRY_SOCKET:-}" ] && [ -S "$socket" ]
        return
    fi
    has_door && wait_for_door
}
# has_door: the unit is active, and its command names this socket file.
has_door() {
    systemctl is-active --quiet "$unit" &&
        [[ "$(systemctl show --property ExecStart --value "$unit") " = *" --admin $socket "* ]]
}
# wait_for_door: a server that has just been started opens its file first.
wait_for_door() {
    local deadline=$((SECONDS + $(patience)))
    until [ -S "$socket" ]; do
        [ $SECONDS -lt $deadline ] || give_up 3 "$unit is active, but makes no $socket"
        sleep 0.2
        has_door || return 1
    done
}

# pause_service: the server serves nobody, until `go_on` or until this script is gone: then the
# client's input ends. `$to` is that input, and no process that copies inherits it.
pausing=
to=
pause_service() {
    local from said=
    coproc paused { as_service "$cli" pause --at "$socket"; }
    # In this order, since a signal may come between: go_on shuts the input before it waits.
    from=${paused[0]:-} to=${paused[1]:-}
    pausing=$!
    [ -z "$from" ] || read -r -t "$(patience)" said <&"$from"
    [ "$said" = paused ] || give_up 3 "no server pauses at $socket"
}
# go_on: the pause ends. It fails if the server went on before.
go_on() {
    local pid=$pausing
    [ -n "$pid" ] || return 0
    pausing=
    [ -z "$to" ] || exec {to}>&-
    wait "$pid"
}

# writes: what each write to the file or its log changes.
writes() { as_service stat -Lc '%i %s %y' -- "$db" "$db-wal" 2> /dev/null; }
# copy_at_rest COPY: the file and its log as they were at one instant, by the script's copy_file. A
# server that someone has started by hand is not stopped here.
copy_at_rest() {
    local before
    before=$(writes)
    copy_file || give_up 3 "can't write $1"
    [ "$(writes)" = "$before" ] || give_up 3 "another program writes to $db: stop it first"
}
# copy_in_pause COPY: the same, while the server is paused.
copy_in_pause() {
    local since=$SECONDS
    pause_service
    copy_at_rest "$1"
    go_on || give_up 3 "the server went on before the copy was whole"
    say "the registry paused for $((SECONDS - since)) s"
}

# stop_service: stops the server, if it runs or has failed. A server that was not running stays
# stopped afterwards.
stop_service() {
    if [ -n "$stop_command" ]; then
        stopped=$SECONDS
        bash -c "$stop_command" >&2 9>&- || give_up 3 "REGISTRY_STOP failed: $stop_command"
    elif has_systemd; then
        [ "$(systemctl is-active "$unit")" != inactive ] || return 0
        stopped=$SECONDS
        systemctl stop "$unit" || give_up 3 "can't stop $unit"
    fi
}

# start: starts the server, apart from the terminal, whose signals may be what ended the script.
start() {
    if [ -n "$start_command" ]; then
        setsid --wait bash -c "$start_command" >&2 9>&-
    else
        systemctl reset-failed "$unit" 2> /dev/null
        setsid --wait systemctl start "$unit"
    fi
}
# is_listening: the server accepts connections.
is_listening() {
    timeout 5 bash -c "exec 3<> /dev/tcp/127.0.0.1/$port" 2> /dev/null
}
has_failed() {
    [ -z "$start_command" ] && has_systemd && systemctl is-failed --quiet "$unit"
}

# start_service: starts the server again, if it was stopped here, waits until it listens, and tells
# how long it was away. Meanwhile the server checks its whole file.
start_service() {
    local since=$stopped deadline
    [ -n "$since" ] || return 0
    started_again=
    # A signal that comes now ends the script after the start. It may have ended the first start.
    starting=yes
    start || start || since=
    stopped=
    starting=
    [ -z "$ended" ] || exit 3
    [ -n "$since" ] || return 0
    deadline=$((SECONDS + $(patience)))
    until is_listening; do
        if has_failed || [ $SECONDS -ge $deadline ]; then
            return 0
        fi
        sleep 0.2
    done
    started_again=yes
    say "the registry was away for $((SECONDS - since)) s"
}

# finish STATUS: the end, however it comes.
finish() {
    local status=$1
    trap : INT TERM HUP PIPE
    trap - EXIT
    ended=
    go_on
    start_service
    if [ -z "$started_again" ]; then
        say "the registry does not listen on port $port yet: see journalctl -u $unit"
        [ "$status" != 0 ] || status=3
    fi
    clean_up
    exit "$status"
}
# end: a signal. It may come as the script has begun to finish.
end() {
    if [ -n "$starting" ]; then
        ended=yes
    else
        finish 3
    fi
}
# clean_up: a script that makes files for a while has one of its own.
clean_up() { :; }

trap 'finish $?' EXIT
trap end INT TERM HUP
# Where nobody reads what is said, the rest is still done.
trap : PIPE
